//! The planner over slices: include/planner.h in Rust. Everything unsafe is here.

/// The version of the layout: stored beside a frame, so that no frame of another one is restored.
pub const VERSION: u8 = 5;

const FRAME_NUMBERS: usize = 16;
const PRESETS_BYTES: usize = 128;
const TABLE_CELLS: usize = 512;
const GRANTS_BYTES: usize = 32;
const OUT_BYTES: usize = 8192;

/// The bytes of a frame as it is stored: the version, the frame's numbers, the presets, the table.
pub const STORED_BYTES: usize = 1 + 8 * FRAME_NUMBERS + PRESETS_BYTES + 2 * TABLE_CELLS;

/// The places of a frame's numbers.
mod place {
    pub const SLOTS: usize = 0;
    pub const BRIDGES: usize = 1;
    pub const PRESETS: usize = 2;
    pub const TIE_NOW: usize = 14;
}

/// Bytes of a preset record; its number is the first.
const PRESET_BYTES: usize = 4;

extern "C" {
    fn planner_run_text(
        text: *const u8,
        text_len: usize,
        frame: *mut u64,
        frame_len: usize,
        presets: *mut u8,
        presets_len: usize,
        table: *mut u16,
        table_len: usize,
        out: *mut u8,
        out_len: usize,
        end: *mut u64,
    ) -> u32;

    fn planner_event(
        frame: *mut u64,
        frame_len: usize,
        presets: *const u8,
        presets_len: usize,
        table: *mut u16,
        table_len: usize,
        line: *const u8,
        line_len: usize,
        number: *mut u64,
    ) -> u32;

    fn planner_plan(
        frame: *const u64,
        frame_len: usize,
        presets: *const u8,
        presets_len: usize,
        table: *mut u16,
        table_len: usize,
        grants: *mut u8,
        grants_len: usize,
    ) -> u32;
}

// SAFETY, of every call below: each pointer comes from a slice or an array and is handed over with that one's length; no two of a
// call overlap; none is kept.

/// What a cell holds.
#[derive(Clone, Copy, Debug, PartialEq, Eq)]
pub enum Cell {
    Empty,
    Busy,
    Required(u8),
    Refinement(u8),
    Call(u8),
}

/// A cell is kind * 256 + number.
fn cell(value: u16) -> Cell {
    let [kind, number] = value.to_be_bytes();
    match kind {
        0 => Cell::Empty,
        1 => Cell::Busy,
        2 => Cell::Required(number),
        3 => Cell::Refinement(number),
        _ => Cell::Call(number),
    }
}

/// Why a head or a line was refused: its line (0 of a single event) and the number of the cause.
#[derive(Clone, Copy, Debug, PartialEq, Eq)]
pub struct Refusal {
    pub line: u64,
    pub cause: u32,
}

/// A running frame: the head with the clock and the order of ties in force, the presets, the table.
#[derive(Clone, Debug, PartialEq, Eq)]
pub struct Frame {
    numbers: [u64; FRAME_NUMBERS],
    presets: [u8; PRESETS_BYTES],
    table: [u16; TABLE_CELLS],
}

impl Frame {
    /// The frame that a station text leaves.
    pub fn of_text(text: &[u8]) -> Result<Frame, Refusal> {
        let mut frame = Frame { numbers: [0; FRAME_NUMBERS], presets: [0; PRESETS_BYTES], table: [0; TABLE_CELLS] };
        let (mut out, mut end) = ([0u8; OUT_BYTES], 0);
        let cause = unsafe {
            planner_run_text(
                text.as_ptr(),
                text.len(),
                frame.numbers.as_mut_ptr(),
                FRAME_NUMBERS,
                frame.presets.as_mut_ptr(),
                PRESETS_BYTES,
                frame.table.as_mut_ptr(),
                TABLE_CELLS,
                out.as_mut_ptr(),
                OUT_BYTES,
                &mut end,
            )
        };
        if cause == 0 {
            Ok(frame)
        } else {
            Err(Refusal { line: end, cause })
        }
    }

    /// What the plan of this head grants: each preset's number and its refinement slots.
    pub fn grants(&self) -> Result<Vec<(u8, u8)>, Refusal> {
        let (mut table, mut grants) = ([0u16; TABLE_CELLS], [0u8; GRANTS_BYTES]);
        let cause = unsafe {
            planner_plan(
                self.numbers.as_ptr(),
                FRAME_NUMBERS,
                self.presets.as_ptr(),
                PRESETS_BYTES,
                table.as_mut_ptr(),
                TABLE_CELLS,
                grants.as_mut_ptr(),
                GRANTS_BYTES,
            )
        };
        if cause != 0 {
            return Err(Refusal { line: 0, cause });
        }
        let numbers = self.presets.chunks(PRESET_BYTES).map(|record| record[0]);
        Ok(numbers.zip(grants).take(self.numbers[place::PRESETS] as usize).collect())
    }

    /// One event line, its end included: the new clock, how many refinement cells were lost, or of a tie 1 for hold and 0 for place.
    /// A refusal changes nothing.
    pub fn event(&mut self, line: &str) -> Result<u64, Refusal> {
        let mut number = 0;
        let cause = unsafe {
            planner_event(
                self.numbers.as_mut_ptr(),
                FRAME_NUMBERS,
                self.presets.as_ptr(),
                PRESETS_BYTES,
                self.table.as_mut_ptr(),
                TABLE_CELLS,
                line.as_ptr(),
                line.len(),
                &mut number,
            )
        };
        if cause == 0 {
            Ok(number)
        } else {
            Err(Refusal { line: 0, cause })
        }
    }

    /// Whether the order of ties in force is hold.
    pub fn holds(&self) -> bool {
        self.numbers[place::TIE_NOW] != 0
    }

    /// The cells of each slot, bridge by bridge.
    pub fn slots(&self) -> impl Iterator<Item = Vec<Cell>> + '_ {
        let (slots, bridges) = (self.numbers[place::SLOTS] as usize, self.numbers[place::BRIDGES] as usize);
        self.table.chunks(bridges.max(1)).take(slots).map(|row| row.iter().map(|&value| cell(value)).collect())
    }

    /// The frame as bytes, lowest byte of a number first, after the version of the layout.
    pub fn stored(&self) -> Vec<u8> {
        let mut bytes = vec![VERSION];
        bytes.extend(self.numbers.iter().flat_map(|number| number.to_le_bytes()));
        bytes.extend(self.presets);
        bytes.extend(self.table.iter().flat_map(|cell| cell.to_le_bytes()));
        bytes
    }

    /// The frame that was stored; none of bytes of another version or length. Whether it is sound, the next event tells: 2 or 11.
    pub fn restored(bytes: &[u8]) -> Option<Frame> {
        if bytes.len() != STORED_BYTES || bytes[0] != VERSION {
            return None;
        }
        let (numbers, rest) = bytes[1..].split_at(8 * FRAME_NUMBERS);
        let (presets, table) = rest.split_at(PRESETS_BYTES);
        Some(Frame {
            numbers: std::array::from_fn(|i| u64::from_le_bytes(numbers[8 * i..8 * i + 8].try_into().unwrap())),
            presets: presets.try_into().unwrap(),
            table: std::array::from_fn(|i| u16::from_le_bytes(table[2 * i..2 * i + 2].try_into().unwrap())),
        })
    }
}
