//! The proved planner. All of the foreign interface is here: what include/planner.h promises, over slices.

/// Output bytes that every text's listing fits in: a text of 32,768 bytes has at most that many lines, and a refused
/// line takes 18 bytes.
pub const OUT: usize = 1 << 20;

#[cfg(feature = "archive")]
pub use archive::{event, event_over, listing, plan, read_rows, run_text, run_text_over, write_rows, Running, GRANTS};
#[cfg(not(feature = "archive"))]
pub use program::listing;
pub use program::rows;

/// True if the proved planner runs inside this process, so that its times can be taken.
pub const IN_PROCESS: bool = cfg!(feature = "archive");

#[cfg(feature = "archive")]
mod archive {
    use crate::frame::{Table, CELLS};
    use crate::lent::Lent;

    use super::OUT;

    const FRAME: usize = 16;
    const PRESETS: usize = 128;
    pub const GRANTS: usize = 32;

    /// "Text above 32,768 bytes": refused before anything is written.
    const TEXT_TOO_LONG: u32 = 10;

    extern "C" {
        fn planner_listing(
            text: *const u8,
            text_len: usize,
            table: *mut u16,
            table_len: usize,
            out: *mut u8,
            out_len: usize,
            bytes: *mut u64,
        ) -> u32;

        fn planner_run_text(
            text: *const u8,
            text_len: usize,
            frame: *mut u64,
            frame_len: usize,
            presets: *mut u8,
            presets_len: usize,
            table: *mut u16,
            table_len: usize,
            out: *mut u8,
            out_len: usize,
            end: *mut u64,
        ) -> u32;

        fn planner_plan(
            frame: *const u64,
            frame_len: usize,
            presets: *const u8,
            presets_len: usize,
            table: *mut u16,
            table_len: usize,
            grants: *mut u8,
            grants_len: usize,
        ) -> u32;

        fn planner_event(
            frame: *mut u64,
            frame_len: usize,
            presets: *const u8,
            presets_len: usize,
            table: *mut u16,
            table_len: usize,
            line: *const u8,
            line_len: usize,
            number: *mut u64,
        ) -> u32;

        fn planner_read_rows(
            text: *const u8,
            text_len: usize,
            frame: *mut u64,
            frame_len: usize,
            presets: *const u8,
            presets_len: usize,
            row: *mut u64,
        ) -> u32;

        fn planner_write_rows(
            frame: *const u64,
            frame_len: usize,
            presets: *const u8,
            presets_len: usize,
            out: *mut u8,
            out_len: usize,
            bytes: *mut u64,
        ) -> u32;
    }

    // SAFETY, of all six: each pointer comes with the length of the slice that it was taken from, no two overlap, and
    // none is kept after the call.

    /// Writes the listing of a text to the front of `out` and yields its length. Of a text that is too long the program
    /// prints the one line of its refusal.
    pub fn listing(text: &[u8], table: &mut [u16], out: &mut [u8]) -> usize {
        let mut bytes = 0;
        let cause = unsafe {
            planner_listing(
                text.as_ptr(),
                text.len(),
                table.as_mut_ptr(),
                table.len(),
                out.as_mut_ptr(),
                out.len(),
                &mut bytes,
            )
        };
        if cause == TEXT_TOO_LONG {
            let line = b"(refused 0 10)\n";
            out[..line.len()].copy_from_slice(line);
            return line.len();
        }
        assert_eq!(cause, 0, "the buffers are long enough");
        bytes as usize
    }

    /// A frame as it crosses the boundary: the head's numbers with the clock and the order of ties in force, the preset
    /// records, the table.
    #[derive(Clone, Debug, PartialEq, Eq)]
    pub struct Running {
        pub frame: [u64; FRAME],
        pub presets: [u8; PRESETS],
        pub table: Table,
    }

    /// Runs a text, which must be a good one, and yields the frame that it leaves.
    pub fn run_text(text: &[u8]) -> Running {
        let mut running = Running { frame: [0; FRAME], presets: [0; PRESETS], table: [0; CELLS] };
        let (cause, _) = run_text_over(text, &mut running, &mut vec![0; OUT]);
        assert_eq!(cause, 0, "the text is good");
        running
    }

    /// Runs a text over whatever stands in a frame; yields the cause or 0, and how many bytes its listing has in `out` or
    /// the line at fault.
    pub fn run_text_over(text: &[u8], running: &mut Running, out: &mut [u8]) -> (u32, u64) {
        let mut end = u64::MAX;
        let cause = unsafe {
            planner_run_text(
                text.as_ptr(),
                text.len(),
                running.frame.as_mut_ptr(),
                FRAME,
                running.presets.as_mut_ptr(),
                PRESETS,
                running.table.as_mut_ptr(),
                CELLS,
                out.as_mut_ptr(),
                out.len(),
                &mut end,
            )
        };
        (cause, end)
    }

    /// Plans the head of a frame into its table; the grants are in file order.
    pub fn plan(running: &mut Running, grants: &mut [u8; GRANTS]) -> u32 {
        unsafe {
            planner_plan(
                running.frame.as_ptr(),
                FRAME,
                running.presets.as_ptr(),
                PRESETS,
                running.table.as_mut_ptr(),
                CELLS,
                grants.as_mut_ptr(),
                GRANTS,
            )
        }
    }

    /// One event line on a frame, which is checked first: how many cells it evicts, the new clock, or 1 for hold and 0 for
    /// place; or the refusal.
    pub fn event(running: &mut Running, line: &[u8]) -> Result<u64, u32> {
        match event_over(&mut running.frame, &running.presets, &mut running.table, line) {
            (0, number) => Ok(number),
            (cause, _) => Err(cause),
        }
    }

    /// The same on records of any length; yields the cause or 0, and the number that goes with it.
    pub fn event_over(frame: &mut [u64], presets: &[u8], table: &mut [u16], line: &[u8]) -> (u32, u64) {
        let mut number = u64::MAX;
        let cause = unsafe {
            planner_event(
                frame.as_mut_ptr(),
                frame.len(),
                presets.as_ptr(),
                presets.len(),
                table.as_mut_ptr(),
                table.len(),
                line.as_ptr(),
                line.len(),
                &mut number,
            )
        };
        (cause, number)
    }

    /// Puts rows in place of a frame's busy slots; yields the cause or 0, and how many rows there are or the row at
    /// fault.
    pub fn read_rows(lent: &mut Lent, text: &[u8]) -> (u32, u64) {
        let mut row = u64::MAX;
        let cause = unsafe {
            planner_read_rows(
                text.as_ptr(),
                text.len(),
                lent.frame.as_mut_ptr(),
                lent.frame.len(),
                lent.presets.as_ptr(),
                lent.presets.len(),
                &mut row,
            )
        };
        (cause, row)
    }

    /// Writes a frame's busy slots as rows to the front of `out`; yields the cause or 0, and how many bytes they are.
    pub fn write_rows(lent: &Lent, out: &mut [u8]) -> (u32, u64) {
        let mut bytes = u64::MAX;
        let cause = unsafe {
            planner_write_rows(
                lent.frame.as_ptr(),
                lent.frame.len(),
                lent.presets.as_ptr(),
                lent.presets.len(),
                out.as_mut_ptr(),
                out.len(),
                &mut bytes,
            )
        };
        (cause, bytes)
    }
}

mod program {
    use std::io::Write;
    use std::process::{Command, Stdio};

    /// Runs the program `plan`, or another that the environment's PLAN names, and writes what it prints to the front of
    /// `out`; yields its length. Its table stays with it.
    #[cfg(not(feature = "archive"))]
    pub fn listing(text: &[u8], _table: &mut [u16], out: &mut [u8]) -> usize {
        let printed = printed("PLAN", "../target/bin/plan", text);
        out[..printed.len()].copy_from_slice(&printed);
        printed.len()
    }

    /// Runs the program `rows`, or another that the environment's ROWS names; yields what it prints.
    pub fn rows(input: &[u8]) -> Vec<u8> {
        printed("ROWS", "../target/bin/rows", input)
    }

    /// What a program prints for this standard input: the one that the environment names, or the usual one.
    fn printed(named: &str, usual: &str, input: &[u8]) -> Vec<u8> {
        let program = std::env::var_os(named).unwrap_or_else(|| usual.into());
        let mut child = Command::new(&program)
            .stdin(Stdio::piped())
            .stdout(Stdio::piped())
            .spawn()
            .unwrap_or_else(|error| panic!("{}: {error}", program.to_string_lossy()));
        let mut stdin = child.stdin.take().expect("it is piped");
        let input = input.to_vec();
        // From another thread: the program may print before it has read everything.
        let writer = std::thread::spawn(move || {
            // A program that has read enough may close its end; what it prints tells whether it should have.
            let _ = stdin.write_all(&input);
        });
        let result = child.wait_with_output().expect("the program's output");
        writer.join().expect("the writing thread");
        let mut printed = result.stdout;
        // A program that ends badly is not one that prints nothing.
        if !result.status.success() {
            let _ = write!(printed, "{}", result.status);
        }
        printed
    }
}
