//! A frame that is planned, takes events, is stored as bytes, restored, and goes on. Prints each step.

mod planner;

use planner::{Cell, Frame};

const HEAD: &str = "(frame 7 2)\n(busy 2 (2 3))\n(preset 1 0 2 1)\n(preset 2 1 1 2)\n";

fn event(frame: &mut Frame, line: &str) {
    match frame.event(&format!("{line}\n")) {
        Ok(number) => println!("{line}: {number}"),
        Err(refusal) => println!("{line}: refused, {}", refusal.cause),
    }
}

fn shown(cell: Cell) -> String {
    match cell {
        Cell::Empty => "0".to_owned(),
        Cell::Busy => "-".to_owned(),
        Cell::Required(number) => format!("m{number}"),
        Cell::Refinement(number) => format!("o{number}"),
        Cell::Call(number) => format!("c{number}"),
    }
}

fn print(frame: &Frame) {
    for (slot, cells) in frame.slots().enumerate() {
        println!("slot {}: {}", slot + 1, cells.into_iter().map(shown).collect::<Vec<_>>().join(" "));
    }
}

fn main() {
    if let Err(refusal) = Frame::of_text(b"(frame 4 2)\n(preset 1 0 5 0)\n") {
        println!("a head that does not fit: refused at line {}, {}", refusal.line, refusal.cause);
    }

    let mut frame = Frame::of_text(HEAD.as_bytes()).expect("a good head");
    for (number, slots) in frame.grants().expect("a good head") {
        println!("preset {number} is granted {slots}");
    }
    event(&mut frame, "(clock 2)");
    event(&mut frame, "(call (9 5))");
    event(&mut frame, "(call (9 1))");
    event(&mut frame, "(tie hold)");
    print(&frame);

    let bytes = frame.stored();
    println!("stored: {} bytes", bytes.len());
    let mut other = bytes.clone();
    other[0] += 1;
    println!("restored from another version: {}", Frame::restored(&other).is_some());
    let mut frame = Frame::restored(&bytes).expect("this version");
    println!("restored, its order of ties: {}", if frame.holds() { "hold" } else { "place" });

    // After its first slot job 11 needs one more, as job 10 does. It goes first, since the restored order is hold; by place job 10 would.
    event(&mut frame, "(call (10 1) (11 2))");
    event(&mut frame, "(call (12 1))");
    event(&mut frame, "(call (13 1))");
    print(&frame);
}
