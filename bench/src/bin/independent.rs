//! The independent planner as a program: standard input to standard output, as `plan` does, or with the word `rows` as
//! the program `rows` does.

use std::io::{self, Read, Write};

fn main() -> io::Result<()> {
    let mut text = Vec::new();
    io::stdin().read_to_end(&mut text)?;
    let mut out = Vec::new();
    match std::env::args().nth(1).as_deref() {
        Some("rows") => bench::rows::convert(&text, &mut out),
        _ => bench::planner::listing(&text, &mut out),
    }
    io::stdout().write_all(&out)
}
