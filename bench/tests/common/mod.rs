//! What the independent planner prints, in parts.

pub fn listing(text: &[u8]) -> String {
    let mut out = Vec::new();
    bench::planner::listing(text, &mut out);
    String::from_utf8(out).expect("listings are plain")
}

/// The cells of each slot; none of a head that is refused.
pub fn table(text: &[u8]) -> Vec<String> {
    let listing = listing(text);
    let slots = listing.lines().filter(|line| line.starts_with("(slot "));
    slots.map(|line| line.trim_end_matches(')').splitn(3, ' ').nth(2).expect("its cells").to_owned()).collect()
}

/// The cells of each slot, of a text whose lines are all accepted.
pub fn cells(text: &str) -> Vec<String> {
    assert!(!listing(text.as_bytes()).contains("refused"), "{text}");
    table(text.as_bytes())
}

/// The lines of a listing before its slots.
pub fn answers(text: &str) -> Vec<String> {
    let listing = listing(text.as_bytes());
    let answers = listing.lines().filter(|line| !line.starts_with("(slot ") && !line.starts_with("(granted "));
    answers.map(str::to_owned).collect()
}

/// What the program `rows` prints for this input.
pub fn converted(input: &str) -> String {
    let mut out = Vec::new();
    bench::rows::convert(input.as_bytes(), &mut out);
    String::from_utf8(out).expect("what is printed is plain")
}
