//! Tests that the examples of docs/DECISIONS.md are those of decisions.lines, and that they are answered so.

use std::collections::BTreeSet;

use crate::exports::NOT_YET;
use crate::lines::{Mode, work};
use crate::programs::Program;

const PAGE: &str = include_str!("../../../docs/DECISIONS.md");
const LINES: &str = include_str!("../../decisions.lines");

/// A decision's name (`R7`) and its text.
type Entry = (String, String);

/// The name that begins a line after this mark, as in `R7. A scanned ¬`.
fn name_after(line: &str, mark: &str) -> Option<String> {
    let (name, _) = line.strip_prefix(mark)?.split_once('.')?;
    let (letter, number) = name.split_at_checked(1)?;
    ("RAM".contains(letter) && number.parse::<u8>().is_ok()).then(|| name.to_string())
}

/// The entries of a text, each from the line that names it up to the next.
fn entries(text: &str, mark: &str) -> Vec<Entry> {
    let mut out: Vec<Entry> = Vec::new();
    for line in text.lines().take_while(|line| *line != "## Forms of document 01") {
        match (name_after(line, mark), out.last_mut()) {
            (Some(name), _) => out.push((name, line.to_string() + "\n")),
            (None, Some((_, text))) => text.push_str(&format!("{line}\n")),
            (None, None) => {}
        }
    }
    out
}

/// The bytes that an entry of the page shows, each as the line format has them.
fn bytes_shown(text: &str) -> Vec<String> {
    let quoted = text.split('`').skip(1).step_by(2);
    let is_byte = |word: &str| word.len() == 2 && word.bytes().all(|c| c.is_ascii_hexdigit());
    let shown = quoted.filter(|quoted| quoted.split(' ').all(is_byte));
    shown.map(|bytes| bytes.replace(' ', "").to_lowercase()).collect()
}

#[test]
fn each_reading_has_its_lines() {
    let lines = entries(LINES, "# ");
    let readings = entries(PAGE, "**");
    assert!(readings.len() >= 26);
    for (name, text) in readings {
        let of_name = lines.iter().find(|(other, _)| *other == name);
        let (_, found) = of_name.unwrap_or_else(|| panic!("{name} has no lines"));
        // A list of over 60,000 bytes stands in neither.
        assert!(found.contains(" -> ") || name == "R3", "{name} has no request");
        for bytes in bytes_shown(&text) {
            assert!(found.contains(&bytes), "{name} shows {bytes}");
        }
    }
    for number in 1..=12 {
        assert!(lines.iter().any(|(name, text)| *name == format!("M{number}") && text.contains(" -> ")));
    }
}

#[test]
fn bytes_on_the_page_are_found() {
    let text = "Goal `20 0A` and `03`, not `compare/paper` or `G`.\n`FF`";
    assert_eq!(bytes_shown(text), ["200a", "03", "ff"]);
    assert_eq!(name_after("**R7. A", "**"), Some("R7".to_string()));
    assert_eq!(name_after("**Rules. A", "**"), None);
}

#[test]
fn each_line_is_answered_so() {
    for by in [Program::Paper, Program::Ours].into_iter().filter(|by| by.missing().is_none()) {
        let mut out = Vec::new();
        let absent = if by == Program::Ours { NOT_YET.map(str::to_string).into() } else { BTreeSet::new() };
        let good = work(by, Mode::Check(&absent), LINES.as_bytes(), &mut out);
        assert!(good.expect("memory can be written"), "{}: {}", by.name(), String::from_utf8_lossy(&out));
    }
}
