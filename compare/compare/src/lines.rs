//! `compare lines`: answers requests from standard input, one to a line, or holds each answer to the
//! one on its line. A line that begins with `!` is planted: what follows has to be found wrong.

use std::collections::BTreeSet;
use std::io::{self, BufRead, Write};

use crate::absent::{Answered, told};
use crate::programs::Program;
use crate::request::{ABSENT, Request, answer_line, parted};

const BAD: &str = "bad line";

/// What is done with an answer.
#[derive(Clone, Copy, PartialEq, Eq, Debug)]
pub enum Mode<'a> {
    /// It is printed.
    Answer,
    /// It is held to what follows `->`. The program has to lack exactly these acts, as far as they are
    /// asked.
    Check(&'a BTreeSet<String>),
}

/// Answers or checks each line by one program; whether all is well.
pub fn work(by: Program, mode: Mode, input: impl BufRead, mut out: impl Write) -> io::Result<bool> {
    let mut tally = Tally::default();
    for (index, line) in input.split(b'\n').enumerate() {
        // Bytes that are no text make a line that cannot be read.
        let line = String::from_utf8_lossy(&line?).into_owned();
        if is_remark(&line) {
            continue;
        }
        let (is_planted, line) = line.strip_prefix('!').map_or((false, line.as_str()), |rest| (true, rest));
        let (request, expected) = parted(line);
        let Mode::Check(absent) = mode else {
            writeln!(out, "{}", answer(by, Request::parse(request).as_ref()))?;
            continue;
        };
        let judged = judged(by, Request::parse(request), expected, absent, &mut tally.answered);
        if let Some(wrong) = tally.count(is_planted, judged) {
            writeln!(out, "line {}: {wrong}", index + 1)?;
        }
    }
    let Mode::Check(absent) = mode else {
        return Ok(true);
    };
    let faults = tally.answered.faults(absent);
    write!(out, "{}{}", told(&faults), tally.text())?;
    Ok(tally.mismatches == 0 && faults.is_empty())
}

/// What a check says of a line.
enum Judged {
    Right,
    Wrong(String),
    /// The program lacks the act and is allowed to.
    Absent,
}

/// What the lines of a check came to.
#[derive(Default)]
struct Tally {
    /// Ordinary lines, and those of acts that the program lacks.
    lines: usize,
    absent: usize,
    mismatches: usize,
    /// Planted lines, those found wrong, and those of acts that the program lacks.
    planted: usize,
    found: usize,
    unjudged: usize,
    answered: Answered,
}

impl Tally {
    /// What is to be said of a line that is not as it has to be.
    fn count(&mut self, is_planted: bool, judged: Judged) -> Option<String> {
        *(if is_planted { &mut self.planted } else { &mut self.lines }) += 1;
        let said = match (judged, is_planted) {
            (Judged::Absent, true) => return counted(&mut self.unjudged),
            (Judged::Absent, false) => return counted(&mut self.absent),
            (Judged::Wrong(_), true) => return counted(&mut self.found),
            (Judged::Right, false) => return None,
            (Judged::Right, true) => "planted as a wrong line, and found right".to_string(),
            (Judged::Wrong(said), false) => said,
        };
        self.mismatches += 1;
        Some(said)
    }

    fn text(&self) -> String {
        let Tally { lines, absent, mismatches, planted, found, unjudged, .. } = self;
        format!(
            "{lines} lines, {absent} absent, {mismatches} mismatches; \
            {found} of {planted} planted lines found wrong, {unjudged} absent\n"
        )
    }
}

fn counted(count: &mut usize) -> Option<String> {
    *count += 1;
    None
}

/// A comment, or nothing at all.
fn is_remark(line: &str) -> bool {
    line.starts_with('#') || line.trim().is_empty()
}

fn answer(by: Program, request: Option<&Request>) -> String {
    request.map_or_else(|| BAD.to_string(), |request| answer_line(&by.answer(request)))
}

/// A line has to be readable and to expect an answer, whether or not the program has the act.
fn judged(
    by: Program,
    request: Option<Request>,
    expected: Option<&str>,
    absent: &BTreeSet<String>,
    answered: &mut Answered,
) -> Judged {
    let answer = answer(by, request.as_ref());
    let (Some(request), Some(expected)) = (request, expected) else {
        return Judged::Wrong(format!("{answer}, but expected {}", expected.unwrap_or("nothing")));
    };
    answered.note(&request.act, answer != ABSENT);
    match answer {
        answer if answer == ABSENT && absent.contains(&request.act) => Judged::Absent,
        // A stored answer is never this word, but a line could be.
        answer if answer == expected && answer != ABSENT => Judged::Right,
        answer => Judged::Wrong(format!("{answer}, but expected {expected}")),
    }
}

#[cfg(test)]
mod tests {
    use super::*;

    const M1: &str = "genmp 535154010001010000021520002515200024 100 100";
    const M1_ANSWER: &str = "ok 535154010001010000021520002501 01010000";
    const M12: &str = "onepoint - 080103102100220500000000000000 1 9";

    fn work_on(by: Program, mode: Mode, input: &str) -> (bool, String) {
        let mut out = Vec::new();
        let good = work(by, mode, input.as_bytes(), &mut out).expect("memory can be written");
        (good, String::from_utf8(out).expect("text"))
    }

    /// With these acts named as absent.
    fn check(by: Program, absent: &[&str], input: &str) -> (bool, String) {
        work_on(by, Mode::Check(&absent.iter().map(|act| act.to_string()).collect()), input)
    }

    fn passes(absent: &[&str], input: &str) -> bool {
        check(Program::Paper, absent, input).0
    }

    #[test]
    fn each_line_is_answered() {
        let input = format!("{M1}\nread 53515401000000000102\nsing\n!formula - 0301ff\n{M12}");
        let (_, out) = work_on(Program::Paper, Mode::Answer, &input);
        assert_eq!(out, format!("{M1_ANSWER}\nrefuse 11 9\nbad line\nok 2\nok 02 220500000000000000\n"));
    }

    #[test]
    fn comments_and_empty_lines_are_skipped() {
        let (_, out) =
            work_on(Program::Paper, Mode::Answer, "# a comment\n\nread -\n  \n#read -\nread - # no\n");
        assert_eq!(out, "refuse 1 0\nbad line\n");
    }

    #[test]
    fn expected_answers_are_checked() {
        let input = format!("{M1} -> {M1_ANSWER}\n# M1 again\n{M1} -> refuse 13 0\nsing -> ok");
        let wrong = format!("line 3: {M1_ANSWER}, but expected refuse 13 0");
        let counts = "3 lines, 0 absent, 2 mismatches; 0 of 0 planted lines found wrong, 0 absent";
        let out = format!("{wrong}\nline 4: bad line, but expected ok\n{counts}\n");
        assert_eq!(check(Program::Paper, &[], &input), (false, out));
    }

    #[test]
    fn a_line_that_expects_nothing_fails() {
        assert!(passes(&[], "read - -> refuse 1 0"));
        assert!(!passes(&[], "read - -> refuse 1 0\nread -"));
        assert!(!passes(&[], "read - -> refuse 1 0\nread - ->"));
    }

    #[test]
    fn no_lines_fail() {
        for empty in ["", "\n", "# read - -> refuse 1 0\n"] {
            assert!(!passes(&[], empty));
        }
    }

    /// The given Rust has no such act.
    #[test]
    fn only_named_acts_may_be_absent() {
        let (absent, there) = ("formula - 01 -> ok 1\n", "read 535154010000000001 -> ok 0 0 0\n");
        assert_eq!(work_on(Program::Given, Mode::Answer, absent).1, "absent\n");
        assert!(!check(Program::Given, &[], absent).0);
        assert!(!check(Program::Given, &["formula"], absent).0, "every line is absent");
        if given::missing().is_none() {
            let both = [absent, there].concat();
            assert!(check(Program::Given, &["formula"], &both).0);
            assert!(!check(Program::Given, &["expression"], &both).0);
            assert!(!check(Program::Given, &["formula", "read"], &both).0, "read is answered");
        }
        assert!(!check(Program::Given, &["read"], "formula - 01 -> absent").0);
    }

    #[test]
    fn absence_excuses_no_wrong_answer() {
        assert!(!passes(&["genmp"], "read - -> refuse 1 0\nread - -> refuse 1 1"));
        assert!(!passes(&["genmp"], "read - -> refuse 1 0\ngenmp - -> refuse 1 0"));
    }

    #[test]
    fn planted_lines_have_to_be_found() {
        let right = "read - -> refuse 1 0\n";
        let wrong = "!read - -> refuse 1 1\n!sing -> ok\n!read -\n!read 5 -> refuse 1 1\n";
        let counts = "1 lines, 0 absent, 0 mismatches; 4 of 4 planted lines found wrong, 0 absent\n";
        let found = check(Program::Paper, &[], &[right, wrong].concat());
        assert_eq!(found, (true, counts.to_string()));
        let (good, out) = check(Program::Paper, &[], &format!("{right}!{right}"));
        assert!(!good && out.starts_with("line 2: planted as a wrong line, and found right\n"));
        assert!(!passes(&[], wrong.split_at(1).1), "not planted");
    }

    #[test]
    fn a_planted_line_of_an_absent_act_is_not_judged() {
        if given::missing().is_none() {
            let lines = "read 535154010000000001 -> ok 0 0 0\n!formula - 01 -> ok 2\n";
            let (good, out) = check(Program::Given, &["formula"], lines);
            assert!(good && out.ends_with("0 of 1 planted lines found wrong, 1 absent\n"));
            assert!(!check(Program::Given, &[], lines).0);
        }
    }

    #[test]
    fn a_line_of_over_a_million_characters_is_answered() {
        let many = "00".repeat(600_000);
        let input = format!("read {many}\nselect {many} 01 60000\nread -");
        let answers = "refuse 1 600000\nrefuse 1 600000\nrefuse 1 0\n";
        for by in [Program::Paper, Program::Ours] {
            let (_, out) = work_on(by, Mode::Answer, &input);
            let expected = if by.missing().is_some() { "absent\n".repeat(3) } else { answers.to_string() };
            assert_eq!(out, expected);
        }
    }
}
