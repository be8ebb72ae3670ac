//! What the sample has to hold, asked of the sample from the seed that is stored.

use std::collections::BTreeSet;
use std::sync::OnceLock;

use answers::{Part, Refusal};
use paper::tree::Tree;

use super::kinds::allowed;
use super::planted::Fault;
use super::*;
use crate::explain::class::Class;
use crate::exports::NOT_YET;
use crate::lines::{Mode, work};
use crate::loose;
use crate::request::AMPLE;

/// Made once for all tests.
fn stored() -> &'static [Line] {
    static STORED: OnceLock<Vec<Line>> = OnceLock::new();
    STORED.get_or_init(|| sample(SEED).expect("the given Rust agrees"))
}

fn text(lines: &[Line]) -> String {
    lines.iter().map(|line| line.text() + "\n").collect()
}

#[test]
fn every_kind_that_document_01_allows_is_there_and_no_other() {
    for act in ACTS {
        let of_act = stored().iter().filter(|line| line.request.act == act);
        let found: BTreeSet<Kind> = of_act.map(|line| line.kind).collect();
        assert_eq!(found, allowed(act).into_iter().collect(), "{act}");
        assert!(found.iter().all(|kind| headings().contains(&kind.heading())));
    }
}

#[test]
fn the_table_counts_each_line() {
    let line = |request: &str| Line::of(Request::parse(request).expect("a request")).expect("an answer");
    let table = table(&[line("read -"), line("read 53"), line("read 535154010000000001")]);
    let row = table.lines().find(|row| row.starts_with("read")).expect("a row");
    assert_eq!(row.split_ascii_whitespace().collect::<Vec<_>>(), ["read", "1", "2"]);
    assert!(table.contains("\n3 lines, and "));
}

/// Those that have more than one: 2 to 4 have one in a sequent, and the acts' own refusals have place 0.
#[test]
fn refusals_are_at_different_places() {
    for act in ACTS {
        let is_read = |number: u8| allowed(act).contains(&Kind::Unread { buffer: 0, number });
        for number in [1, 5, 6, 7, 8, 9, 10, 11].into_iter().filter(|number| is_read(*number)) {
            let of_act = stored().iter().filter(|line| line.request.act == act);
            let refusals = of_act.filter_map(|line| line.answer.as_ref().err());
            let places: BTreeSet<usize> =
                refusals.filter(|refusal| refusal.number == number).map(|refusal| refusal.place).collect();
            assert!(places.len() > 1, "{act} {number}: {places:?}");
        }
    }
}

/// Right lines are right, and each planted one is found wrong where its act is there.
#[test]
fn each_line_is_answered_so() {
    let planted = planted::lines(stored());
    let wrong: Vec<String> = planted.iter().map(|planted| format!("!{}\n", planted.text)).collect();
    let text = text(stored()) + &wrong.concat();
    for by in [Program::Paper, Program::Ours].into_iter().filter(|by| by.missing().is_none()) {
        let mut out = Vec::new();
        let lacked = NOT_YET.into_iter().chain(["equal"]).filter(|_| by == Program::Ours);
        let absent = lacked.map(str::to_string).collect();
        let good = work(by, Mode::Check(&absent), text.as_bytes(), &mut out);
        assert!(good.expect("memory can be written"), "{}: {}", by.name(), String::from_utf8_lossy(&out));
    }
}

/// Rooms of exactly the length, a byte less, none, and ample, for each result of each act.
#[test]
fn rooms_are_varied() {
    for act in ACTS {
        let (_, rooms) = paper::shape(act).expect("a known act");
        let of_act: Vec<&Request> =
            stored().iter().map(|line| &line.request).filter(|request| request.act == act).collect();
        let exact: Vec<Request> = of_act.iter().filter_map(|request| request.exact()).collect();
        for index in 0..rooms {
            let has = |room: &dyn Fn(usize) -> usize| {
                let mut wanted = exact.iter().map(|exact| {
                    let mut rooms = exact.rooms.clone();
                    rooms[index] = room(rooms[index]);
                    exact.with_rooms(rooms)
                });
                wanted.any(|wanted| of_act.contains(&&wanted))
            };
            assert!(has(&|length| length) && has(&|length| length - 1) && has(&|_| 0), "{act} {index}");
        }
        assert!(of_act.iter().any(|request| request.rooms.iter().all(|room| *room == AMPLE)), "{act}");
    }
}

#[test]
fn the_marked_examples_are_there() {
    let text = text(stored());
    for example in edges::examples() {
        assert!(text.contains(&example.line()), "{}", example.line());
    }
    let m1 = "genmp 535154010001010000021520002515200024 60000 60000";
    assert!(text.contains(&format!("{m1} -> ok 535154010001010000021520002501 01010000\n")));
}

fn any(act: &str, holds: impl Fn(&Line) -> bool) -> bool {
    stored().iter().any(|line| line.request.act == act && holds(line))
}

fn is_refused(line: &Line, number: u8, place: usize) -> bool {
    line.answer == Err(Refusal { number, place })
}

#[test]
fn the_longest_are_there() {
    let sizes = |line: &Line| line.request.buffers.iter().map(Vec::len).collect::<Vec<usize>>();
    assert!(any("read", |line| sizes(line) == [60_000] && line.answer.is_ok()));
    assert!(any("read", |line| sizes(line) == [60_001] && is_refused(line, 1, 60_001)));
    let writes = |line: &Line, length: usize| match line.answer.as_deref() {
        Ok([Part::Number(_), Part::Bytes(bytes)]) => bytes.len() == length,
        _ => false,
    };
    assert!(any("forward", |line| writes(line, 60_000)));
    // The appended formula is the list without its count, and its flag is one byte more.
    assert!(any("forward", |line| sizes(line)[0] + sizes(line)[2] == 60_001 && is_refused(line, 14, 0)));
    assert!(any("forward", |line| sizes(line)[2] == 65_537 && line.answer.is_ok()));
}

/// 64 and 65 hypotheses and identifiers, levels 32 and 33, 1,024 and 1,025 bytes, n of 1, 2, 32 and 33.
#[test]
fn the_edges_are_there() {
    let read = |line: &Line, at: usize, value: u8| line.request.buffers[0].get(at) == Some(&value);
    for header in [5, 6] {
        assert!(any("read", |line| read(line, header, 64) && line.answer.is_ok()));
        assert!(any("read", |line| read(line, header, 65) && is_refused(line, 4, 5)));
    }
    let goal_is = |line: &Line, bytes: &[u8]| line.request.buffers[0].get(9..) == Some(bytes);
    let deep = |levels: usize| [vec![3; levels - 1], vec![1]].concat();
    assert!(any("read", |line| goal_is(line, &deep(32)) && line.answer.is_ok()));
    assert!(any("read", |line| goal_is(line, &deep(33)) && is_refused(line, 9, 9 + 32)));
    let long = |bytes: usize| edges::filler(bytes).bytes();
    assert!(any("read", |line| goal_is(line, &long(1_024)) && line.answer.is_ok()));
    assert!(any("read", |line| goal_is(line, &long(1_025)) && is_refused(line, 9, 9 + 1_024)));
    // Behind three identifiers.
    let counted = |line: &Line, count: usize| {
        line.request.buffers[0].get(11..) == Some(&[vec![4, count as u8], vec![1; count]].concat())
    };
    for (count, is_accepted) in [(1, false), (2, true), (32, true), (33, false)] {
        let answered = |line: &Line| if is_accepted { line.answer.is_ok() } else { is_refused(line, 7, 11) };
        assert!(any("read", |line| counted(line, count) && answered(line)), "{count}");
    }
}

/// A result that the given Rust has, and that document 01 refuses with 14.
fn too_large(act: &str) -> Vec<Vec<u8>> {
    let limited = stored().iter().filter(|line| line.request.act == act && line.kind == Kind::Refused(14));
    let results = limited.filter_map(|line| Program::GivenCut.answer(&line.request)?.ok());
    let bytes = |parts: Vec<Part>| {
        parts.into_iter().find_map(|part| match part {
            Part::Bytes(bytes) => Some(bytes),
            Part::Number(_) => None,
        })
    };
    results.filter_map(bytes).collect()
}

fn nodes(tree: &Tree) -> Vec<&Tree> {
    std::iter::once(tree).chain(tree.operands.iter().flat_map(nodes)).collect()
}

/// 1,024 bytes, 32 levels, 32 operands and 8 variables; 64 hypotheses and 60,000 bytes.
#[test]
fn each_limit_of_a_result_is_passed() {
    if given::missing().is_some() {
        return;
    }
    let results = too_large("onepoint");
    let predicates: Vec<Tree> = results.iter().filter_map(|bytes| loose::predicate(bytes)).collect();
    let some = |holds: &dyn Fn(&Tree) -> bool| predicates.iter().any(holds);
    assert!(some(&|tree| tree.size() > 1_024 && tree.levels() <= 32));
    assert!(some(&|tree| tree.levels() > 32 && tree.size() <= 1_024));
    assert!(some(&|tree| nodes(tree).iter().any(|node| node.operands.len() > 32)));
    assert!(some(&|tree| nodes(tree).iter().any(|node| node.declares() > 8)));
    for act in ["modify", "forward", "rewrite", "genmp"] {
        assert!(too_large(act).iter().any(|bytes| bytes[6] > 64), "{act}");
    }
    for act in ["forward", "genmp"] {
        assert!(too_large(act).iter().any(|bytes| bytes[6] <= 64 && bytes.len() == 60_001), "{act}");
    }
}

#[test]
fn the_sample_is_as_large_as_a_program_can_take() {
    let lines = stored();
    assert!((4_000..=5_000).contains(&lines.len()), "{}", lines.len());
    assert!(text(lines).len() <= 2_600_000);
    for line in lines {
        assert!(line.text().len() <= 524_288);
        assert!(line.request.buffers.iter().all(|buffer| buffer.len() <= 70_000));
        assert!(line.request.rooms.iter().all(|room| *room <= 66_000));
    }
}

/// Every sort of fault that an act's answers can have.
#[test]
fn each_sort_of_fault_is_planted() {
    let planted = planted::lines(stored());
    assert!((60..=120).contains(&planted.len()), "{}", planted.len());
    let unread = [Fault::Refused, Fault::Number, Fault::Place, Fault::Accepted];
    let written = [Fault::Byte, Fault::Longer, Fault::Shorter];
    for act in ACTS.into_iter().chain(["formula", "expression"]) {
        let found: BTreeSet<Fault> =
            planted.iter().filter(|planted| planted.act == act).map(|planted| planted.fault).collect();
        let results: &[Fault] = match act {
            "read" | "formula" | "expression" => &[Fault::Count],
            "genmp" | "onepoint" => &written,
            _ => &[&written[..], &[Fault::Changed]].concat(),
        };
        assert_eq!(found, unread.iter().chain(results).copied().collect(), "{act}");
    }
    let of = |act: &str| planted.iter().filter(|planted| planted.act == act).count();
    assert_eq!((of("equal"), of("")), (2, planted::MALFORMED.len()));
}

#[test]
fn no_request_is_there_twice() {
    let requests: BTreeSet<&Request> = stored().iter().map(|line| &line.request).collect();
    assert_eq!(requests.len(), stored().len());
}

#[test]
fn the_seed_decides() {
    let some = |seed: u64| random(seed).take(100).collect::<Vec<Request>>();
    assert_eq!(some(SEED), some(SEED));
    assert_ne!(some(SEED), some(SEED + 1));
}

#[test]
fn only_limits_and_joining_may_differ() {
    let (success, refusal) = (Ok(vec![Part::Number(1)]), Err(Refusal { number: 14, place: 0 }));
    let limits = Verdict::Explained(vec![Class::Limits]);
    assert!(is_agreed(&success, &Verdict::Same) && is_agreed(&refusal, &limits));
    assert!(!is_agreed(&success, &limits));
    assert!(!is_agreed(&success, &Verdict::Unexplained) && !is_agreed(&refusal, &Verdict::Unexplained));
}
