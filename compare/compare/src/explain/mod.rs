//! Why the given Rust answers other than document 01: the classes of a difference. A class of keys
//! explains a difference exactly if document 01's step, changed by it, gives what the Rust gave.

pub mod class;
pub mod effects;
pub mod keys;
pub mod one_point;
pub mod step;

use answers::{Answer, Part, Refusal};
use paper::sequent::{self, Sequent};
use paper::{file, lent};

use crate::loose::sequent_bytes;
use crate::request::{AMPLE, Request};
use class::{Class, Switches};
use effects::Effect;

/// How an answer of the given Rust stands to document 01's.
#[derive(Clone, PartialEq, Eq, Debug)]
pub enum Verdict {
    Same,
    /// Every class is needed, and together they give the Rust's answer.
    Explained(Vec<Class>),
    Unexplained,
}

/// The verdict on the given Rust's answer to a request that document 01's program answered so.
pub fn verdict(request: &Request, paper: &Answer, given: &Option<Answer>, on: Switches) -> Verdict {
    if matches!(paper, Err(refusal) if is_reading(refusal)) {
        return if given.is_none() { Verdict::Same } else { Verdict::Unexplained };
    }
    match given {
        Some(given) if given == paper => Verdict::Same,
        Some(given) => explained(request, paper, given, on).map_or(Verdict::Unexplained, Verdict::Explained),
        None => Verdict::Unexplained,
    }
}

/// A refusal of the reading, which the given Rust does not have.
pub fn is_reading(refusal: &Refusal) -> bool {
    refusal.number <= 11
}

fn is_refusal(answer: &Answer, number: u8) -> bool {
    *answer == Err(Refusal { number, place: 0 })
}

fn explained(request: &Request, paper: &Answer, given: &Answer, on: Switches) -> Option<Vec<Class>> {
    match request.act.as_str() {
        "genmp" => by_keys(&request.buffers[0], paper, given, on),
        "onepoint" => one_point::explained(request, paper, given),
        _ => {
            let limits = is_refusal(paper, 14) && unlimited(request)? == *given && beyond_limits(given);
            limits.then(|| vec![Class::Limits])
        }
    }
}

/// Whether a sequent was answered that cannot be read again: only its limits can be at fault.
fn beyond_limits(answer: &Answer) -> bool {
    let Ok(parts) = answer else { return false };
    let sequent = parts.iter().find_map(Part::bytes);
    sequent.is_some_and(|bytes| file::read(bytes).is_err())
}

/// The step's answer under some switches, without limits.
fn stepped(sequent: &Sequent, on: Switches) -> Answer {
    let refusal = Refusal { number: 13, place: 0 };
    let stepped = step::step(sequent, on).ok_or(refusal)?;
    Ok(vec![Part::Bytes(sequent_bytes(&stepped.sequent)), Part::Bytes(stepped.report)])
}

/// The fewest classes of keys that give the Rust's answer, and what they come to.
fn by_keys(bytes: &[u8], paper: &Answer, given: &Answer, all: Switches) -> Option<Vec<Class>> {
    let sequent = file::read(bytes).ok()?;
    let unlimited = stepped(&sequent, Switches::NONE);
    let limited = beyond_limits(&unlimited);
    let said = if limited { is_refusal(paper, 14) } else { *paper == unlimited };
    if !said || stepped(&sequent, all) != *given {
        return None;
    }
    let mut on = all;
    for class in Class::OF_KEYS {
        let fewer = on.without(*class);
        if stepped(&sequent, fewer) == *given {
            on = fewer;
        }
    }
    let mut classes = on.classes();
    match effects::effect(&unlimited, given) {
        Effect::OtherValue => classes.push(Class::OtherValue),
        Effect::OtherOrigin => classes.push(Class::OtherOrigin),
        Effect::Other => {}
    }
    classes.extend(limited.then_some(Class::Limits));
    // With no class at all, nothing explains that the answers differ.
    (!classes.is_empty()).then_some(classes)
}

/// What document 01 says of an act on hypotheses, without limits.
fn unlimited(request: &Request) -> Option<Answer> {
    let buffer = |index: usize| request.buffers[index].as_slice();
    let before = file::read(buffer(0)).ok()?;
    let list = |index: usize| lent::list(buffer(index), &before.types).ok();
    let done = match request.act.as_str() {
        "modify" => {
            let goal = lent::goal(buffer(3), &before.types).ok()?;
            sequent::modify(&before, &list(1)?, &list(2)?, goal.as_ref())?
        }
        "forward" => sequent::forward(&before, &list(1)?, &list(2)?),
        "rewrite" => sequent::rewrite(&before, &list(1)?, &list(2)?, &list(3)?),
        _ => return None,
    };
    let changed = Part::Number(u64::from(done.changed));
    Some(Ok(vec![changed, Part::Bytes(sequent_bytes(&done.sequent))]))
}

/// Both answers to a request, with ample rooms, and the verdict; none where either is missing.
pub fn compared(request: &Request, variant: given::Variant) -> Option<(Answer, Option<Answer>, Verdict)> {
    let request = request.with_rooms(vec![AMPLE; request.rooms.len()]);
    let paper = paper::run(&request.act, &request.lent(), &request.rooms)?;
    let (given, verdict) = beside(&request, &paper, variant)?;
    Some((paper, given, verdict))
}

/// The given Rust's answer beside document 01's to a request with ample rooms, and the verdict; none
/// where the given Rust is missing or has no such act.
pub fn beside(
    request: &Request,
    paper: &Answer,
    variant: given::Variant,
) -> Option<(Option<Answer>, Verdict)> {
    if given::missing().is_some() || matches!(request.act.as_str(), "formula" | "expression") {
        return None;
    }
    let given = given::run(variant, &request.act, &request.lent(), &request.rooms);
    let on = match variant {
        given::Variant::Unchanged => Switches::ALL,
        given::Variant::Cut => Switches::NONE,
    };
    let verdict = verdict(request, paper, &given, on);
    Some((given, verdict))
}

#[cfg(test)]
mod tests {
    use super::*;
    use crate::listed;
    use crate::make::dice::Dice;
    use crate::make::requests;

    /// The first input of each class of keys on the page needs that class alone.
    #[test]
    fn the_smallest_inputs_need_one_class() {
        if given::missing().is_some() {
            return;
        }
        for class in Class::OF_KEYS {
            let entries = listed::entries(listed::PAGE);
            let entry = entries.iter().find(|entry| entry.name == class.name()).expect("an entry");
            let request = Request::parse(&entry.blocks[0].request).expect("a request");
            let (_, _, verdict) = compared(&request, given::Variant::Unchanged).expect("both answer");
            assert_eq!(verdict, Verdict::Explained(vec![*class]));
        }
    }

    #[test]
    fn without_a_switch_the_step_is_document_01s() {
        for number in 0..300 {
            let request = requests::genmp(&mut Dice::new(9).branch(number));
            let paper = paper::run("genmp", &request.lent(), &request.rooms).expect("a known act");
            let sequent = file::read(&request.buffers[0]).expect("an accepted sequent");
            if !is_refusal(&paper, 14) {
                assert_eq!(stepped(&sequent, Switches::NONE), paper, "{}", request.line());
            }
        }
    }

    #[test]
    fn an_answer_that_no_class_gives_is_unexplained() {
        // x=1, goal x=2, and ⊤ for the goal.
        let number = |n: u8| format!("10 2000 22{n:02}00000000000000");
        let text = format!("5351540100010100 00 00 {} {}", number(1), number(2)).replace(' ', "");
        let request = Request::ample("genmp", vec![answers::unhex(&text).expect("hex")]);
        let paper = paper::run("genmp", &request.lent(), &request.rooms).expect("a known act");
        let mut wrong = request.buffers[0].clone();
        wrong.truncate(wrong.len() - 12);
        wrong.push(1);
        let given = Some(Ok(vec![Part::Bytes(wrong), Part::Bytes(vec![1, 1, 0, 0])]));
        assert_eq!(verdict(&request, &paper, &given, Switches::ALL), Verdict::Unexplained);
    }
}
