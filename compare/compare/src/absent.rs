//! What a command may do without, as its command line names it: programs that are not there, and acts
//! that a program lacks. What is missing and not named is a fault. So is what is named and there, or
//! the names would outlive their reason.

use std::collections::{BTreeMap, BTreeSet};

use crate::programs::Program;

/// What is named.
#[derive(Clone, Default, Debug)]
pub struct Without {
    pub programs: Vec<Program>,
    pub acts: BTreeSet<String>,
}

impl Without {
    /// From two lists with commas: of programs, where `given` stands for both of its kinds, and of acts.
    pub fn parse(programs: Option<&str>, acts: Option<&str>) -> Result<Without, String> {
        let mut out = Without::default();
        for name in listed(programs) {
            match Program::parse(name) {
                Some(program @ (Program::Ours | Program::Given)) => out.programs.push(program),
                _ => return Err(format!("{name} is no program that can be left out")),
            }
        }
        for act in listed(acts) {
            paper::shape(act).ok_or_else(|| format!("{act} is no act"))?;
            out.acts.insert(act.to_string());
        }
        Ok(out)
    }

    /// What is wrong with the programs that are there and those that are not.
    pub fn faults(&self) -> Vec<String> {
        let programs = [Program::Ours, Program::Given];
        programs.into_iter().filter_map(|program| self.fault_of(program)).collect()
    }

    /// The same of one program.
    pub fn fault_of(&self, program: Program) -> Option<String> {
        self.fault(program, program.missing())
    }

    fn fault(&self, program: Program, missing: Option<String>) -> Option<String> {
        let name = program.name();
        match (missing, self.programs.contains(&program)) {
            (Some(why), false) => Some(format!("{name} is missing, and not named after --without: {why}")),
            (None, true) => Some(format!("{name} is there, and named after --without")),
            _ => None,
        }
    }

    /// Whether the program is named, or the act where it is the proved library's.
    pub fn names(&self, program: Program, act: &str) -> bool {
        self.programs.contains(&program) || (program == Program::Ours && self.acts.contains(act))
    }
}

fn listed(words: Option<&str>) -> impl Iterator<Item = &str> {
    words.unwrap_or_default().split(',').filter(|word| !word.is_empty())
}

/// How often a program was asked each act, and how often it answered.
#[derive(Clone, Default, Debug)]
pub struct Answered(BTreeMap<String, [usize; 2]>);

impl Answered {
    pub fn note(&mut self, act: &str, is_answered: bool) {
        let [asked, answered] = self.0.entry(act.to_string()).or_default();
        *asked += 1;
        *answered += usize::from(is_answered);
    }

    pub fn merge(&mut self, other: Answered) {
        for (act, [more_asked, more_answered]) in other.0 {
            let [asked, answered] = self.0.entry(act).or_default();
            *asked += more_asked;
            *answered += more_answered;
        }
    }

    /// How often any act was answered.
    pub fn answers(&self) -> usize {
        self.0.values().map(|[_, answered]| answered).sum()
    }

    /// An act that was not answered has to be named, one that was must not be, and some must be.
    pub fn faults(&self, absent: &BTreeSet<String>) -> Vec<String> {
        let mut out = Vec::new();
        for (act, [asked, answered]) in &self.0 {
            if absent.contains(act) && *answered > 0 {
                out.push(format!("{act} is answered, and named after --absent"));
            } else if !absent.contains(act) && answered < asked {
                out.push(format!("{act} is absent {} times, and not named after --absent", asked - answered));
            }
        }
        if self.answers() == 0 {
            out.push("nothing was answered".to_string());
        }
        out
    }

    /// Of these acts each has to be asked.
    pub fn unasked(&self, acts: &[&str]) -> Vec<String> {
        let never = acts.iter().filter(|act| !self.0.contains_key(**act));
        never.map(|act| format!("{act} was never asked")).collect()
    }
}

/// Faults as lines of a report.
pub fn told(faults: &[String]) -> String {
    faults.iter().map(|fault| format!("FAILED: {fault}\n")).collect()
}

#[cfg(test)]
mod tests {
    use super::*;

    fn acts(words: &str) -> BTreeSet<String> {
        Without::parse(None, Some(words)).expect("acts").acts
    }

    #[test]
    fn only_programs_and_acts_can_be_named() {
        let named = Without::parse(Some("ours,given"), Some("genmp")).expect("both are known");
        assert_eq!(named.programs, [Program::Ours, Program::Given]);
        assert!(named.names(Program::Given, "read") && !named.names(Program::Paper, "genmp"));
        assert!(Without::parse(Some("paper"), None).is_err());
        assert!(Without::parse(None, Some("sing")).is_err());
        assert!(Without::parse(None, None).expect("nothing").acts.is_empty());
    }

    #[test]
    fn a_program_is_missing_exactly_if_it_is_named() {
        let (none, given) = (Without::default(), Without::parse(Some("given"), None).expect("a program"));
        let missing = || Some("no folder".to_string());
        assert!(
            none.fault(Program::Given, missing()).is_some() && given.fault(Program::Given, None).is_some()
        );
        assert!(
            none.fault(Program::Given, None).is_none() && given.fault(Program::Given, missing()).is_none()
        );
        assert!(given.fault(Program::Ours, missing()).is_some());
    }

    #[test]
    fn an_act_is_absent_exactly_if_it_is_named() {
        let mut answered = Answered::default();
        for (act, is_answered) in [("read", true), ("genmp", false), ("genmp", false)] {
            answered.note(act, is_answered);
        }
        assert!(answered.faults(&acts("genmp,onepoint")).is_empty());
        assert_eq!(answered.faults(&acts("")).len(), 1);
        assert_eq!(answered.faults(&acts("read,genmp")).len(), 1);
        // Once is enough, either way.
        let mut more = Answered::default();
        more.note("genmp", true);
        answered.merge(more);
        assert_eq!(answered.faults(&acts("genmp")).len(), 1);
        assert_eq!(answered.faults(&acts("")).len(), 1);
        assert_eq!(answered.unasked(&["read", "onepoint"]), ["onepoint was never asked"]);
    }

    #[test]
    fn nothing_answered_is_a_fault() {
        let mut answered = Answered::default();
        assert_eq!(answered.faults(&acts("")).len(), 1);
        answered.note("genmp", false);
        assert_eq!(answered.faults(&acts("genmp")).len(), 1);
    }
}
