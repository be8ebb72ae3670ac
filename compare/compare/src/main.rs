//! The command line; `compare` alone says what there is.

use std::path::PathBuf;
use std::process::ExitCode;

use compare::absent::Without;
use compare::lines::Mode;
use compare::programs::Program;

const USAGE: &str = "\
compare lines [--by ours|paper|given|given-cut] [--check [--absent ACTS]]
        answers requests from standard input, one to a line: ACT BUFFER.. ROOM..
        (--by ours if not said); empty lines and lines that begin with # are skipped;
        --check holds each answer to what follows -> on its line; a line that begins with ! has to be
        found wrong
compare run [--seed N] [--count N] [--wide] [--without PROGRAMS] [--absent ACTS]
        holds all programs against each other: edges, every source against every key (of more literals
        if wide), and N random requests
compare sample [--seed N] [--without given]
        prints some 4,500 requests of all acts with the oracle's answers, some of every kind, and some
        wrong lines marked with !, in the format of lines; how many of which kind goes to standard error
compare laws [--seed N] [--count N] [--without PROGRAMS] [--absent ACTS]
        tries the laws of genMP and one-point on small valuations
compare archive DIR [--seed N] [--count N]
        writes a folder of sequents that stands in for an archive
compare drift DIR [--by ours|paper] [--all] [--csv FILE] [--html FILE] [--absent ACTS]
        replays each *.sqt of a folder and the folders in it (genmp, read, and the acts in NAME.acts)
        and lists where the proved library, or the program named, and the given Rust part
compare bench
        times genmp and read by each program

PROGRAMS (ours, given) are those that are not there, and ACTS those that the program which is asked
lacks, with commas. What is missing and not named is a failure, and so is what is named and there.";

/// What was asked on the command line: `--name value` pairs, `--name` alone, and other words.
struct Asked {
    words: Vec<String>,
}

impl Asked {
    /// Takes `--name` and the word after it.
    fn value(&mut self, name: &str) -> Result<Option<String>, String> {
        let Some(at) = self.words.iter().position(|word| word == name) else {
            return Ok(None);
        };
        if at + 1 >= self.words.len() {
            return Err(format!("{name} needs a value"));
        }
        self.words.remove(at);
        Ok(Some(self.words.remove(at)))
    }

    fn number(&mut self, name: &str, otherwise: u64) -> Result<u64, String> {
        let Some(word) = self.value(name)? else {
            return Ok(otherwise);
        };
        word.parse().map_err(|_| format!("{name} needs a number, not {word}"))
    }

    fn flag(&mut self, name: &str) -> bool {
        let count = self.words.len();
        self.words.retain(|word| word != name);
        self.words.len() < count
    }

    /// A number of requests: none at all would show nothing.
    fn count(&mut self, otherwise: u64) -> Result<usize, String> {
        match self.number("--count", otherwise)? {
            0 => Err("--count needs a number over 0".to_string()),
            count => Ok(count as usize),
        }
    }

    /// What may be missing.
    fn without(&mut self) -> Result<Without, String> {
        let (programs, acts) = (self.value("--without")?, self.value("--absent")?);
        Without::parse(programs.as_deref(), acts.as_deref())
    }

    /// Takes the first word that is no `--name`.
    fn folder(&mut self) -> Result<PathBuf, String> {
        let at = self.words.iter().position(|word| !word.starts_with("--"));
        at.map(|at| PathBuf::from(self.words.remove(at))).ok_or_else(|| "a folder is missing".to_string())
    }

    /// Nothing may be left over.
    fn end(&self) -> Result<(), String> {
        self.words.first().map_or(Ok(()), |word| Err(format!("{word} is not understood")))
    }
}

fn main() -> ExitCode {
    let mut words: Vec<String> = std::env::args().skip(1).collect();
    if words.is_empty() {
        eprintln!("{USAGE}");
        return ExitCode::from(2);
    }
    let command = words.remove(0);
    match work(&command, Asked { words }) {
        Ok(true) => ExitCode::SUCCESS,
        Ok(false) => ExitCode::from(1),
        Err(why) => {
            eprintln!("compare: {why}; `compare` alone says what there is");
            ExitCode::from(2)
        }
    }
}

/// Whether all is well.
fn work(command: &str, asked: Asked) -> Result<bool, String> {
    match command {
        "lines" => lines(asked),
        "run" => run(asked),
        "sample" => sample(asked),
        "laws" => laws(asked),
        "archive" => archive(asked),
        "drift" => drift(asked),
        "bench" => {
            asked.end()?;
            print!("{}", compare::bench::run());
            Ok(true)
        }
        other => Err(format!("{other} is no command")),
    }
}

/// The program that is to answer: the proved library, if no other is named.
fn answering(asked: &mut Asked) -> Result<Program, String> {
    match asked.value("--by")? {
        None => Ok(Program::Ours),
        Some(name) => Program::parse(&name).ok_or_else(|| format!("{name} is no program")),
    }
}

fn lines(mut asked: Asked) -> Result<bool, String> {
    let by = answering(&mut asked)?;
    let (is_check, absent) = (asked.flag("--check"), asked.value("--absent")?);
    asked.end()?;
    if absent.is_some() && !is_check {
        return Err("--absent goes with --check".to_string());
    }
    let acts = Without::parse(None, absent.as_deref())?.acts;
    if let Some(why) = by.missing() {
        eprintln!("compare: {why}");
    }
    let mode = if is_check { Mode::Check(&acts) } else { Mode::Answer };
    let (input, out) = (std::io::stdin().lock(), std::io::stdout().lock());
    let good = compare::lines::work(by, mode, input, out).map_err(|why| why.to_string())?;
    Ok(good && by.missing().is_none())
}

fn run(mut asked: Asked) -> Result<bool, String> {
    let (seed, count) = (asked.number("--seed", 1)?, asked.count(20_000)?);
    let (wide, without) = (asked.flag("--wide"), asked.without()?);
    asked.end()?;
    let (report, good) = compare::run::report(&compare::run::run(seed, count, wide), &without);
    print!("{report}");
    Ok(good)
}

fn sample(mut asked: Asked) -> Result<bool, String> {
    let seed = asked.number("--seed", compare::sample::SEED)?;
    let without = Without::parse(asked.value("--without")?.as_deref(), None)?;
    asked.end()?;
    if let Some(why) = without.fault_of(Program::Given) {
        eprintln!("compare: {why}");
        return Ok(false);
    }
    match compare::sample::sample(seed) {
        Ok(lines) => {
            let right: Vec<String> = lines.iter().map(|line| line.text() + "\n").collect();
            let planted = compare::sample::planted::lines(&lines);
            let wrong: Vec<String> = planted.iter().map(|planted| format!("!{}\n", planted.text)).collect();
            print!("{}{}", right.concat(), wrong.concat());
            eprint!("{}", compare::sample::table(&lines));
            Ok(true)
        }
        Err(why) => {
            eprintln!("compare: {why}");
            Ok(false)
        }
    }
}

fn laws(mut asked: Asked) -> Result<bool, String> {
    let (seed, count, without) = (asked.number("--seed", 1)?, asked.count(2_000)?, asked.without()?);
    asked.end()?;
    let (report, good) = compare::laws::report(&compare::laws::run(seed, count), &without);
    print!("{report}");
    Ok(good)
}

fn archive(mut asked: Asked) -> Result<bool, String> {
    let (seed, count) = (asked.number("--seed", 1)?, asked.number("--count", 200)?);
    let folder = asked.folder()?;
    asked.end()?;
    let written = compare::drift::archive::write(&folder, seed, count as usize);
    println!("{} sequents written", written.map_err(|why| format!("{}: {why}", folder.display()))?);
    Ok(true)
}

fn drift(mut asked: Asked) -> Result<bool, String> {
    let (csv, html) = (asked.value("--csv")?, asked.value("--html")?);
    let (by, all) = (answering(&mut asked)?, asked.flag("--all"));
    let acts = Without::parse(None, asked.value("--absent")?.as_deref())?.acts;
    let folder = asked.folder()?;
    asked.end()?;
    for program in [by, Program::Given] {
        if let Some(why) = program.missing() {
            eprintln!("compare: {why}");
        }
    }
    let drift =
        compare::drift::run(&folder, by, &acts).map_err(|why| format!("{}: {why}", folder.display()))?;
    let write = |file: Option<String>, text: &dyn Fn() -> String| match file {
        Some(file) => std::fs::write(&file, text()).map_err(|why| format!("{file}: {why}")),
        None => Ok(()),
    };
    write(csv, &|| compare::drift::csv::write(&drift))?;
    write(html, &|| compare::drift::html::write(&drift))?;
    print!("{}", drift.text(all));
    Ok(drift.is_good())
}

#[cfg(test)]
mod tests {
    use super::*;

    #[test]
    fn ours_answers_if_no_other_is_named() {
        let by = |words: &str| {
            answering(&mut Asked { words: words.split_whitespace().map(str::to_string).collect() })
        };
        assert_eq!(by("--check"), Ok(Program::Ours));
        assert_eq!(by("--check --by paper"), Ok(Program::Paper));
        assert!(by("--by nobody").is_err() && by("--by").is_err());
    }
}
