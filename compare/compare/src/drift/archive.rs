//! `compare archive`: a folder of sequents that stands in for a customer's own.

use std::fs;
use std::io;
use std::path::Path;

use crate::edges::marked_files;
use crate::loose::sequent_bytes;
use crate::make::dice::Dice;
use crate::make::words::Words;
use crate::make::{requests, sequents};
use crate::request::Request;

/// The marked examples, then `count` sequents; every third has acts beside it.
pub fn write(folder: &Path, seed: u64, count: usize) -> io::Result<usize> {
    fs::create_dir_all(folder)?;
    for (index, file) in marked_files().iter().enumerate() {
        fs::write(folder.join(format!("marked-{:02}.sqt", index + 1)), file)?;
    }
    let mut dice = Dice::new(seed);
    for number in 1..=count {
        let path = folder.join(format!("obligation-{number:05}.sqt"));
        if number % 3 == 0 {
            let request = requests::on_hypotheses(&mut dice);
            fs::write(&path, &request.buffers[0])?;
            let acts = [line_without_sequent(&request), requests::one_point(&mut dice).line()];
            fs::write(path.with_extension("acts"), format!("{}\n", acts.join("\n")))?;
        } else {
            let words = Words::random(&mut dice);
            let most = if dice.once_in(10) { 40 } else { 10 };
            let sequent = sequents::sequent(&mut sequents::writer(&mut dice, &words), most);
            fs::write(&path, sequent_bytes(&sequent))?;
        }
    }
    Ok(marked_files().len() + count)
}

fn line_without_sequent(request: &Request) -> String {
    let mut rest = request.clone();
    rest.buffers.remove(0);
    rest.line()
}
