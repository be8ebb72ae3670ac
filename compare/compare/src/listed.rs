//! docs/DIFFERENCES.md: the classes it lists, and the requests that it shows each with.

/// The page as it was when this program was built.
pub const PAGE: &str = include_str!("../../../docs/DIFFERENCES.md");

/// A request of the page with the two answers that the page says.
#[derive(Clone, PartialEq, Eq, Debug)]
pub struct Block {
    pub request: String,
    /// Document 01's answer.
    pub said: String,
    /// The given Rust's answer.
    pub done: String,
}

/// One entry of the page.
#[derive(Clone, PartialEq, Eq, Debug)]
pub struct Entry {
    pub name: String,
    pub title: String,
    pub text: String,
    pub blocks: Vec<Block>,
}

/// The entries of a page: each starts with a heading `### D-NAME`, with a title after a colon.
pub fn entries(page: &str) -> Vec<Entry> {
    let mut out: Vec<Entry> = Vec::new();
    let mut inside = false;
    for line in page.lines() {
        if let Some(heading) = line.strip_prefix("### D-") {
            let (name, title) = heading.split_once(':').unwrap_or((heading, ""));
            let name = format!("D-{}", name.trim());
            out.push(Entry {
                name,
                title: title.trim().to_string(),
                text: String::new(),
                blocks: Vec::new(),
            });
            inside = true;
        } else if line.starts_with('#') {
            inside = false;
        } else if let Some(entry) = out.last_mut().filter(|_| inside) {
            entry.text.push_str(line);
            entry.text.push('\n');
        }
    }
    for entry in &mut out {
        entry.blocks = blocks(&entry.text);
    }
    out
}

/// Fenced blocks of three lines: a request, `01 ANSWER` and `Rust ANSWER`.
fn blocks(text: &str) -> Vec<Block> {
    let fenced = text.split("```\n").skip(1).step_by(2);
    fenced.filter_map(|block| block_of(&block.lines().collect::<Vec<&str>>())).collect()
}

fn block_of(lines: &[&str]) -> Option<Block> {
    let [request, said, done] = lines else {
        return None;
    };
    let said = said.strip_prefix("01 ")?.to_string();
    let done = done.strip_prefix("Rust ")?.to_string();
    Some(Block { request: request.to_string(), said, done })
}

/// Whether the page has an entry of this name.
pub fn is_listed(name: &str) -> bool {
    entries(PAGE).iter().any(|entry| entry.name == name)
}

#[cfg(test)]
mod tests {
    use super::*;
    use crate::explain::class::Class;
    use crate::explain::{Verdict, compared};
    use crate::request::{Request, answer_line};
    use crate::run::tally::smallest_of_class;

    #[test]
    fn entries_are_found_under_their_headings() {
        let page =
            "# P\n### D-A: one\ntext\n```\nread -\n01 refuse 1 0\nRust absent\n```\n## Q\nno\n### D-B\nx\n";
        let found = entries(page);
        assert_eq!(found.iter().map(|entry| entry.name.as_str()).collect::<Vec<_>>(), ["D-A", "D-B"]);
        assert_eq!(found[0].title, "one");
        assert!(!found[0].text.contains("no"));
        let block = Block { request: "read -".into(), said: "refuse 1 0".into(), done: "absent".into() };
        assert_eq!(found[0].blocks, [block]);
    }

    #[test]
    fn every_class_is_listed_with_an_input() {
        for class in Class::ALL {
            let entry = entries(PAGE).into_iter().find(|entry| entry.name == class.name());
            assert!(entry.is_some_and(|entry| !entry.blocks.is_empty()), "{}", class.name());
        }
    }

    /// The first block of each class is what the shrinker leaves of it.
    #[test]
    fn the_smallest_inputs_are_smallest() {
        if given::missing().is_some() {
            return;
        }
        for class in Class::ALL {
            let entry = entries(PAGE).into_iter().find(|entry| entry.name == class.name()).expect("an entry");
            let request = Request::parse(&entry.blocks[0].request).expect("a request");
            let (small, _) = smallest_of_class(&request, class, Class::ALL.len());
            assert_eq!(small.line(), request.line(), "{}", class.name());
        }
    }

    /// Each block's answers, and that its class is the one it stands under.
    #[test]
    fn the_page_is_as_it_says() {
        if given::missing().is_some() {
            return;
        }
        for entry in entries(PAGE) {
            for block in &entry.blocks {
                let request = Request::parse(&block.request).expect("a request");
                let (paper, given, verdict) =
                    compared(&request, given::Variant::Unchanged).expect("both answer");
                assert_eq!(answers::line(&paper), block.said, "{}", block.request);
                assert_eq!(answer_line(&given), block.done, "{}", block.request);
                let under = |class: &Class| class.name() == entry.name;
                let fits = matches!(&verdict, Verdict::Explained(classes) if classes.iter().any(under));
                assert!(fits, "{}: {verdict:?}", block.request);
            }
        }
    }
}
