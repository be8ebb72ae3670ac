//! The drift list as one page that stands alone: no script, and nothing from outside.

use std::collections::BTreeMap;

use answers::Answer;

use super::{Drift, Obligation, Outcome, Unread, told};
use crate::listed;
use crate::request::answer_line;

const STYLE: &str = "\
body{font:15px/1.45 system-ui,sans-serif;margin:2rem auto;max-width:72rem;padding:0 1rem;color:#1c1e21}\
h1{font-size:1.5rem}h2{font-size:1.15rem;margin-top:2.5rem}h3{font-size:1rem;margin:0 0 .4rem;overflow-wrap:anywhere}\
h4{font-size:.85rem;margin:0;color:#555c66}\
table{border-collapse:collapse;width:100%}th,td{border:1px solid #c9ced6;padding:.35rem .5rem;vertical-align:top;\
text-align:left}th{background:#eef1f5}pre,code{font:13px/1.4 ui-monospace,monospace;white-space:pre-wrap;\
overflow-wrap:anywhere;margin:0}article{border:1px solid #c9ced6;border-radius:4px;padding:.6rem;margin:.6rem 0}\
.sides{display:grid;grid-template-columns:repeat(auto-fit,minmax(min(100%,20rem),1fr));gap:.6rem}\
.bad{background:#fde4e1}summary{cursor:pointer}.num{text-align:right}";

/// Obligations of one outcome, under its words.
type Group<'a> = (&'a Outcome, Vec<&'a Obligation>);

/// The whole page.
pub fn write(drift: &Drift) -> String {
    let groups = groups(drift);
    let mut out = String::from("<!DOCTYPE html>\n<html lang=\"en\">\n<meta charset=\"utf-8\">\n");
    out.push_str("<meta name=\"viewport\" content=\"width=device-width, initial-scale=1\">\n");
    out.push_str(&format!(
        "<title>Drift</title>\n<style>{STYLE}</style>\n<h1>Drift of a replayed archive</h1>\n"
    ));
    let counts = format!("<p>{}</p>\n", escaped(&drift.last_line()));
    out.push_str(&counts);
    out.push_str(&differences_met(&groups));
    for (number, group) in groups.iter().enumerate() {
        out.push_str(&section(number, group));
    }
    out.push_str(&not_readable(&drift.unread));
    out.push_str(&format!("<h2>In all</h2>\n{counts}</html>\n"));
    out
}

/// What a reviewer has to look at stands first: unexplained, not compared, then by entries.
fn groups(drift: &Drift) -> Vec<Group<'_>> {
    let mut groups: BTreeMap<&Outcome, Vec<&Obligation>> = BTreeMap::new();
    for obligation in drift.obligations.iter().filter(|obligation| obligation.outcome != Outcome::Same) {
        groups.entry(&obligation.outcome).or_default().push(obligation);
    }
    groups.into_iter().collect()
}

/// Each entry met, how often, what docs/DIFFERENCES.md says of it, and where its obligations stand.
fn differences_met(groups: &[Group]) -> String {
    let mut met: BTreeMap<String, (usize, Vec<usize>)> = BTreeMap::new();
    for (number, (outcome, obligations)) in groups.iter().enumerate() {
        let names = match outcome {
            Outcome::Drift(names) => names.clone(),
            other => vec![other.words()],
        };
        for name in names {
            let (count, places) = met.entry(name).or_default();
            *count += obligations.len();
            places.push(number);
        }
    }
    let mut out = "<h2>Differences met</h2>\n<table>\n\
        <tr><th>entry<th>obligations<th>what it is<th>groups\n"
        .to_string();
    for (name, (count, places)) in met {
        let (mark, told) = told_of(&name);
        let links = places.iter().map(|number| format!("<a href=\"#group-{number}\">{}</a>", number + 1));
        out.push_str(&format!(
            "<tr{mark}><td>{}<td class=\"num\">{count}<td>{told}<td>{}\n",
            escaped(&name),
            links.collect::<Vec<_>>().join(" ")
        ));
    }
    out.push_str("</table>\n");
    out
}

/// A mark for what is no entry, and the entry's text.
fn told_of(name: &str) -> (&'static str, String) {
    match listed::entries(listed::PAGE).into_iter().find(|entry| entry.name == name) {
        Some(entry) => {
            let (title, text) = (escaped(&entry.title), escaped(entry.text.trim()));
            ("", format!("<details><summary>{title}</summary><pre>{text}</pre></details>"))
        }
        None => (" class=\"bad\"", "no entry of docs/DIFFERENCES.md".to_string()),
    }
}

fn section(number: usize, (outcome, obligations): &Group) -> String {
    let mark = if matches!(outcome, Outcome::Drift(_)) { "" } else { " class=\"bad\"" };
    let mut out = format!(
        "<h2 id=\"group-{number}\"{mark}>{}. {} ({})</h2>\n",
        number + 1,
        escaped(&outcome.words()),
        obligations.len()
    );
    obligations.iter().for_each(|obligation| out.push_str(&article(obligation)));
    out
}

/// One obligation: what each program gave that the other did not, and the whole below.
fn article(obligation: &Obligation) -> String {
    let Obligation { file, request, by, first, second, .. } = obligation;
    let side = |name: &str, answer: &Option<Answer>, other: &Option<Answer>| {
        let apart = told::apart(request, answer, other).join("\n");
        format!("<div><h4>{name}</h4><pre>{}</pre></div>", escaped(&apart))
    };
    let whole = |title: &str, lines: Vec<String>, bytes: &str| {
        let text = escaped(&lines.join("\n"));
        format!("<div><h4>{title}</h4><pre>{text}</pre><code>{}</code></div>", escaped(bytes))
    };
    format!(
        "<article><h3>{} · {}</h3><div class=\"sides\">{}{}</div>\
        <details><summary>whole</summary><div class=\"sides\">{}{}{}</div></details></article>\n",
        escaped(file),
        escaped(&request.act),
        side(by.name(), first, second),
        side("given Rust", second, first),
        whole("before", told::lent(request), &request.line()),
        whole(by.name(), told::answered(request, first), &answer_line(first)),
        whole("given Rust", told::answered(request, second), &answer_line(second))
    )
}

fn not_readable(unread: &[Unread]) -> String {
    if unread.is_empty() {
        return String::new();
    }
    let mut out = "<h2 class=\"bad\">Not readable</h2>\n<table>\n<tr><th>file<th>why\n".to_string();
    for Unread { file, why } in unread {
        out.push_str(&format!("<tr><td>{}<td>{}\n", escaped(file), escaped(why)));
    }
    out.push_str("</table>\n");
    out
}

fn escaped(text: &str) -> String {
    text.replace('&', "&amp;").replace('<', "&lt;").replace('>', "&gt;").replace('"', "&quot;")
}

#[cfg(test)]
mod tests {
    use super::*;

    #[test]
    fn text_cannot_break_the_page() {
        assert_eq!(escaped("a<b>&\"c\""), "a&lt;b&gt;&amp;&quot;c&quot;");
    }

    #[test]
    fn an_empty_archive_makes_a_page() {
        let page = write(&Drift::default());
        assert!(page.starts_with("<!DOCTYPE html>") && page.ends_with("</html>\n"));
        assert!(page.contains("0 obligations"));
    }
}
