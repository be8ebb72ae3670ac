//! The drift list as comma-separated values.

use super::{Drift, Unread};
use crate::request::answer_line;

/// A heading line, then one line for each obligation and for each file or line that was not readable.
pub fn write(drift: &Drift) -> String {
    let mut out = "file,act,request,first program,first answer,given answer,difference\n".to_string();
    for obligation in &drift.obligations {
        out.push_str(&line([
            &obligation.file,
            &obligation.request.act,
            &obligation.request.line(),
            obligation.by.name(),
            &answer_line(&obligation.first),
            &answer_line(&obligation.second),
            &obligation.outcome.words(),
        ]));
    }
    for Unread { file, why } in &drift.unread {
        out.push_str(&line([file, "", "", "", "", "", &format!("not readable: {why}")]));
    }
    out
}

fn line(fields: [&str; 7]) -> String {
    format!("{}\n", fields.map(quoted).join(","))
}

/// In quotes where a comma, a quote or a line's end would be misread.
fn quoted(field: &str) -> String {
    if field.contains([',', '"', '\n', '\r']) {
        return format!("\"{}\"", field.replace('"', "\"\""));
    }
    field.to_string()
}

#[cfg(test)]
mod tests {
    use super::*;

    #[test]
    fn fields_are_quoted_where_needed() {
        let fields = ["plain", "a,\"b\"", "two\nlines", "", "", "", "end\r"];
        assert_eq!(line(fields), "plain,\"a,\"\"b\"\"\",\"two\nlines\",,,,\"end\r\"\n");
    }
}
