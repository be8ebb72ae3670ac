//! The functions that the proved library has to have; build.rs asks this of the archive that it links.

/// An act and the exported function that does it.
const EXPORTS: [(&str, &str); 11] = [
    ("formula", "cofferdrift_read_formula"),
    ("read", "cofferdrift_read"),
    ("select", "cofferdrift_select"),
    ("deselect", "cofferdrift_deselect"),
    ("hide", "cofferdrift_hide"),
    ("show", "cofferdrift_show"),
    ("modify", "cofferdrift_modify"),
    ("forward", "cofferdrift_forward"),
    ("rewrite", "cofferdrift_rewrite"),
    ("genmp", "cofferdrift_genmp"),
    ("onepoint", "cofferdrift_one_point"),
];

/// The acts that the library does not have yet.
pub const NOT_YET: [&str; 2] = ["genmp", "onepoint"];

/// Every act, whether or not it is there.
pub fn acts() -> impl Iterator<Item = &'static str> {
    EXPORTS.into_iter().map(|(act, _)| act)
}

/// The acts of an archive, or what is wrong with it: all have to be there but those of NOT_YET, and none
/// of these, so that what disappears does not pass for what was never there.
pub fn acts_of(archive: &[u8]) -> Result<Vec<&'static str>, String> {
    let mut out = Vec::new();
    for (act, symbol) in EXPORTS {
        match (names(archive, symbol), NOT_YET.contains(&act)) {
            (true, false) => out.push(act),
            (false, true) => {}
            (false, false) => return Err(format!("it has no {symbol}")),
            (true, true) => {
                return Err(format!("it has {symbol}: take {act} off NOT_YET, and off every --absent"));
            }
        }
    }
    Ok(out)
}

/// Whether the archive names the symbol: a whole word that a zero byte ends.
fn names(archive: &[u8], symbol: &str) -> bool {
    let word = |byte: u8| byte.is_ascii_alphanumeric() || byte == b'_';
    let ended = [symbol.as_bytes(), b"\0"].concat();
    let found = |at: usize| archive[at..].starts_with(&ended) && (at == 0 || !word(archive[at - 1]));
    (0..archive.len()).any(found)
}

#[cfg(test)]
mod tests {
    use super::*;

    /// An archive as far as it is looked at here: a name for each act that is not left out.
    fn archive(is_there: impl Fn(&str) -> bool) -> Vec<u8> {
        let there = EXPORTS.iter().filter(|(act, _)| is_there(act));
        there.flat_map(|(_, symbol)| [b"/", symbol.as_bytes(), b"\0"].concat()).collect()
    }

    #[test]
    fn an_archive_has_exactly_what_is_due() {
        let due = |act: &str| !NOT_YET.contains(&act);
        assert_eq!(acts_of(&archive(due)).expect("all that is due").len(), EXPORTS.len() - NOT_YET.len());
        assert!(acts_of(b"").is_err());
        for (act, _) in EXPORTS {
            assert!(acts_of(&archive(|other| due(other) != (other == act))).is_err(), "{act}");
        }
    }

    #[test]
    fn a_symbol_is_a_whole_word() {
        assert!(names(b"\0cofferdrift_read\0", "cofferdrift_read"));
        assert!(!names(b"\0cofferdrift_read_formula\0", "cofferdrift_read"));
        assert!(!names(b"\0my_cofferdrift_read\0", "cofferdrift_read"));
    }
}
