//! What the program must not let pass, asked of the program itself: its exit status.

use std::io::Write;
use std::process::{Command, Stdio};

/// The exit status with these words and this input.
fn status(words: &str, input: &str) -> Option<i32> {
    let mut program = Command::new(env!("CARGO_BIN_EXE_compare"))
        .args(words.split_whitespace())
        .stdin(Stdio::piped())
        .stdout(Stdio::null())
        .stderr(Stdio::null())
        .spawn()
        .expect("the program starts");
    // A program that reads nothing closes its input.
    let _ = program.stdin.take().expect("an input").write_all(input.as_bytes());
    program.wait().expect("the program ends").code()
}

#[test]
fn lines_that_show_nothing_fail() {
    let check = |input: &str| status("lines --check --by paper", input);
    assert_eq!(check("read - -> refuse 1 0\n!read - -> refuse 1 1\n"), Some(0));
    for input in
        ["", "# nothing\n", "read -\n", "read - -> refuse 1 1\n", "!read - -> refuse 1 0\n", "fly -> ok\n"]
    {
        assert_eq!(check(input), Some(1), "{input}");
    }
    assert_eq!(status("lines --check --by paper --absent read", "read - -> refuse 1 0\n"), Some(1));
}

#[test]
fn what_is_asked_wrongly_is_said() {
    for words in [
        "run --count 0",
        "laws --count 0",
        "run --without paper",
        "run --absent fly",
        "lines --absent read",
        "lines --check --or-absent",
        "drift",
    ] {
        assert_eq!(status(words, ""), Some(2), "{words}");
    }
}
