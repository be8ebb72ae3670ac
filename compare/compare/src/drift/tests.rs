use super::*;

/// A folder of its own, removed at the end.
struct Folder(PathBuf);

impl Folder {
    fn new(name: &str) -> Folder {
        let path = std::env::temp_dir().join(format!("compare-{name}-{}", std::process::id()));
        fs::create_dir_all(&path).expect("a folder for tests");
        Folder(path)
    }

    fn write(&self, name: &str, bytes: &[u8]) {
        fs::write(self.0.join(name), bytes).expect("a file for tests");
    }
}

impl Drop for Folder {
    fn drop(&mut self) {
        let _ = fs::remove_dir_all(&self.0);
    }
}

/// Replayed by a program that has every act.
fn replayed(folder: &Path) -> io::Result<Drift> {
    run(folder, Program::Paper, &BTreeSet::new())
}

const GOAL_TRUE: &[u8] = b"SQT\x01\x00\x00\x00\x00\x01";

#[test]
fn an_archive_is_replayed() {
    let folder = Folder::new("replayed");
    let written = archive::write(&folder.0, 1, 30).expect("a folder for tests");
    folder.write("obligation-00003.acts", b"select 01 9\n\nsing\n");
    let drift = replayed(&folder.0).expect("an archive");
    let files: std::collections::BTreeSet<&str> =
        drift.obligations.iter().map(|obligation| obligation.file.as_str()).collect();
    assert_eq!(files.len(), written);
    assert_eq!(drift.unread.len(), 1);
    assert_eq!(drift.unread[0].file, "obligation-00003.acts");
    assert_eq!(drift.unread[0].why, "line 3 is no act");
    let counts = drift.counts();
    // Two acts for each file, two more for nine of the ten with acts beside them, and one.
    assert_eq!(counts.all, 2 * written + 2 * 9 + 1);
    assert_eq!(counts.unexplained, 0);
    assert!(given::missing().is_some() || (counts.same > 0 && counts.not_compared == 0));
    assert_eq!(csv::write(&drift).lines().count(), 1 + counts.all + 1);
}

/// Odd names, folders in folders, refused and unreadable files: each is told, none ends the replay.
#[test]
fn an_odd_archive_is_replayed_too() {
    let folder = Folder::new("odd");
    folder.write("a, \"b\" <i>.sqt", GOAL_TRUE);
    folder.write("long.sqt", &[1; 60_001]);
    folder.write("other.txt", b"no sequent");
    fs::create_dir_all(folder.0.join("inner/folder.acts")).expect("a folder");
    folder.write("inner/folder.sqt", GOAL_TRUE);
    folder.write("inner/bytes.sqt", GOAL_TRUE);
    folder.write("inner/bytes.acts", b"\xff\xfe\nselect 01 9\n");
    let drift = replayed(&folder.0).expect("an archive");
    let files: Vec<&str> = drift.unread.iter().map(|unread| unread.file.as_str()).collect();
    assert_eq!(files, ["inner/bytes.acts", "inner/folder.acts"]);
    let counts = drift.counts();
    assert_eq!(counts.all, 2 * 4 + 1);
    assert_eq!(counts.not_compared, if given::missing().is_some() { 9 } else { 2 });
    assert!(!drift.is_good());
    assert!(csv::write(&drift).contains("\n\"a, \"\"b\"\" <i>.sqt\",read,"));
    let page = html::write(&drift);
    assert!(page.contains("long.sqt") && !page.contains("<i>"));
}

#[test]
fn a_folder_without_sequents_is_no_archive() {
    let folder = Folder::new("empty");
    assert!(replayed(&folder.0).is_err());
    assert!(replayed(&folder.0.join("absent")).is_err());
}

#[test]
fn an_answer_that_is_not_document_01s_is_unexplained() {
    let request = Request::parse("genmp 535154010000010000103131103132 60000 60000").expect("a request");
    let wrong = Some(Err(answers::Refusal { number: 14, place: 0 }));
    let right = Program::Paper.answer(&request);
    if given::missing().is_none() {
        assert_eq!(outcome(&request, &wrong), Outcome::Unexplained);
        assert_eq!(outcome(&request, &right), Outcome::Drift(vec!["D-TRUE-FALSE".to_string()]));
    }
}

/// Where a program answered nothing, no other stands in for it.
#[test]
fn an_act_that_is_absent_is_listed_so() {
    let request = Request::parse("genmp 535154010000010000103131103131 60000 60000").expect("a request");
    assert_eq!(outcome(&request, &None), Outcome::Absent);
    let folder = Folder::new("absent");
    folder.write("a.sqt", GOAL_TRUE);
    // The given Rust has no formulas alone, and so stands for a library that lacks an act.
    folder.write("a.acts", b"formula - 01\n");
    let by_given = |acts: &[&str]| {
        let drift = run(&folder.0, Program::Given, &acts.iter().map(|act| act.to_string()).collect());
        drift.expect("an archive")
    };
    let drift = by_given(&[]);
    assert!(!drift.is_good() && drift.counts().absent >= 1);
    assert!(drift.text(false).contains("a.sqt formula: absent"));
    if given::missing().is_none() {
        assert!(by_given(&["formula"]).is_good());
        assert!(!by_given(&["formula", "read"]).is_good());
    }
}

#[test]
fn an_act_is_read_without_its_sequent() {
    let request = act_on(&[1, 2], "forward 00 0101 70").expect("an act");
    assert_eq!(request.line(), "forward 0102 00 0101 70");
    assert_eq!(act_on(&[1], "onepoint - 01 5 6").expect("an act").line(), "onepoint - 01 5 6");
    assert_eq!(act_on(&[1], "expression - 20").expect("an act").line(), "expression - 20");
    assert_eq!(act_on(&[1], "forward 00"), None);
}
