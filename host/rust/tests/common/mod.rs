//! Records and their lines, as the tests replay them.
#![allow(dead_code)] // each test file uses a part of it
use sozgarru::{Event, Line, Session};
use std::ops::Range;
use std::path::PathBuf;
use std::{env, fs};

/// A stored case: records, and the lines that `drive` writes for them.
pub struct Case {
    pub name: String,
    pub records: Vec<u8>,
    /// One for each record; nothing where the case does not say.
    pub lines: Vec<Option<String>>,
}

/// The stored cases: those of the folder SOZGARRU_CASES, pairs NAME.bin and NAME.txt as `host/pairs.py` writes them;
/// without it the worked example alone, which stands in this folder.
pub fn cases() -> Vec<Case> {
    let given = env::var_os("SOZGARRU_CASES").map(PathBuf::from);
    if given.is_none() {
        println!("SOZGARRU_CASES names no folder: the worked example alone (tools/host.sh has all stored cases)");
    }
    let folder = given.unwrap_or_else(|| PathBuf::from(env!("CARGO_MANIFEST_DIR")).join("tests/cases"));
    let entries = fs::read_dir(&folder).unwrap_or_else(|error| panic!("{}: {error}", folder.display()));
    let mut names: Vec<PathBuf> = entries.map(|entry| entry.expect("an entry").path()).collect();
    names.retain(|path| path.extension().is_some_and(|extension| extension == "bin"));
    names.sort();
    let cases: Vec<Case> = names.iter().map(read_case).collect();
    assert!(!cases.is_empty(), "no case in {}", folder.display());
    println!("{} cases, {} records", cases.len(), cases.iter().map(|case| case.lines.len()).sum::<usize>());
    cases
}

fn read_case(path: &PathBuf) -> Case {
    let text = fs::read_to_string(path.with_extension("txt")).expect("the lines beside the records");
    Case {
        name: path.file_stem().expect("a name").to_string_lossy().into_owned(),
        records: fs::read(path).expect("the records"),
        lines: text.lines().map(|line| (line != "?").then(|| line.to_string())).collect(),
    }
}

/// Each record of the bytes; nothing where they stop being records.
pub fn events(mut bytes: &[u8]) -> Vec<Option<Event<'_>>> {
    let mut events = Vec::new();
    while !bytes.is_empty() {
        let Some((event, length)) = Event::read_record(bytes) else {
            events.push(None);
            break;
        };
        events.push(Some(event));
        bytes = &bytes[length..];
    }
    events
}

/// The line of an event without its number; what is no record is refused with 11.
pub fn line(session: &mut Session, checked: bool, event: Option<&Event<'_>>) -> String {
    match event {
        None => "refused 11".to_string(),
        Some(event) if checked => Line(&session.dispatch_checked(event)).to_string(),
        Some(event) => Line(&session.dispatch(event)).to_string(),
    }
}

/// Holds the lines of a session to those of a part of the case.
pub fn replay(session: &mut Session, checked: bool, case: &Case, part: Range<usize>) {
    let events = events(&case.records);
    assert_eq!(events.len(), case.lines.len(), "{}: a line for each record", case.name);
    hold(session, checked, case, part.start, &events[part]);
}

/// Holds the lines of a session to those of the case, from record `first` on, for these events.
pub fn hold(session: &mut Session, checked: bool, case: &Case, first: usize, events: &[Option<Event<'_>>]) {
    for (number, event) in (first..).zip(events) {
        let line = line(session, checked, event.as_ref());
        if let Some(wanted) = &case.lines[number] {
            assert_eq!(line, *wanted, "{}, record {}", case.name, number + 1);
        }
    }
}

/// A session after the first `count` records of a case.
pub fn session_after(case: &Case, count: usize) -> Session {
    let mut session = Session::new();
    for event in events(&case.records).iter().take(count).flatten() {
        let _ = session.dispatch(event);
    }
    session
}
