//! `drive` beside the published Rust: the same bytes to both, the lines held to each other byte for byte. A file with a batch that wakes its tasks
//! out of order is held to the amended Rust, the same text with document 02's No. 7 behind each batch; every other file to the Rust as published.

use std::{
    collections::BTreeMap,
    fs,
    io::Write,
    panic::{self, AssertUnwindSafe},
    path::Path,
    process::{Command, Stdio},
    thread,
    time::{Duration, Instant},
};

use crate::{
    generate,
    records::Reader,
    session::{self, Notes, Rule},
};

/// What a program made of an input: its lines, and how it ended if not well.
fn drive(program: &Path, input: &[u8]) -> String {
    let mut child = Command::new(program)
        .stdin(Stdio::piped())
        .stdout(Stdio::piped())
        .spawn()
        .unwrap_or_else(|error| panic!("{} does not start: {error}", program.display()));
    let mut stdin = child.stdin.take().expect("a pipe was asked for");
    let input = input.to_vec();
    // the program may stop reading at an 11
    let writer = thread::spawn(move || drop(stdin.write_all(&input)));
    let output = child.wait_with_output().expect("waiting for the program");
    writer.join().expect("the writer does not panic");
    let mut lines = String::from_utf8_lossy(&output.stdout).into_owned();
    if !output.status.success() {
        lines += &format!("ended with {}\n", output.status);
    }
    lines
}

/// The Rust's lines, or that it panicked; and what it met.
fn rust(input: &[u8], rule: Rule) -> (String, Notes) {
    panic::catch_unwind(AssertUnwindSafe(|| session::lines_and_notes(input, rule))).unwrap_or_else(|_| ("the Rust panicked\n".into(), Notes::default()))
}

/// What an input must give.
pub(crate) struct Expected {
    /// the Rust that it is held to
    pub rule: Rule,
    pub lines: String,
    notes: Notes,
}

/// The lines of the Rust as published, if each batch wakes its tasks in order; else those of the amended Rust.
pub(crate) fn expected(input: &[u8]) -> Expected {
    let (published, met) = rust(input, Rule::Published);
    let (amended, notes) = rust(input, Rule::Amended);
    if met.out_of_order {
        return Expected { rule: Rule::Amended, lines: amended, notes };
    }
    assert!(!notes.out_of_order && published == amended, "the amended rule had something to do where each batch wakes in order");
    Expected { rule: Rule::Published, lines: published, notes }
}

/// The records of an input, as far as they can be read; what is left is one piece more.
fn pieces(input: &[u8]) -> Vec<&[u8]> {
    let mut out = Vec::new();
    let mut rest = input;
    while !rest.is_empty() {
        let mut reader = Reader { bytes: rest };
        let length = if reader.record().is_some() { rest.len() - reader.bytes.len() } else { rest.len() };
        let (piece, after) = rest.split_at(length);
        out.push(piece);
        rest = after;
    }
    out
}

/// A shorter input on which the two still differ: pieces are left out as long as they do, for a minute at most: a file may have 70,000 records, all needed.
fn cut_down(program: &Path, input: &[u8]) -> Vec<u8> {
    let began = Instant::now();
    let mut kept = pieces(input);
    let mut size = kept.len().div_ceil(2);
    while size > 0 {
        let mut at = 0;
        while at < kept.len() && began.elapsed() < Duration::from_secs(60) {
            let mut fewer = kept.clone();
            fewer.drain(at..(at + size).min(kept.len()));
            let bytes = fewer.concat();
            if drive(program, &bytes) == expected(&bytes).lines {
                at += size;
            } else {
                kept = fewer;
            }
        }
        size /= 2;
    }
    kept.concat()
}

/// Compares `count` files of `seed`; says what was in them; true if no line differs.
pub(crate) fn compare(program: &Path, seed: u64, count: u64, folder: &Path) -> bool {
    let mut words: BTreeMap<String, u64> = BTreeMap::new();
    let mut cancels: BTreeMap<&'static str, u64> = BTreeMap::new();
    let [mut published, mut amended] = [Part::default(), Part::default()];
    for number in 0..count {
        let input = generate::file(seed, number);
        let Expected { rule, lines, notes } = expected(&input);
        let got = drive(program, &input);
        if got != lines {
            println!("file {number} of seed {seed}: the lines differ from those of {}", name(rule));
            let short = cut_down(program, &input);
            let path = folder.join(format!("differs-{seed}-{number}.bin"));
            fs::write(&path, &short).expect("writing the file that differs");
            println!("cut down from {} to {} bytes: {}", input.len(), short.len(), path.display());
            let (expected, got) = (expected(&short), drive(program, &short));
            // of many lines, those before the first that differs are left out, but for some
            let equal = expected.lines.lines().zip(got.lines()).take_while(|(a, b)| a == b).count();
            let skipped = if equal > 200 { equal - 20 } else { 0 };
            let shown = |lines: &str| lines.lines().skip(skipped).map(|line| format!("{line}\n")).collect::<String>();
            println!("{}:\n{}drive:\n{}", name(expected.rule), shown(&expected.lines), shown(&got));
            return false;
        }
        let part = if rule == Rule::Published { &mut published } else { &mut amended };
        part.files += 1;
        part.waking += u64::from(!notes.batches.is_empty());
        for (line, record) in lines.lines().zip(pieces(&input)) {
            part.records += 1;
            *words.entry(kind(line)).or_default() += 1;
            if record.get(2) == Some(&11) {
                *words.entry(format!("cancel: {}", kind(line))).or_default() += 1;
            }
        }
        for (what, times) in notes.cancels {
            *cancels.entry(what).or_default() += times;
        }
        for (what, times) in notes.batches {
            *part.batches.entry(what).or_default() += times;
        }
    }
    println!("{count} files of seed {seed}, {} records: no line differs", published.records + amended.records);
    for (rule, part) in [(Rule::Published, published), (Rule::Amended, amended)] {
        let Part { files, records, waking, batches } = part;
        println!("  {files:>8} files, {records} records beside {}; {waking} files have a batch that woke 2 tasks or more", name(rule));
        for (what, times) in batches {
            println!("  {times:>8}   batches: {what}");
        }
    }
    for (word, times) in words {
        println!("  {times:>8} {word}");
    }
    for (what, times) in cancels {
        println!("  {times:>8} cancels {what}");
    }
    true
}

/// The files that are held to one Rust.
#[derive(Default)]
struct Part {
    files: u64,
    records: u64,
    /// the files with a batch that woke two tasks or more
    waking: u64,
    batches: BTreeMap<String, u64>,
}

fn name(rule: Rule) -> &'static str {
    match rule {
        Rule::Published => "the Rust as published",
        Rule::Amended => "the amended Rust",
    }
}

/// The answer word of a line, with what tells the answers of one word apart.
fn kind(line: &str) -> String {
    let words: Vec<&str> = line.split(' ').skip(1).collect();
    let detail = match *words.first().unwrap_or(&"") {
        "refused" => 1..2,
        "runs" => 2..3,
        "shows" => 1..3,
        _ => 0..0,
    };
    let mut kind = words[..1].to_vec();
    kind.extend(words.get(detail).unwrap_or(&[]));
    if words.len() > 1 && words[words.len() - 2] == "steps" {
        kind.push(if words[words.len() - 1] == "0" { "without a commit" } else { "with a commit" });
    }
    kind.join(" ")
}
