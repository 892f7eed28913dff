//! Does a session get by with so much stack? Replays the records of standard input on a thread of so many KB; where
//! they need more, the process is killed by its guard page.
//!
//!     stack KB [--checked] < FILE.bin
//!
//! A thread gets some 24 KB at least, whatever is asked.
use sozgarru::{Event, Session};
use std::io::Read;
use std::thread::Builder;

fn main() {
    let size: usize = std::env::args().nth(1).and_then(|word| word.parse().ok()).expect("usage: stack KB [--checked]");
    let checked = std::env::args().any(|word| word == "--checked");
    let mut source = Vec::new();
    std::io::stdin().read_to_end(&mut source).expect("standard input");
    let thread = Builder::new().stack_size(size * 1024).spawn(move || replay(&source, checked)).expect("a thread");
    println!("{} records on {size} KB of stack", thread.join().expect("no panic"));
}

fn replay(source: &[u8], checked: bool) -> usize {
    let mut session = Session::new();
    let (mut rest, mut count) = (source, 0);
    while let Some((event, length)) = Event::read_record(rest) {
        let _ = if checked { session.dispatch_checked(&event) } else { session.dispatch(&event) };
        rest = &rest[length..];
        count += 1;
    }
    count
}
