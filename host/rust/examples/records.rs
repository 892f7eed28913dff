//! `drive` by way of this crate: records from standard input, document 01's lines to standard output.
//!
//!     records [--checked] < FILE.bin
//!
//! `--checked` uses the functions that check the store at each event.
use sozgarru::{Event, Line, Session};
use std::io::{self, BufWriter, Read, Write};

fn main() -> io::Result<()> {
    let checked = std::env::args().any(|word| word == "--checked");
    let mut source = Vec::new();
    io::stdin().read_to_end(&mut source)?;
    let mut out = BufWriter::with_capacity(1 << 16, io::stdout().lock());
    answer_all(&source, checked, &mut out)?;
    out.flush()
}

fn answer_all(source: &[u8], checked: bool, out: &mut impl Write) -> io::Result<()> {
    let mut session = Session::new();
    let mut rest = source;
    for number in 1u64.. {
        if rest.is_empty() {
            break;
        }
        let Some((event, length)) = Event::read_record(rest) else {
            return writeln!(out, "{number} refused 11");
        };
        let answer = if checked { session.dispatch_checked(&event) } else { session.dispatch(&event) };
        writeln!(out, "{number} {}", Line(&answer))?;
        rest = &rest[length..];
    }
    Ok(())
}
