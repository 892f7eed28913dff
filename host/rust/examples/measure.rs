//! What a session costs, in ns: the least of many short batches, so that a busy machine disturbs little.
//!
//!     measure                         a session's making, copy, snapshot and restore, and a member's whole projection
//!     measure SETUP.bin EVENTS.bin    an event of EVENTS after the records of SETUP: without the check and with it
//!
//! An event is measured from the typed event to the typed answer. `bench/host.py` calls it.
use sozgarru::{CallId, Event, Outcome, Refusal, Session, Value};
use std::hint::black_box;
use std::time::{Duration, Instant};
use std::{env, fs};

const BATCHES: u32 = 3000;

/// The least time of a batch, each of which is prepared anew.
fn least<T>(mut prepare: impl FnMut() -> T, mut batch: impl FnMut(T) -> T) -> Duration {
    let mut best = Duration::MAX;
    for _ in 0..BATCHES {
        let prepared = prepare();
        let began = Instant::now();
        let left = batch(prepared);
        best = best.min(began.elapsed());
        drop(left);
    }
    best
}

/// ns of one of `count` equal parts.
fn each(time: Duration, count: u32) -> u128 {
    (time / count).as_nanos()
}

fn read(path: &str) -> Vec<u8> {
    fs::read(path).unwrap_or_else(|error| panic!("{path}: {error}"))
}

fn events(mut bytes: &[u8]) -> Vec<Event<'_>> {
    let mut events = Vec::new();
    while let Some((event, length)) = Event::read_record(bytes) {
        events.push(event);
        bytes = &bytes[length..];
    }
    events
}

fn measure_events(setup: &[u8], measured: &[u8]) {
    let mut start = Session::new();
    for event in events(setup) {
        start.dispatch(&event).expect("the setup is accepted");
    }
    let measured = events(measured);
    let count = u32::try_from(measured.len()).expect("a short file");
    let run = |checked: bool| {
        let batch = |mut session: Session| {
            for event in &measured {
                let answer = if checked { session.dispatch_checked(event) } else { session.dispatch(event) };
                let _ = black_box(answer);
            }
            session
        };
        each(least(|| start.clone(), batch), count)
    };
    println!("{} {}", run(false), run(true));
}

/// A member's projection: three tasks, a call each, answered last call first. A beginning and 25 events.
fn projection() -> Result<Session, Refusal> {
    let mut s = Session::new();
    let items = [s.coroutine(1)?, s.coroutine(2)?, s.coroutine(3)?];
    let gather = s.gather(&items)?;
    s.await_object(gather)?;
    for _ in 0..3 {
        let call = s.call()?;
        let future = s.pending(call, None)?;
        s.await_object(future)?;
    }
    for number in (0..3).rev() {
        s.result(CallId::new(number), Outcome::Return(Value::Plain(number.into())))?;
        s.resume()?;
        s.complete(Value::Plain(number.into()))?;
    }
    s.show(gather)?;
    s.complete(Value::Plain(9))?;
    Ok(s)
}

fn measure_sessions() {
    let row = |name: &str, time: Duration| println!("{name}|{}", time.as_nanos());
    let ended = projection().expect("a projection");
    let bytes = ended.snapshot();
    row("Session::new", least(|| None, |_| Some(Session::new())));
    row("clone", least(|| None, |_: Option<Session>| Some(ended.clone())));
    row("snapshot, with its checksum", least(|| None, |_: Option<Vec<u8>>| Some(ended.snapshot())));
    row("restore, with its checks", least(|| None, |_| Some(Session::restore(&bytes).expect("a snapshot"))));
    row("a member's projection, begin to end", least(|| None, |_| Some(projection().expect("a projection"))));
}

fn main() {
    let words: Vec<String> = env::args().skip(1).collect();
    match &words[..] {
        [] => measure_sessions(),
        [setup, measured] => measure_events(&read(setup), &read(measured)),
        _ => panic!("usage: measure [SETUP.bin EVENTS.bin]"),
    }
}
