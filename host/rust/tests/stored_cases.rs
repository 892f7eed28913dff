//! The stored cases through the crate: line for line, from snapshots, from damaged snapshots, on a small stack.
#[path = "../src/checksum.rs"]
mod checksum;
mod common;

use checksum::crc32;
use common::{cases, events, hold, replay, session_after, Case};
use sozgarru::{CallId, Event, HeapId, NotASession, Outcome, Refusal, Session, TaskId, Value};
use std::thread::Builder;
use std::{env, fs};

/// What docs/HOST.md says an event needs at most.
const STACK: usize = 256 * 1024;

#[test]
fn every_case_line_for_line() {
    for case in cases() {
        for checked in [false, true] {
            replay(&mut Session::new(), checked, &case, 0..case.lines.len());
        }
    }
}

#[test]
fn every_case_on_the_documented_stack() {
    let run = || {
        for case in cases() {
            for checked in [false, true] {
                replay(&mut Session::new(), checked, &case, 0..case.lines.len());
            }
            let session = session_after(&case, case.lines.len());
            let again = Session::restore(&session.clone().snapshot()).expect("a snapshot");
            assert!(again.snapshot() == session.snapshot());
        }
    };
    Builder::new().stack_size(STACK).spawn(run).expect("a thread").join().expect("no panic");
}

/// A session restored at a cut goes on as the one that was never stored. Of a long case some 40 cuts, each with the 200
/// records behind it.
#[test]
fn snapshots_at_every_cut() {
    for case in cases() {
        let every = case.lines.len() / 40 + 1;
        let mut session = Session::new();
        let events = events(&case.records);
        for (cut, event) in events.iter().enumerate() {
            if cut % every == 0 {
                let bytes = session.snapshot();
                let mut again =
                    Session::restore(&bytes).unwrap_or_else(|error| panic!("{}, record {cut}: {error}", case.name));
                assert!(again.snapshot() == bytes);
                hold(&mut again, false, &case, cut, &events[cut..events.len().min(cut + 200)]);
            }
            if let Some(event) = event {
                let _ = session.dispatch(event);
            }
        }
    }
}

/// A snapshot that Python wrote, at the worked example's wait: `tools/host.sh` names its file.
#[test]
fn a_snapshot_of_the_python_side_goes_on() {
    let Some(path) = env::var_os("SOZGARRU_PYTHON_SNAPSHOT") else {
        println!("SOZGARRU_PYTHON_SNAPSHOT names no file: nothing is restored");
        return;
    };
    let bytes = fs::read(path).expect("the file");
    let mut session = Session::restore(&bytes).expect("a snapshot");
    assert!(session.snapshot() == bytes);
    session.result(CallId::new(0), Outcome::Return(Value::Plain(5))).expect("the call is pending");
    assert_eq!(session.resume().expect("the host waits").to_string(), "runs 0 value list 2");
}

/// Where the parts of a snapshot begin, in bytes.
const TASKS: usize = 16;
const OBJECTS: usize = TASKS + 8 * 4104;
const PLACES: usize = OBJECTS + 8 * 2056;
const QUEUE: usize = PLACES + 8 * 2048;
const COUNT: usize = QUEUE + 2 * 513;
const CHECKSUM: usize = COUNT + 8;

/// The bytes with the checksum that they should have.
fn summed_anew(mut bytes: Vec<u8>) -> Vec<u8> {
    let sum = crc32(&bytes[..CHECKSUM]);
    bytes[CHECKSUM..].copy_from_slice(&sum.to_le_bytes());
    bytes
}

/// CRC-32 as it is defined, bit by bit.
#[test]
fn the_checksum_is_crc_32() {
    assert_eq!(crc32(b"123456789"), 0xCBF4_3926);
    let bytes: Vec<u8> = (0..=255).map(|number: u8| number.wrapping_mul(167)).collect();
    for length in 0..bytes.len() {
        let by_bit = |state: u32, byte: &u8| {
            let shift = |state: u32, _| (state >> 1) ^ (0xEDB8_8320 * (state & 1));
            (0..8).fold(state ^ u32::from(*byte), shift)
        };
        assert_eq!(crc32(&bytes[..length]), !bytes[..length].iter().fold(u32::MAX, by_bit), "{length} bytes");
    }
}

#[test]
fn what_is_no_snapshot_is_refused() {
    let bytes = Session::new().snapshot();
    let refused = |bytes: &[u8]| Session::restore(bytes).err();
    assert_eq!(refused(&bytes), None);
    assert_eq!(refused(&bytes[1..]), Some(NotASession::Length));
    assert_eq!(refused(&[]), Some(NotASession::Length));
    assert_eq!(refused(&[&bytes[..], &[0]].concat()), Some(NotASession::Length));
    let with = |at: usize, byte: u8| {
        let mut bytes = bytes.clone();
        bytes[at] = byte;
        bytes
    };
    assert_eq!(refused(&with(0, b's')), Some(NotASession::Mark));
    assert_eq!(refused(&with(8, 200)), Some(NotASession::Version));
    for (at, byte, why) in [(TASKS, 9, "no such state of main"), (CHECKSUM - 1, 1, "a count above every count")] {
        assert_eq!(refused(&with(at, byte)), Some(NotASession::Damaged));
        assert_eq!(refused(&summed_anew(with(at, byte))), Some(NotASession::Unsound), "{why}");
    }
}

/// The session of a fresh one's snapshot in which the count of calls is this: nothing where that is no sound store.
fn session_with_calls(count: u64) -> Result<Session, NotASession> {
    let mut bytes = Session::new().snapshot();
    // word 2 of the objects (docs/LAYOUT.md)
    bytes[OBJECTS + 16..OBJECTS + 24].copy_from_slice(&count.to_le_bytes());
    Session::restore(&summed_anew(bytes))
}

/// Calls enough for every number cannot be made here: a session gets there by the count that was written into its
/// snapshot.
#[test]
fn the_last_call_number() -> Result<(), Refusal> {
    let mut s = session_with_calls(u64::from(u32::MAX) - 1).expect("a sound store");
    let last = CallId::new(u32::MAX - 1);
    let refused = |s: &mut Session, event: Event<'_>, refusal: Refusal| {
        let before = s.snapshot();
        assert_eq!(s.dispatch(&event), Err(refusal), "{event:?}");
        assert_eq!(s.dispatch_checked(&event), Err(refusal), "{event:?}");
        assert!(s.snapshot() == before, "{event:?}: a refused event changes nothing");
    };
    let pending = |call| Event::Pending { call, stored: None };
    refused(&mut s, pending(last.number()), Refusal::Unknown);
    assert_eq!(s.call()?, last);
    refused(&mut s, Event::Call, Refusal::NoCallNumber);
    refused(&mut s, Event::Settled(Value::Plain(1)), Refusal::NoCallNumber);
    refused(&mut s, Event::Settled(Value::List(HeapId::new(0))), Refusal::Unknown);
    refused(&mut s, pending(u32::MAX), Refusal::Unknown);
    // 4,294,967,295 is an unknown call in results too, and neither number is that of its lower 16 bits
    let futures = [65_534, 65_535, last.number()].map(CallId::new);
    for (number, call) in (0..).zip(futures) {
        assert_eq!(s.pending(call, None)?, HeapId::new(number));
        refused(&mut s, pending(call.number()), Refusal::PendingAlready);
    }
    assert_eq!(s.await_object(HeapId::new(2))?.to_string(), "waits 3 65534 65535 4294967294 steps 0");
    s.result(CallId::new(u32::MAX), Outcome::Return(Value::Plain(1)))?;
    assert_eq!(s.resume()?.to_string(), "waits 3 65534 65535 4294967294");
    s.result(last, Outcome::Return(Value::Plain(2)))?;
    assert_eq!(s.resume()?.to_string(), "runs 0 value plain 2");
    for number in [0, 1] {
        assert_eq!(s.show(HeapId::new(number))?.to_string(), "shows external pending");
    }
    assert!(Session::restore(&s.snapshot()).is_ok_and(|again| again.snapshot() == s.snapshot()));
    // 7 before 8: with 256 objects a settled one has no room, and a call has no number
    for _ in 3..256 {
        s.coroutine(1)?;
    }
    refused(&mut s, Event::Settled(Value::Plain(1)), Refusal::NoRoom);
    refused(&mut s, Event::Settled(Value::List(HeapId::new(0))), Refusal::Unknown);
    refused(&mut s, Event::Call, Refusal::NoCallNumber);
    Ok(())
}

/// A settled external takes the last number as a call does; a count above all numbers is no sound store.
#[test]
fn counts_of_calls() -> Result<(), Refusal> {
    let mut s = session_with_calls(u64::from(u32::MAX) - 1).expect("a sound store");
    assert_eq!(s.settled(Value::Plain(1))?, HeapId::new(0));
    assert_eq!(s.call(), Err(Refusal::NoCallNumber));
    assert_eq!(s.settled(Value::Plain(1)), Err(Refusal::NoCallNumber));
    for count in [65_535, 65_536, 65_537] {
        let mut s = session_with_calls(count.into()).expect("a sound store");
        assert_eq!(s.call()?, CallId::new(count));
        assert_eq!(s.pending(CallId::new(count), None)?, HeapId::new(0));
    }
    let mut s = session_with_calls(u32::MAX.into()).expect("a sound store");
    assert_eq!(s.call(), Err(Refusal::NoCallNumber));
    for count in [1 << 32, (1 << 32) + 1, u64::MAX] {
        assert_eq!(session_with_calls(count).err(), Some(NotASession::Unsound), "{count}");
    }
    Ok(())
}

/// A snapshot that the library of 0.1.0 wrote, whose call numbers had 16 bits, is a session still: the same bytes, the
/// same answers, and a number where that library refused with 8.
#[test]
fn a_snapshot_of_the_old_width_goes_on() -> Result<(), Refusal> {
    let mut bytes = vec![0; Session::new().snapshot().len()];
    for line in include_str!("old-width.txt").lines().filter(|line| !line.starts_with('#')) {
        let (at, written) = line.split_once(' ').expect("a place and bytes");
        let places = bytes.iter_mut().skip(at.parse().expect("a place"));
        for (place, byte) in places.zip(written.split(' ')) {
            *place = u8::from_str_radix(byte, 16).expect("a byte");
        }
    }
    let mut s = Session::restore(&bytes).expect("a session");
    assert!(s.snapshot() == bytes);
    let host = |number| Outcome::Return(Value::Plain(number));
    assert_eq!(s.resume()?.to_string(), "waits 3 3 9 65535");
    assert_eq!(s.call(), Err(Refusal::WrongMoment));
    s.results(&[(CallId::new(131_071), host(1)), (CallId::new(65_535), host(35)), (CallId::new(9), host(1))])?;
    assert_eq!(s.resume()?.to_string(), "runs 1 value plain 77");
    assert_eq!(s.dispatch(&Event::Complete(Value::Plain(40)))?.to_string(), "waits 1 3");
    s.result(CallId::new(3), host(33))?;
    assert_eq!(s.resume()?.to_string(), "runs 0 value list 4");
    assert_eq!(s.show(HeapId::new(4))?.to_string(), "shows gather completed 3 plain 40 plain 35 plain 33");
    assert_eq!(s.call()?, CallId::new(65_536));
    Ok(())
}

/// The bytes that rows in use have, at least: where a damage matters.
fn bytes_in_use(snapshot: &[u8]) -> Vec<usize> {
    let header = |word: usize| {
        let at = OBJECTS + 8 * word;
        usize::from(u16::from_le_bytes([snapshot[at], snapshot[at + 1]]))
    };
    let (objects, places, tasks) = (header(0), header(1), header(3));
    let rows = [(TASKS, 64 * tasks), (OBJECTS, 64 + 64 * objects), (PLACES, 32 * places), (QUEUE, 16), (COUNT, 8)];
    rows.into_iter().flat_map(|(from, length)| from..from + length).collect()
}

/// A sequence of numbers that looks like chance and is the same in every run.
struct Chance(u64);

impl Chance {
    fn below(&mut self, count: usize) -> usize {
        self.0 = self.0.wrapping_mul(6_364_136_223_846_793_005).wrapping_add(1_442_695_040_888_963_407);
        usize::try_from(self.0 >> 33).expect("31 bits") % count
    }
}

/// Events of every kind, on a session of which nothing is known but that it is sound.
fn tries() -> Vec<Event<'static>> {
    let objects = [0, 1, 2, 5, 100, 255].map(HeapId::new);
    let mut tries =
        vec![Event::Eager, Event::Resume, Event::Coroutine(1), Event::Call, Event::Settled(Value::Plain(1))];
    tries.push(Event::results(&[
        (CallId::new(0), Outcome::Return(Value::Plain(5))),
        (CallId::new(1), Outcome::Error(1)),
    ]));
    tries.push(Event::Resume);
    tries.push(Event::Pending { call: 0, stored: Some(Value::List(objects[2])) });
    tries.push(Event::Gather(objects[..3].to_vec().into()));
    tries.extend(objects.map(Event::Show));
    tries.extend(objects.map(Event::Await));
    tries.extend([2, 1].map(|task| Event::Cancel(TaskId::new(task))));
    tries.extend([
        Event::Complete(Value::Plain(2)),
        Event::Resume,
        Event::Fail(3),
        Event::Resume,
        Event::Complete(Value::List(objects[1])),
    ]);
    tries
}

/// Restores wrong words with their checksum: they are refused, or they are a sound store, and then every event keeps it
/// so.
fn try_wrong(case: &Case, bytes: &[u8], tries: &[Event<'_>]) -> bool {
    let mut session = match Session::restore(bytes) {
        Ok(session) => session,
        Err(error) => {
            assert_eq!(error, NotASession::Unsound, "{}", case.name);
            return false;
        }
    };
    for event in tries {
        let answer = session.dispatch_checked(event);
        assert_ne!(answer, Err(Refusal::Unsound), "{}: {event:?}", case.name);
    }
    assert!(Session::restore(&session.snapshot()).is_ok(), "{}", case.name);
    true
}

/// How many damages each case gets: fewer in a build that is not optimised, which is slow at it.
fn turns() -> usize {
    if cfg!(debug_assertions) {
        40
    } else {
        1000
    }
}

/// The worked example's wait.
fn session_at_the_wait() -> Session {
    let records = include_bytes!("cases/00-worked-example.bin");
    let mut session = Session::new();
    for event in events(records).iter().flatten().take(6) {
        session.dispatch(event).expect("an accepted event");
    }
    session
}

/// What a flip in this byte is refused as.
fn refused_at(at: usize) -> NotASession {
    match at {
        0..8 => NotASession::Mark,
        8..16 => NotASession::Version,
        _ => NotASession::Damaged,
    }
}

/// Every bit of the header, of the rows in use and of the end, of the worked example's wait.
#[test]
fn every_flipped_bit_is_refused() {
    let mut bytes = session_at_the_wait().snapshot();
    let places = (0..TASKS).chain(bytes_in_use(&bytes)).chain(CHECKSUM..bytes.len());
    for at in places.collect::<Vec<_>>() {
        for bit in 0..8 {
            bytes[at] ^= 1 << bit;
            assert_eq!(Session::restore(&bytes).err(), Some(refused_at(at)), "byte {at}, bit {bit}");
            bytes[at] ^= 1 << bit;
        }
    }
    assert!(Session::restore(&bytes).is_ok());
}

/// One to three bits, anywhere.
#[test]
fn flipped_bits_are_refused() {
    let (snapshot, mut chance) = (session_at_the_wait().snapshot(), Chance(2));
    for turn in 0..10 * turns() {
        let mut bytes = snapshot.clone();
        let places: Vec<usize> = (0..=turn % 3).map(|_| chance.below(bytes.len())).collect();
        for at in &places {
            bytes[*at] ^= 1 << chance.below(8);
        }
        // two flips of one bit are none
        if bytes != snapshot {
            let first = places.iter().copied().filter(|at| bytes[*at] != snapshot[*at]).min();
            assert_eq!(Session::restore(&bytes).err(), first.map(refused_at), "bytes {places:?}");
        }
    }
}

/// One bit, then up to three, of the last state of every case, and the checksum made anew.
#[test]
fn wrong_words_are_refused_or_sound() {
    let (tries, mut chance) = (tries(), Chance(1));
    let (mut refused, mut sound) = (0, 0);
    for case in cases() {
        let snapshot = session_after(&case, case.lines.len()).snapshot();
        let in_use = bytes_in_use(&snapshot);
        for turn in 0..turns() {
            let mut bytes = snapshot.clone();
            for _ in 0..=turn % 3 {
                let anywhere = turn % 10 == 9;
                let at =
                    if anywhere { TASKS + chance.below(CHECKSUM - TASKS) } else { in_use[chance.below(in_use.len())] };
                bytes[at] ^= 1 << chance.below(8);
            }
            if try_wrong(&case, &summed_anew(bytes), &tries) {
                sound += 1;
            } else {
                refused += 1;
            }
        }
    }
    println!("{refused} wrong stores refused, {sound} are sound ones");
    assert!(refused > 0 && sound > 0);
}
