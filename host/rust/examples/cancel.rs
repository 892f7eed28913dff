//! A branch hangs: another office does not answer. The lines say which call is missing and which place is open; the
//! operator cancels the branch and takes the values that are there.
//!
//!     cargo run --example cancel [TRACE.bin]
mod common;

use common::{money, plain, run, write_trace, Desk, End, Function, Input, Turn};
use sozgarru::{CallId, HeapId, Outcome, Refusal, Resumed, Shown, TaskId, Value};

const OWN_PENSION: u32 = 1;
const STATE_PENSION: u32 = 2;
const PLACES: [&str; 2] = ["own pension", "state pension"];

/// The own pension is computed here; the state pension is asked of another office. Cents a month.
fn function(number: u32) -> Function {
    match number {
        OWN_PENSION => Box::new(|_, _| Ok(Turn::Return(Value::Plain(91_000)))),
        _ => Box::new(|desk, input| match input {
            Input::Start => Ok(Turn::Await(desk.ask("state pension")?)),
            Input::Value(value) => Ok(Turn::Return(value)),
            Input::Raised(_) => Ok(Turn::Raise(17)),
        }),
    }
}

fn main_function() -> Function {
    Box::new(|desk, input| match input {
        Input::Start => {
            let items = [desk.session.coroutine(OWN_PENSION)?, desk.session.coroutine(STATE_PENSION)?];
            Ok(Turn::Await(desk.session.gather(&items)?))
        }
        Input::Value(list) => Ok(Turn::Return(list)),
        Input::Raised(_) => Ok(Turn::Raise(1)),
    })
}

/// What is there of the gather, place by place.
fn print_places(desk: &Desk, gather: HeapId) -> Result<(), Refusal> {
    let Shown::GatherAwaited(places) = desk.session.show(gather)? else { panic!("it is awaited") };
    for (what, place) in PLACES.iter().zip(places) {
        let text = place.map_or("open".to_string(), |value| money(plain(value)));
        println!("  {what:<15}{text:>10}");
    }
    Ok(())
}

fn main() -> Result<(), Refusal> {
    let mut desk = Desk::new();
    let gather = HeapId::new(2); // the third object that the script makes
    let End::Waiting(calls) = run(&mut desk, main_function(), function, |_| Vec::new())? else { panic!("it hangs") };
    for call in &calls {
        println!("the session waits for call {call}: {}", desk.asked_for(*call));
    }
    print_places(&desk, gather)?;

    // the tasks are numbered as the gather's items: own pension 1, state pension 2
    let hung = TaskId::new(2);
    println!("the operator may not cancel main: {}", desk.session.cancel(TaskId::MAIN).expect_err("main stays"));
    let queued = desk.session.cancel(hung)?;
    println!("the operator cancels task {hung}; tasks taken out of the ready queue: {queued}");
    println!("cancelled already: {}", desk.session.cancel(hung).expect_err("it is gone"));

    // the office answers after all: nobody waits for it, and the gather stays open
    desk.session.result(CallId::new(0), Outcome::Return(Value::Plain(124_000)))?;
    assert_eq!(desk.session.resume()?, Resumed::Stalled);
    println!("nothing is left to run; the statement has what is there:");
    print_places(&desk, gather)?;
    write_trace(&desk.session);
    Ok(())
}
