//! A rate that comes late, comes twice, and a reply to a call that nobody made: nothing that comes too late changes a
//! place that is filled.
//!
//!     cargo run --example late_replies
mod common;

use common::{money, plain, rate, run, Desk, End, Function, Input, Turn};
use sozgarru::{CallId, Outcome, Refusal, Shown, Value};

const CONTRIBUTIONS: u32 = 5;

/// The contributions of a year are computed without asking anybody: 3,120.00, in cents.
fn function(_number: u32) -> Function {
    Box::new(|_, _| Ok(Turn::Return(Value::Plain(312_000))))
}

/// The script: contributions beside the rate; it returns the list of both.
fn main_function() -> Function {
    Box::new(|desk, input| match input {
        Input::Start => {
            let items = [desk.session.coroutine(CONTRIBUTIONS)?, desk.ask("interest rate")?];
            Ok(Turn::Await(desk.session.gather(&items)?))
        }
        Input::Value(list) => Ok(Turn::Return(list)),
        Input::Raised(_) => Ok(Turn::Raise(1)),
    })
}

/// What the rates service sends, batch by batch. Basis points: 180 are 1.80 %.
fn batches(call: CallId) -> Vec<(&'static str, Vec<(CallId, Outcome)>)> {
    let unknown = CallId::new(7);
    let sent = |basis_points| Outcome::Return(Value::Plain(basis_points));
    vec![
        ("a reply to call 7, which nobody made", vec![(unknown, sent(1))]),
        ("call 0 is still to come", vec![(call, Outcome::StillFuture)]),
        ("call 0 at last, 1.80 %, and again, 9.99 %", vec![(call, sent(180)), (call, sent(999))]),
    ]
}

fn main() -> Result<(), Refusal> {
    let mut desk = Desk::new();
    let mut batches = batches(CallId::new(0)).into_iter();
    let reply = |_: &mut Desk| match batches.next() {
        Some((what, batch)) => {
            println!("the service sends: {what}");
            batch
        }
        None => Vec::new(),
    };
    let end = run(&mut desk, main_function(), function, reply)?;
    let End::Finished(Ok(Value::List(gather))) = end else { panic!("main returns the list: {end:?}") };
    let Shown::GatherCompleted(values) = desk.session.show(gather)? else { panic!("it is completed") };
    println!("contributions of the year  {:>10}", money(plain(values[0])));
    println!("interest rate              {:>10}", rate(plain(values[1])));

    let late = desk.session.result(CallId::new(0), Outcome::Return(Value::Plain(999)));
    println!("a reply after the end: {}", late.expect_err("the session has ended"));
    Ok(())
}
