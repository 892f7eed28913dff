//! Eight members at once, each a session on a thread of its own: a session is plain memory, and the library has no
//! state that they share.
//!
//!     cargo run --example eight_members
mod common;

use common::{capital, money, pension, plain, run, Desk, End, Function, Input, Turn};
use sozgarru::{CallId, Outcome, Refusal, Shown, Value};
use std::thread;

const MEMBERS: u64 = 8;

/// The script: three calls, gathered by place; it returns the capital value.
fn main_function() -> Function {
    Box::new(|desk, input| match input {
        Input::Start => {
            let items = [desk.ask("salary")?, desk.ask("accrual rate")?, desk.ask("annuity factor")?];
            Ok(Turn::Await(desk.session.gather(&items)?))
        }
        Input::Value(Value::List(gather)) => {
            let Shown::GatherCompleted(values) = desk.session.show(gather)? else { panic!("it is completed") };
            let value = capital(pension(plain(values[0]), plain(values[1])), plain(values[2]));
            Ok(Turn::Return(Value::Plain(value)))
        }
        Input::Value(_) | Input::Raised(_) => Ok(Turn::Raise(1)),
    })
}

/// What the services know of a member: cents, basis points, thousandths.
fn known(member: u64, what: &str) -> u64 {
    match what {
        "salary" => 4_000_000 + 250_000 * member,
        "accrual rate" => 175,
        _ => 18_450 - 150 * member,
    }
}

/// One answer at a time; which of the calls comes next differs from member to member.
fn reply(member: u64, desk: &mut Desk) -> Vec<(CallId, Outcome)> {
    let left = desk.asked.len();
    if left == 0 {
        return Vec::new();
    }
    let next = usize::try_from(member).map_or(0, |member| member % left);
    let (call, what) = desk.asked.remove(next);
    vec![(call, Outcome::Return(Value::Plain(known(member, what))))]
}

fn project(member: u64) -> Result<u64, Refusal> {
    let no_coroutines = |number| panic!("the script has no function {number}");
    match run(&mut Desk::new(), main_function(), no_coroutines, |desk| reply(member, desk))? {
        End::Finished(Ok(value)) => Ok(plain(value)),
        end => panic!("member {member}: {end:?}"),
    }
}

fn main() -> Result<(), Refusal> {
    let threads: Vec<_> = (1..=MEMBERS).map(|member| (member, thread::spawn(move || project(member)))).collect();
    for (member, thread) in threads {
        let value = thread.join().expect("a projection does not panic")?;
        println!("member {member}: capital value {:>12}", money(value));
    }
    Ok(())
}
