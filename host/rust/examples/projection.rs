//! A member's projection: salary, accrual rate and annuity factor are gathered, each in its own place, although the
//! services answer last call first. Prints the member's statement.
//!
//!     cargo run --example projection [TRACE.bin]
mod common;

use common::{capital, factor, money, pension, plain, rate, run, write_trace, Desk, End, Function, Input, Turn};
use sozgarru::{CallId, Outcome, Refusal, Shown, Value};

/// What is gathered, in the script's order; the function that fills a place has the place's number.
const PLACES: [&str; 3] = ["salary", "accrual rate", "annuity factor"];

/// A function of the script asks a service and returns what it answers.
fn function(number: u32) -> Function {
    let what = usize::try_from(number).map(|place| PLACES[place]).expect("a function of the script");
    Box::new(move |desk, input| match input {
        Input::Start => Ok(Turn::Await(desk.ask(what)?)),
        Input::Value(value) => Ok(Turn::Return(value)),
        Input::Raised(_) => Ok(Turn::Raise(number)),
    })
}

/// The script: gathers the three values and returns the capital value of the pension.
fn main_function() -> Function {
    Box::new(|desk, input| match input {
        Input::Start => {
            let s = &mut desk.session;
            let items = [s.coroutine(0)?, s.coroutine(1)?, s.coroutine(2)?];
            Ok(Turn::Await(s.gather(&items)?))
        }
        Input::Value(list) => {
            let [salary, basis_points, thousandths] = places(desk, list)?;
            let pension = pension(salary, basis_points);
            println!("Statement of member 4711");
            println!("  place 0  salary a year        {:>12}", money(salary));
            println!("  place 1  accrual rate         {:>12}", rate(basis_points));
            println!("  place 2  annuity factor       {:>12}", factor(thousandths));
            println!("  pension earned in a year      {:>12}", money(pension));
            println!("  its capital value             {:>12}", money(capital(pension, thousandths)));
            Ok(Turn::Return(Value::Plain(capital(pension, thousandths))))
        }
        Input::Raised(_) => Ok(Turn::Raise(1)),
    })
}

/// The values of the gathered list, each in its own place, whatever the order of the answers was.
fn places(desk: &Desk, list: Value) -> Result<[u64; 3], Refusal> {
    let Value::List(gather) = list else { panic!("a gather's value is its list") };
    let Shown::GatherCompleted(values) = desk.session.show(gather)? else { panic!("it is completed") };
    let numbers: Vec<u64> = values.into_iter().map(plain).collect();
    Ok(numbers.try_into().expect("three places"))
}

/// The services: the last call is answered first.
fn reply(desk: &mut Desk) -> Vec<(CallId, Outcome)> {
    let Some((call, what)) = desk.asked.pop() else { return Vec::new() };
    println!("call {call} is answered: {what}");
    let number = match what {
        "salary" => 5_200_000,      // cents a year
        "accrual rate" => 175,      // basis points of the salary
        "annuity factor" => 18_450, // thousandths
        _ => return vec![(call, Outcome::NotFound)],
    };
    vec![(call, Outcome::Return(Value::Plain(number)))]
}

fn main() -> Result<(), Refusal> {
    let mut desk = Desk::new();
    match run(&mut desk, main_function(), function, reply)? {
        End::Finished(Ok(value)) => println!("the session finished with {value}"),
        end => println!("no projection: {end:?}"),
    }
    write_trace(&desk.session);
    Ok(())
}
