//! `cocklesway passes`: may a cart pass straight between two obstacles?
use super::ask::JSON;
use super::chosen::{CART, answered, argument, cart, one_map, say};
use crate::answer::{Answer, ask};
use crate::command::{Command, Console, Status, Trouble};
use crate::floor::gaps::{blocked, room};
use crate::given::Trio;
use crate::object;
use crate::options::{Arguments, Misuse};
use crate::question::Question;
use crate::refusal::reason;
use crate::sentence::sentence;

/// How it is called, and what it does.
pub const COMMAND: Command = Command {
    name: "passes",
    takes: "MAP A B",
    does: "says whether a cart can pass straight between two obstacles, how wide, and in which direction",
    options: &[CART, JSON],
    page: "\
The answer is the library's `passage`: blocked, or the free width for the cart in the direction with
most room, and the two lines between which its origin stays. How wide the gap is and what the cart
needs across it is said after it; that sum and its rounding are of this program. The cart drives
straight and does not turn.

    cocklesway passes map.txt linen-store wall --cart cart
",
    run,
};

fn run(arguments: &Arguments, console: &mut Console<'_>) -> Result<Status, Trouble> {
    let json = arguments.has(JSON.name);
    let (session, names) = one_map(arguments, console)?;
    let map = session.map();
    let [left, right] = names else {
        let words = "two obstacles are needed after the map: MAP A B";
        return Err(Misuse::Other(words.to_string()).into());
    };
    let trio = Trio {
        left: argument(left, map)?,
        right: argument(right, map)?,
        cart: cart(arguments, map)?,
    };
    let answer = answered(console, json, ask(Question::Passage(trio)), reason)?;
    say(console, json, &said(&answer), || object::answered(&answer))?;
    Ok(Status::Fine)
}

/// The answer, and how wide the gap is.
fn said(answer: &Answer) -> String {
    let Answer::Passage(Trio { left, right, cart }, found) = answer else {
        return sentence(answer);
    };
    match found.way {
        None => blocked(cart, left, right),
        Some(_) => format!("{}; {}", sentence(answer), room(cart, left, right)),
    }
}
