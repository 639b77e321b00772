//! The numbers of answers over the shapes of a log, and of a drive, derived from the answers of `second`.
use crate::answers::{described, floor, number, numbers_after_bar};
use crate::case::{Case, List};
use crate::near::{Near, places};
use crate::said::{needs, never, rounded_part};
use second::answer::answer;

pub fn entry(case: &Case, words: &[&str], answer: &str) -> Vec<i128> {
    let [count, name] = [0, 1].map(|at| number(words[at]));
    let shape = described(count, floor(words), answer);
    [case.numbers_of_field(1), vec![name], shape].concat()
}

pub fn nearest(case: &Case, words: &[&str], said: &str) -> Result<Vec<i128>, String> {
    let name = number(words[0]);
    let but = case.numbers_of_field(2);
    let subject = [vec![name], case.label(0), vec![floor(words)], but].concat();
    if words[1] == "0" {
        needs(said, " is the first that meets ")?;
        return Ok(subject);
    }
    needs(said, " is nearest to ")?;
    let list = latest(&case.fields[0], name);
    let near = [Near::given(case, 0), Near::recorded(&list, name)];
    Ok([subject, places(&words[1..], &near, said)?].concat())
}

pub fn gap(case: &Case, words: &[&str], said: &str) -> Result<Vec<i128>, String> {
    let names = [0, 1].map(|at| number(words[at]));
    let subject = [names.to_vec(), vec![floor(words)], case.label(0)].concat();
    if words[2] == "0" {
        needs(said, " have no gap ")?;
        return Ok(subject);
    }
    needs(said, " have the narrowest gap ")?;
    let near = names.map(|name| {
        let list = latest(&case.fields[0], name);
        let grown = grown(&list, &case.fields[1]);
        Near::recorded(&list_of(&grown), name)
    });
    Ok([subject, places(&words[2..], &near, said)?].concat())
}

pub fn contact(case: &Case, words: &[&str], said: &str) -> Result<Vec<i128>, String> {
    let labels = [case.label(1), case.label(0)].concat();
    Ok([labels, way(case, words, said)?].concat())
}

pub fn drive(case: &Case, words: &[&str], said: &str) -> Result<Vec<i128>, String> {
    let subject = [case.label(0), vec![floor(words)]].concat();
    if words[0] == "never" {
        return Ok([subject, way(case, words, said)?].concat());
    }
    needs(said, " is the first that ")?;
    let name = vec![number(words[0])];
    Ok([name, subject, way(case, &words[1..], said)?].concat())
}

/// The numbers of where on its way a cart meets something: the places are the third and the fourth field.
fn way(case: &Case, words: &[&str], said: &str) -> Result<Vec<i128>, String> {
    let [from, to] = [2, 3].map(|at| case.numbers_of_field(at));
    let way = [from.clone(), to.clone()].concat();
    if words[0] == "never" {
        needs(said, " is clear of ")?;
        return Ok(way);
    }
    let [n, d, safe] = [0, 1, 2].map(|at| number(words[at]));
    if n == 0 {
        needs(said, " where it begins ")?;
        never(said, "rounded down")?;
        return Ok(way);
    }
    needs(said, " after ")?;
    let squared = from.iter().zip(&to).map(|(a, b)| (a - b) * (a - b)).sum();
    rounded_part(said, [n, d], squared, safe)?;
    Ok([vec![safe, n, d], way].concat())
}

/// The latest shape of a name in a log.
fn latest(log: &str, name: i128) -> List {
    list_of(&answer(format!("bookread | {log} | {name}").as_bytes()))
}

/// The answer to growing a list by a cart.
fn grown(list: &List, cart: &str) -> String {
    let numbers: Vec<String> = list.numbers.iter().map(i64::to_string).collect();
    let obstacle = format!("@{} {}", list.floor, numbers.join(" "));
    answer(format!("grow | {obstacle} | {cart}").as_bytes())
}

/// The list of an answer that has a shape.
fn list_of(answer: &str) -> List {
    let words: Vec<&str> = answer.split(' ').collect();
    let numbers = numbers_after_bar(answer);
    List {
        floor: floor(&words),
        numbers: numbers.iter().map(|&number| number as i64).collect(),
    }
}

/// Returns the first record on the cart's floor that is too large or too far when it is grown, and its shape.
pub fn refused_when_grown(case: &Case) -> (i128, List) {
    let [log, cart] = [0, 1].map(|at| &case.fields[at]);
    let entries = (0..).map(|at| answer(format!("entry | {log} | {at}").as_bytes()));
    let held = entries.take_while(|entry| entry.starts_with("ok "));
    let lists = held.map(|entry| {
        let name = entry.split(' ').nth(2).map(number).expect("a name");
        (name, list_of(&entry))
    });
    let is_refused = |(_, list): &(i128, List)| {
        let grown = grown(list, cart);
        ["no 6", "no 7"].contains(&grown.as_str())
    };
    lists.into_iter().find(is_refused).expect("a refused one")
}
