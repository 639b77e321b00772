//! Histories of logs: additions and packings cut after every store, from every log that cuts leave. Each answer
//! is held against document 02's sentences (W5, and W11 on floors) from outside: nothing here knows
//! in which order an addition makes its stores.
//!
//! One walk serves twice. It makes the questions, answered by this program; and over another
//! program's answers to them it checks that program, which has to have left the same logs.

use crate::ask::log_text;
use crate::log::{end, old_record, record};
use crate::make::dice::Dice;
use crate::make::{floors, line, list_text, logs, long, numbers};
use crate::plane::{Shape, point};
use crate::text::fields::bytes;
use std::collections::{BTreeMap, HashMap};

/// Answers a question, or says what is wrong.
pub type Ask<'a> = dyn FnMut(&str) -> Result<String, String> + 'a;

/// Logs of at most this many bytes are walked at every allowance.
const SHORT: usize = 80;

/// The bytes after a history, and what reading each name has to answer.
#[derive(Clone, PartialEq, Eq)]
struct State {
    log: Vec<u8>,
    readings: BTreeMap<u16, String>,
}

/// What is added: a name, a floor and the corners' numbers.
struct Addition {
    name: u16,
    floor: u16,
    list: Vec<i32>,
}

enum Reply {
    Finished(Vec<u8>),
    Cut(Vec<u8>),
    Refused(String),
}

/// The different states that an addition leaves at the allowances from 0 on, the first the one from
/// before, and the allowance that is enough: 0 for one that is refused and leaves nothing else.
struct Left {
    states: Vec<State>,
    enough: usize,
}

impl Left {
    fn finished(&self) -> Option<&State> {
        self.states.last().filter(|_| self.enough > 0)
    }
}

struct Walk<'a> {
    ask: &'a mut Ask<'a>,
    read: HashMap<(Vec<u8>, u16), String>,
}

/// Walks the given number of rounds of histories; an error is a sentence that does not hold.
pub fn walk<'a>(seed: u64, rounds: usize, ask: &'a mut Ask<'a>) -> Result<(), String> {
    let dice = &mut Dice::new(seed);
    for round in 0..rounds {
        let mut walk = Walk {
            ask,
            read: HashMap::new(),
        };
        walk.short(dice, round % (SHORT + 1))?;
        match round % 8 {
            0 | 4 => walk.deep(dice)?,
            2 => walk.long(dice)?,
            5 => walk.torn(dice, last_bytes)?,
            6 => walk.torn(dice, false_record)?,
            _ => walk.torn(dice, logs::any)?,
        }
        walk.packed(dice)?;
    }
    Ok(())
}

impl Walk<'_> {
    /// A log of this length, filled by additions at every allowance until one is refused.
    fn short(&mut self, dice: &mut Dice, length: usize) -> Result<(), String> {
        let names = names(dice);
        let mut state = begin(dice, length, &names);
        loop {
            let added = addition(dice, &names, logs::small_shape);
            let left = self.left_by(&state, &added)?;
            let Some(after) = left.finished() else {
                return Ok(());
            };
            for stores in left.enough..=2 * length {
                self.finishes(&state, &added, stores, after)?;
            }
            state = after.clone();
        }
    }

    /// A log with one shape added; two additions to it, the second from every log that the first
    /// leaves; and from some that this one leaves a third.
    fn deep(&mut self, dice: &mut Dice) -> Result<(), String> {
        let names = names(dice);
        let start = self.begun(dice, (50, SHORT), &names)?;
        let added = [(); 3].map(|()| addition(dice, &names, logs::small_shape));
        let mut second = Vec::new();
        for state in self.left_by(&start, &added[0])?.states {
            second.extend(self.left_by(&state, &added[1])?.states);
        }
        for _ in 0..8 {
            self.left_by(&second[dice.below(second.len())], &added[2])?;
        }
        Ok(())
    }

    /// A record with a length of two bytes, cut somewhere, and another addition then.
    fn long(&mut self, dice: &mut Dice) -> Result<(), String> {
        let names = names(dice);
        let start = self.begun(dice, (320, 360), &names)?;
        let many = |dice: &mut Dice| long::of_corners(dice, 33);
        let left = self.left_by(&start, &addition(dice, &names, many))?.states;
        let again = addition(dice, &names, logs::small_shape);
        self.left_by(&left[dice.below(left.len())], &again)
            .map(drop)
    }

    /// A log packed at every allowance into a run that may hold anything; then again from every run that a cut leaves.
    fn packed(&mut self, dice: &mut Dice) -> Result<(), String> {
        let mut old = logs::any(dice);
        old.truncate(SHORT);
        let but = dice.one_in(2).then(|| logs::name(dice));
        let length = old.len() + dice.below(4);
        let mut runs = vec![logs::any_run(dice, length)];
        for stores in 0..=length {
            let before = runs[runs.len() - 1].clone();
            match self.pack(&old, &runs[0], but, stores)? {
                Reply::Refused(_) => {
                    return holds(stores == 0, "refused at every allowance or at none");
                }
                Reply::Cut(run) => {
                    let most = usize::from(stores > 0);
                    holds(
                        changed(&before, &run)? == most,
                        "a cut packing makes every store",
                    )?;
                    runs.push(run);
                }
                Reply::Finished(run) => {
                    holds(
                        changed(&before, &run)? <= 1,
                        "one store more changes at most one byte",
                    )?;
                    return self.packed_again(&old, but, &runs, stores, &run);
                }
            }
        }
        Err("as many stores as the run has bytes are enough to finish".to_string())
    }

    /// Each run that a cut left is finished by the stores that are still needed, and by no fewer;
    /// and every name reads as it has to.
    fn packed_again(
        &mut self,
        old: &[u8],
        but: Option<u16>,
        runs: &[Vec<u8>],
        enough: usize,
        packed: &[u8],
    ) -> Result<(), String> {
        for (made, run) in runs[1..].iter().enumerate() {
            let left = enough - made;
            let reply = self.pack(old, run, but, left)?;
            let same = matches!(reply, Reply::Finished(run) if run == packed);
            holds(same, "a cut packing goes on where it was cut")?;
            let reply = self.pack(old, run, but, left - 1)?;
            holds(
                matches!(reply, Reply::Cut(_)),
                "and needs all of its stores",
            )?;
        }
        let reply = self.pack(old, packed, but, 0)?;
        let same = matches!(reply, Reply::Finished(run) if run == packed);
        holds(same, "a packed run needs no store")?;
        for name in logs::NAMES {
            let due = match but {
                Some(but) if but == name => "no 19".to_string(),
                _ => self.reading(old, name)?,
            };
            holds(
                self.reading(packed, name)? == due,
                "every other name reads as before",
            )?;
        }
        Ok(())
    }

    fn pack(
        &mut self,
        old: &[u8],
        new: &[u8],
        but: Option<u16>,
        stores: usize,
    ) -> Result<Reply, String> {
        let but = but.map_or(String::new(), |name| name.to_string());
        let fields = [log_text(old), log_text(new), but, stores.to_string()];
        let question = line("pack", &fields);
        reply((self.ask)(&question)?).ok_or(format!("{question}: no answer of a packing"))
    }

    /// A log that no history need have left.
    fn torn(&mut self, dice: &mut Dice, made: fn(&mut Dice) -> Vec<u8>) -> Result<(), String> {
        let mut log = made(dice);
        log.truncate(400);
        let mut readings = BTreeMap::new();
        let names = names(dice);
        for &name in &names {
            readings.insert(name, self.reading(&log, name)?);
        }
        let added = addition(dice, &names, logs::small_shape);
        self.left_by(&State { log, readings }, &added).map(drop)
    }

    /// A log of a length between two, with a point added.
    fn begun(
        &mut self,
        dice: &mut Dice,
        (least, most): (usize, usize),
        names: &[u16],
    ) -> Result<State, String> {
        let length = least + dice.below(most - least + 1);
        let start = begin(dice, length, names);
        let added = addition(dice, names, |_| vec![point(0x5A, -1)]);
        let left = self.left_by(&start, &added)?;
        Ok(left.finished().cloned().unwrap_or(start))
    }

    /// What an addition leaves at every allowance up to one that is enough. Each log is read.
    fn left_by(&mut self, before: &State, added: &Addition) -> Result<Left, String> {
        let twice = 2 * before.log.len();
        let mut states = vec![before.clone()];
        for stores in 0..=twice {
            let reply = self.add(before, added, stores)?;
            let state = match &reply {
                Reply::Refused(refusal) => {
                    holds(stores == 0, "refused at every allowance or at none")?;
                    self.stays_refused(before, added, refusal)?;
                    return Ok(Left { states, enough: 0 });
                }
                Reply::Cut(log) => State {
                    log: log.clone(),
                    readings: before.readings.clone(),
                },
                Reply::Finished(log) => finished(before, added, log)?,
            };
            let changed = changed(&states[states.len() - 1].log, &state.log)?;
            holds(
                stores > 0 || changed == 0,
                "none allowed, and the log stays",
            )?;
            holds(changed <= 1, "one store more changes at most one byte")?;
            self.check(&state)?;
            if states[states.len() - 1] != state {
                states.push(state);
            }
            if let Reply::Finished(_) = reply {
                for more in [stores + 1, twice, twice + 1] {
                    self.finishes(before, added, more, &states[states.len() - 1])?;
                }
                return Ok(Left {
                    states,
                    enough: stores,
                });
            }
        }
        Err("twice the bytes are enough to finish".to_string())
    }

    fn finishes(
        &mut self,
        before: &State,
        added: &Addition,
        stores: usize,
        after: &State,
    ) -> Result<(), String> {
        let reply = self.add(before, added, stores)?;
        let same = matches!(reply, Reply::Finished(log) if log == after.log);
        holds(same, "finished if more is allowed than is enough")
    }

    fn stays_refused(
        &mut self,
        before: &State,
        added: &Addition,
        refusal: &str,
    ) -> Result<(), String> {
        let reply = self.add(before, added, 2 * before.log.len())?;
        let same = matches!(reply, Reply::Refused(other) if other == refusal);
        holds(same, "refused alike at every allowance")
    }

    /// Each name reads as it has to.
    fn check(&mut self, state: &State) -> Result<(), String> {
        for (&name, due) in &state.readings {
            let found = self.reading(&state.log, name)?;
            let log = log_text(&state.log);
            let told = || format!("{log}: name {name} has to read {due} and reads {found}");
            if found != *due {
                return Err(told());
            }
        }
        Ok(())
    }

    fn add(&mut self, before: &State, added: &Addition, stores: usize) -> Result<Reply, String> {
        let list: Vec<i64> = added.list.iter().map(|&number| i64::from(number)).collect();
        let (log, name) = (log_text(&before.log), added.name.to_string());
        let shape = floors::before(added.floor, &list_text(&list));
        let fields = [log, name, shape, stores.to_string()];
        let question = line("bookadd", &fields);
        reply((self.ask)(&question)?).ok_or(format!("{question}: no answer of an addition"))
    }

    /// What reading a name answers; no name of a log is asked twice.
    fn reading(&mut self, log: &[u8], name: u16) -> Result<String, String> {
        let key = (log.to_vec(), name);
        if let Some(answer) = self.read.get(&key) {
            return Ok(answer.clone());
        }
        let answer = (self.ask)(&line("bookread", &[log_text(log), name.to_string()]))?;
        self.read.insert(key, answer.clone());
        Ok(answer)
    }
}

/// The state that a finished addition has to leave: the bytes before its record alone, all after
/// it 0, and its shape read back.
fn finished(before: &State, added: &Addition, log: &[u8]) -> Result<State, String> {
    let from = end(&before.log);
    let record = record(added.name, added.floor, &added.list);
    let to = from + record.len();
    holds(
        log.len() == before.log.len() && to <= log.len(),
        "the length stays",
    )?;
    holds(
        log[..from] == before.log[..from],
        "the bytes before the record stay",
    )?;
    holds(log[from..to] == record, "the record comes after the others")?;
    holds(
        log[to..].iter().all(|&byte| byte == 0),
        "all after the record is 0",
    )?;
    let mut readings = before.readings.clone();
    readings.insert(added.name, read_back(added.floor, &added.list));
    Ok(State {
        log: log.to_vec(),
        readings,
    })
}

/// What reading a name answers whose shape and floor these are.
fn read_back(floor: u16, list: &[i32]) -> String {
    let numbers: Vec<String> = list.iter().map(i32::to_string).collect();
    format!("ok {} @{floor} | {}", list.len() / 2, numbers.join(" "))
}

fn reply(answer: String) -> Option<Reply> {
    if let Some(log) = answer.strip_prefix("ok finished | ") {
        return bytes(log.as_bytes()).map(Reply::Finished);
    }
    if let Some(log) = answer.strip_prefix("ok cut | ") {
        return bytes(log.as_bytes()).map(Reply::Cut);
    }
    answer.starts_with("no ").then_some(Reply::Refused(answer))
}

fn holds(holds: bool, sentence: &str) -> Result<(), String> {
    holds.then_some(()).ok_or(sentence.to_string())
}

/// In how many bytes two logs differ.
fn changed(a: &[u8], b: &[u8]) -> Result<usize, String> {
    holds(a.len() == b.len(), "the length stays")?;
    Ok(a.iter().zip(b).filter(|(a, b)| a != b).count())
}

/// "all zero when new": no record holds any name.
fn new(length: usize, names: &[u16]) -> State {
    State {
        log: vec![0; length],
        readings: names
            .iter()
            .map(|&name| (name, "no 19".to_string()))
            .collect(),
    }
}

/// A new log, or one that holds a record from before there were floors, of a name that may be added.
fn begin(dice: &mut Dice, length: usize, names: &[u16]) -> State {
    let mut state = new(length, names);
    let old = addition(dice, names, logs::small_shape);
    let record = old_record(old.name, &old.list);
    if dice.one_in(2) && record.len() <= length {
        state.log[..record.len()].copy_from_slice(&record);
        state.readings.insert(old.name, read_back(0, &old.list));
    }
    state
}

/// Three names, of which the last is never added.
fn names(dice: &mut Dice) -> Vec<u16> {
    dice.draw(&logs::NAMES, 3)
}

fn addition(dice: &mut Dice, names: &[u16], made: impl Fn(&mut Dice) -> Shape) -> Addition {
    let list = numbers(&made(dice));
    Addition {
        name: names[dice.below(2)],
        floor: floors::any(dice),
        list: list.into_iter().map(|number| number as i32).collect(),
    }
}

/// A point, and a torn end with a length of two bytes that would be a whole record if the first of
/// them were 0.
fn false_record(dice: &mut Dice) -> Vec<u8> {
    let count = 258 + dice.below(60);
    let mut torn = logs::noise(dice, count);
    let low = dice.between(1, 255) as usize;
    (torn[0], torn[1], torn[257]) = (low as u8, 1, 0x5A);
    if let Some(last) = torn.get_mut(257 + low) {
        *last = 0;
    }
    [old_record(logs::name(dice), &[0x5A, -1]), torn].concat()
}

/// A point, and a torn end of last bytes alone: wherever the next record ends, its last byte is
/// there already. Its length goes past the end.
fn last_bytes(dice: &mut Dice) -> Vec<u8> {
    let torn = vec![0x5A; 60 + dice.below(20)];
    [old_record(logs::name(dice), &[0x5A, -1]), torn].concat()
}

#[cfg(test)]
mod tests;
