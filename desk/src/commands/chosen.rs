//! What the arguments of a command choose: a map, a floor, shapes, places and limits.
use super::ask::status_of;
use crate::answer::Refused;
use crate::command::{Console, Status, Trouble};
use crate::floor::{Floor, floors};
use crate::given::Given;
use crate::json::Json;
use crate::map::{Entry, Map};
use crate::name::Name;
use crate::object;
use crate::options::{Arguments, Known, Misuse};
use crate::report::sentence;
use crate::session::Session;
use std::ffi::{OsStr, OsString};

/// The option for a floor.
pub const FLOOR: Known = Known {
    name: "--floor",
    value: Some("N"),
    does: "the floor; needed if the map has several",
    many: false,
};

/// The option for a cart.
pub const CART: Known = Known {
    name: "--cart",
    value: Some("CART"),
    does: "the cart's outline, by its name in the map",
    many: false,
};

/// The option for a place.
pub const AT: Known = Known {
    name: "--at",
    value: Some("X,Y"),
    does: "a place, in whole millimetres",
    many: false,
};

/// The option for a limit.
pub const BELOW: Known = Known {
    name: "--below",
    value: Some("MM"),
    does: "the limit, in whole millimetres",
    many: false,
};

/// Reads a map of which every line can be used. All lines that cannot be used are said, and then nothing is answered:
/// a map that lacks a shape promises too much. It also returns which shapes took the place of others.
///
/// # Errors
/// A file or a line cannot be used.
pub fn whole_map(
    files: &[OsString],
    console: &mut Console<'_>,
    or_else: &str,
) -> Result<(Session, Vec<String>), Trouble> {
    let mut session = Session::of_definitions();
    let mut status = Status::Fine;
    let mut replaced = Vec::new();
    for source in console.sources(files)? {
        session.read(&source, |event| {
            let said = format!("{}: {}", event.place, sentence(&event));
            status = status.max(status_of(&event));
            match status_of(&event) {
                Status::Fine if event.replaces() => replaced.push(said),
                Status::Fine => {}
                _ => console.complain(&said)?,
            }
            Ok::<(), Trouble>(())
        })?;
    }
    match status {
        Status::Fine => Ok((session, replaced)),
        status => {
            console.complain(&format!("{or_else}, since the map is not whole"))?;
            Err(Trouble::Said(status))
        }
    }
}

/// Reads the one map of a command whose other arguments are no files, and returns these.
///
/// # Errors
/// No file is given, or the map cannot be used.
pub fn one_map<'a>(
    arguments: &'a Arguments,
    console: &mut Console<'_>,
) -> Result<(Session, &'a [OsString]), Trouble> {
    let Some((file, rest)) = arguments.files.split_first() else {
        return Err(Misuse::NoFile.into());
    };
    let (session, _) = whole_map(std::slice::from_ref(file), console, NOTHING)?;
    Ok((session, rest))
}

/// What is said if a map is not whole.
pub const NOTHING: &str = "nothing is answered";

/// Returns the floor that is named, or the only one.
///
/// # Errors
/// The value is no floor, or the map has not exactly one.
pub fn number(arguments: &Arguments, map: &Map) -> Result<u16, Misuse> {
    if let Some(value) = arguments.value(FLOOR.name) {
        let text = value.to_string_lossy();
        let wanted = "a floor from 0 to 65535";
        return text
            .parse()
            .map_err(|_| Misuse::BadValue(FLOOR.name, text.to_string(), wanted));
    }
    match floors(map).as_slice() {
        [] => Err(Misuse::Other("the map has no shape on a floor".to_string())),
        [floor] => Ok(*floor),
        several => {
            let several: Vec<String> = several.iter().map(u16::to_string).collect();
            let several = several.join(", ");
            Err(Misuse::Other(format!(
                "the map has the floors {several}: choose one with {}",
                FLOOR.name
            )))
        }
    }
}

/// Returns the shape of a name that is the value of an option.
///
/// # Errors
/// No shape has the name.
pub fn named(option: &'static str, value: &OsStr, map: &Map) -> Result<Given, Misuse> {
    shape_of(value, map).ok_or_else(|| {
        let text = value.to_string_lossy();
        let wanted = "the name of a shape of the map";
        let wrong = Misuse::BadValue(option, text.to_string(), wanted);
        Misuse::Other(format!("{wrong}{}", meant(&text, map)))
    })
}

/// Returns the shape of a name that is an argument by itself.
///
/// # Errors
/// No shape has the name.
pub fn argument(value: &OsStr, map: &Map) -> Result<Given, Misuse> {
    shape_of(value, map).ok_or_else(|| {
        let text = value.to_string_lossy();
        let quoted = crate::escape::quoted(&text);
        let meant = meant(&text, map);
        Misuse::Other(format!("no shape of the map is called {quoted}{meant}"))
    })
}

fn shape_of(value: &OsStr, map: &Map) -> Option<Given> {
    let item = Name::read(value.to_str()?)
        .ok()
        .and_then(|name| map.get(&name));
    match &item?.entry {
        Entry::Shape { shape, .. } => Some(shape.clone()),
        Entry::Removed => None,
    }
}

fn meant(text: &str, map: &Map) -> String {
    let like = map.like(text);
    like.map_or(String::new(), |like| format!(" (did you mean `{like}`?)"))
}

/// Returns the cart that is named.
///
/// # Errors
/// None is named, or no shape has the name.
pub fn cart(arguments: &Arguments, map: &Map) -> Result<Given, Misuse> {
    let value = arguments.value(CART.name);
    let missing = || Misuse::Other(format!("a cart is needed: {} CART", CART.name));
    named(CART.name, value.ok_or_else(missing)?, map)
}

/// Returns a place: two numbers with a comma between them.
///
/// # Errors
/// It is none.
pub fn place(option: &'static str, value: &OsStr) -> Result<[i32; 2], Misuse> {
    let what = "two whole numbers of millimetres with a comma between them";
    let text = value.to_string_lossy();
    let place = text.split_once(',').and_then(|(x, y)| {
        let number = |part: &str| part.trim().parse().ok();
        Some([number(x)?, number(y)?])
    });
    place.ok_or_else(|| Misuse::BadValue(option, text.to_string(), what))
}

/// Returns the limit, if one is given.
///
/// # Errors
/// It is no whole number.
pub fn limit(arguments: &Arguments) -> Result<Option<u64>, Misuse> {
    let Some(value) = arguments.value(BELOW.name) else {
        return Ok(None);
    };
    let text = value.to_string_lossy();
    let wanted = "a whole number of millimetres";
    let wrong = |_| Misuse::BadValue(BELOW.name, text.to_string(), wanted);
    text.parse().map(Some).map_err(wrong)
}

/// Returns what was answered; what was refused is written to standard output and ends the command.
///
/// # Errors
/// It was refused, or standard output cannot be written.
pub fn answered<T>(
    console: &mut Console<'_>,
    json: bool,
    answer: Result<T, Refused>,
    reason: impl Fn(&Refused) -> String,
) -> Result<T, Trouble> {
    let refused = match answer {
        Ok(answer) => return Ok(answer),
        Err(refused) => refused,
    };
    let (number, reason) = (refused.refusal.number(), reason(&refused));
    let sentence = format!("refused ({number}): {reason}");
    say(console, json, &sentence, || {
        vec![("refused", object::refusal(refused.refusal, reason.clone()))]
    })?;
    Err(Trouble::Said(Status::Refused))
}

/// Puts the obstacles of the floor that is chosen into a book.
///
/// # Errors
/// The floor cannot be chosen, or it has too many shapes.
pub fn floor(
    arguments: &Arguments,
    console: &mut Console<'_>,
    map: &Map,
    cart: Option<&Given>,
) -> Result<Floor, Trouble> {
    let number = number(arguments, map)?;
    let json = arguments.has(super::ask::JSON.name);
    answered(console, json, Floor::of(map, number, cart), |_| {
        format!("floor {number} has more shapes than a book has names")
    })
}

/// Writes an answer: its sentence, or one object with the sentence last.
///
/// # Errors
/// It cannot be written.
pub fn say(
    console: &mut Console<'_>,
    json: bool,
    sentence: &str,
    members: impl FnOnce() -> Vec<(&'static str, Json)>,
) -> Result<(), Trouble> {
    if !json {
        return console.say(sentence);
    }
    let mut members = members();
    members.push(("sentence", sentence.into()));
    console.say(&Json::Object(members).text())
}
