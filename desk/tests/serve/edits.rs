//! Shapes edited: judged, compared with before, and saved.
use crate::server::{MAP, Running, corners, list, member, number, start, text, yes};
use desk::formats::value::Value;
use desk::name::Name;
use desk::serve::plan::{Plan, World};
use desk::serve::text::Change;
use desk::source::Source;
use second::make::dice::Dice;

fn judged(server: &Running, name: &str, list: &str) -> Value {
    server.asked(
        "judge",
        &format!("{{\"name\":\"{name}\",\"floor\":2,\"corners\":{list}}}"),
    )
}

#[test]
fn a_shape_is_judged() {
    let server = start(MAP);
    let answer = judged(
        &server,
        "bed",
        "[[6000,3200],[8000,3200],[8000,4700],[6000,4100]]",
    );
    assert_eq!(member(&answer, "accepted"), &yes(true));
    assert_eq!(
        text(member(&answer, "judge"), "sentence"),
        "bed is a shape of 4 corners on floor 2"
    );
    let grows = text(member(&answer, "grows"), "sentence");
    assert!(
        grows.starts_with("bed reaches at most 600 mm beyond old-bed, rounded up"),
        "{grows}"
    );
    assert!(text(member(&answer, "shrinks"), "sentence").starts_with("old-bed is inside bed"));
    assert!(
        text(member(&answer, "before"), "sentence").starts_with("bed and wall are 900 mm apart")
    );
    assert!(
        text(member(&answer, "after"), "sentence").starts_with("bed and wall are 300 mm apart")
    );
    assert_eq!(member(&answer, "same"), &number(2));
}

#[test]
fn a_list_that_is_no_shape_is_refused_in_words() {
    let server = start(MAP);
    for (list, words) in [
        (
            "[[6000,3200],[8000,3200],[7000,3300],[8000,4100]]",
            "refused (4): bed is no convex ring: after (8000, 3200) it turns in or back at (7000, 3300)",
        ),
        ("[]", "refused (1): bed has no corner"),
        (
            "[[1000001,0]]",
            "refused (3): the corner (1000001, 0) of bed is out of range",
        ),
    ] {
        let answer = judged(&server, "bed", list);
        assert_eq!(member(&answer, "accepted"), &yes(false));
        let said = text(member(&answer, "judge"), "sentence");
        assert!(said.contains(words), "{said}");
    }
    let answer = judged(
        &server,
        "bed",
        "[[6000,3200],[8000,3200],[7000,3300],[8000,4100]]",
    );
    let refused = member(member(&answer, "judge"), "refused");
    assert_eq!(member(refused, "number"), &number(4));
    assert_eq!(member(refused, "before"), &number(1));
    assert_eq!(member(refused, "corner"), &number(2));
}

#[test]
fn a_list_may_be_any_ring() {
    let server = start(MAP);
    let bed = corners(&[[6000, 3200], [8000, 3200], [8000, 4100], [6000, 4100]]);
    for (list, turned, dropped) in [
        (
            "[[6000,3200],[8000,3200],[8000,4100],[6000,4100]]",
            false,
            0,
        ),
        // Begun at another corner, clockwise, closed, with a corner in line, with one twice.
        ("[[8000,4100],[6000,4100],[6000,3200],[8000,3200]]", true, 0),
        ("[[6000,3200],[6000,4100],[8000,4100],[8000,3200]]", true, 0),
        (
            "[[6000,3200],[8000,3200],[8000,4100],[6000,4100],[6000,3200]]",
            true,
            1,
        ),
        (
            "[[6000,3200],[7000,3200],[8000,3200],[8000,4100],[6000,4100]]",
            true,
            1,
        ),
        (
            "[[6000,3200],[8000,3200],[8000,3200],[8000,4100],[6000,4100]]",
            true,
            1,
        ),
    ] {
        let answer = judged(&server, "bed", list);
        assert_eq!(member(&answer, "accepted"), &yes(true), "{list}");
        assert_eq!(member(&answer, "turned"), &yes(turned), "{list}");
        assert_eq!(member(&answer, "dropped"), &number(dropped), "{list}");
        assert_eq!(member(&answer, "corners"), &bed, "{list}");
    }
    let answer = judged(&server, "bed", "[[6000,3200],[6000,3200]]");
    assert_eq!(member(&answer, "corners"), &corners(&[[6000, 3200]]));
}

#[test]
fn answers_of_the_file_that_change_are_told() {
    let server = start(MAP);
    let answer = judged(
        &server,
        "linen-store",
        "[[3000,1000],[4200,1000],[4200,2000],[3000,2000]]",
    );
    let changed = list(member(&answer, "answers"));
    assert_eq!(changed.len(), 2);
    assert!(text(member(&changed[0], "before"), "sentence").contains("3.2 m apart"));
    assert!(text(member(&changed[0], "after"), "sentence").contains("3 m apart"));
    assert_eq!(member(&answer, "same"), &number(0));
}

#[test]
fn changes_hold_for_every_question() {
    let server = start(MAP);
    let change = "\"changes\":[{\"name\":\"bed\",\"floor\":2,\
                  \"corners\":[[6000,3200],[8000,3200],[8000,4700],[6000,4100]]}]";
    let answer = server.asked(
        "pair",
        &format!("{{\"a\":\"bed\",\"b\":\"wall\",{change}}}"),
    );
    assert_eq!(
        member(member(&answer, "clearance"), "rounded"),
        &number(300)
    );
    let answer = server.asked("pair", "{\"a\":\"bed\",\"b\":\"wall\"}");
    assert_eq!(
        member(member(&answer, "clearance"), "rounded"),
        &number(900)
    );
    // A shape that is taken off, and one that is new.
    let taken = "{\"changes\":[{\"name\":\"bed\",\"floor\":2,\"corners\":[]},\
                 {\"name\":\"desk\",\"floor\":2,\"corners\":[[1,1]]}]}";
    let map = server.asked("map", taken);
    let shapes = list(member(&list(member(&map, "floors"))[0], "shapes"));
    let names: Vec<&str> = shapes.iter().map(|shape| text(shape, "name")).collect();
    assert_eq!(names, ["wall", "linen-store", "desk"]);
}

#[test]
fn a_file_is_saved_with_its_comments() {
    let server = start(MAP);
    let saved = server.post("save", "{}");
    assert_eq!((saved.code, saved.body.as_str()), (200, MAP));
    assert!(
        saved
            .head
            .contains("Content-Type: text/plain; charset=utf-8")
    );
    let body = "{\"changes\":[{\"name\":\"linen-store\",\"floor\":2,\"corners\":[[3000,1000],[4200,1000],[3000,1900]]},\
                {\"name\":\"desk\",\"floor\":3,\"corners\":[[5,5],[9,5]]},\
                {\"name\":\"post\",\"floor\":3,\"corners\":[]}]}";
    let expected = MAP
        .replace(
            "shape | linen-store | @2 3000 1000 4200 1000\n\
             \x20     +                  4200 1800 3000 1800    # the side of the door\n",
            "shape | linen-store | @2 3000 1000 4200 1000 3000 1900\n# the side of the door\n",
        )
        .replace("shape | post        | @3 0 0\n", "");
    let saved = server.post("save", body);
    assert_eq!(saved.body, format!("{expected}shape | desk | @3 5 5 9 5\n"));
}

#[test]
fn line_ends_are_kept() {
    let server = start("shape | a | 1 1\r\n# end\r\n");
    let body = "{\"changes\":[{\"name\":\"a\",\"floor\":4,\"corners\":[[2,2]]},\
                {\"name\":\"b\",\"floor\":0,\"corners\":[[3,3]]}]}";
    let saved = server.post("save", body).body;
    assert_eq!(
        saved,
        "shape | a | @4 2 2\r\n# end\r\nshape | b | @0 3 3\r\n"
    );
}

/// Files of all sorts.
const FILES: &[&str] = &[
    MAP,
    "shape|a|1 2\r\nshape|b|3 4 # b\r\n+5 6\r\n",
    "shape | a\n + | 0 0 1 0 0 1 # x\n\n# between\nshape | b | @7 0 0 # y\n # z\n + 9 9\nshape | a | 4 4",
    "",
    "\u{FEFF}shape | a | 1 1 # \u{e9}",
    "shape | a | 0 0 0 0\nshape | b | x\nlength | a\n",
];

/// Random changes of files of all sorts are read back as they were made, and nothing else changes.
#[test]
fn changed_files_read_back() {
    let mut dice = Dice::new(54);
    for _ in 0..5000 {
        let file = dice.pick(FILES);
        let changes: Vec<Change> = ["a", "b", "bed", "wall"]
            .iter()
            .filter(|_| dice.below(2) == 0)
            .copied()
            .collect::<Vec<&str>>()
            .into_iter()
            .map(|name| change(&mut dice, name))
            .collect();
        let source = Source {
            name: "f".into(),
            bytes: file.as_bytes().to_vec(),
        };
        let world = World::new(source);
        let plan = world.plan(&changes).expect("shapes only");
        check(&world.original(), &plan, &changes);
    }
}

/// Files that are hardly maps are changed without a panic, and what is saved is read as any file is.
#[test]
fn strange_files_are_changed() {
    let mut dice = Dice::new(55);
    for _ in 0..20_000 {
        let mut bytes = dice.pick(FILES).as_bytes().to_vec();
        for _ in 0..=dice.below(6) {
            crate::strange::mutate(&mut dice, &mut bytes);
        }
        let name = "f".into();
        let world = World::new(Source { name, bytes });
        let changes = [change(&mut dice, "a"), change(&mut dice, "bed")];
        if let Ok(plan) = world.plan(&changes) {
            let again = Plan::read(plan.source.clone());
            assert_eq!(again.events, plan.events);
        }
    }
}

fn change(dice: &mut Dice, name: &str) -> Change {
    let (x, y) = (dice.between(-9, 9) as i32, dice.between(-9, 9) as i32);
    let corners = match dice.below(4) {
        0 => vec![],
        1 => vec![[x, y]],
        2 => vec![[x, y], [x + 5, y], [x, y + 5]],
        // Enough for several rows: corners of a parabola.
        _ => (0..30).map(|k| [x + 1000 * k, y + 10 * k * k]).collect(),
    };
    Change {
        name: Name::read(name).expect("a name"),
        floor: 3,
        corners,
    }
}

fn check(before: &Plan, after: &Plan, changes: &[Change]) {
    let shown = String::from_utf8_lossy(&after.source.bytes);
    for Change {
        name,
        floor,
        corners,
    } in changes
    {
        match after.named(name) {
            Ok(shape) if !corners.is_empty() => {
                assert_eq!(
                    (shape.corners(), shape.floor),
                    (corners.as_slice(), Some(*floor)),
                    "{shown}"
                );
            }
            Ok(_) => panic!("an earlier definition of {name} is left: {shown}"),
            Err(_) => assert!(corners.is_empty(), "{name}: {shown}"),
        }
    }
    let is_kept = |name: &Name| changes.iter().all(|change| change.name != *name);
    let kept = |plan: &Plan| -> Vec<String> {
        let items = plan.map.items().filter(|item| is_kept(&item.name));
        items.map(|item| format!("{:?}", item.entry)).collect()
    };
    assert_eq!(kept(before), kept(after), "{shown}");
}
