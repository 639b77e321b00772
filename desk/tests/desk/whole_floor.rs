//! Commands that ask a whole floor, on a hospital of three floors and a cart of 600 by 900.
use crate::json;
use crate::running::{Folder, Ran, with_input};

const HOSPITAL: &str = include_str!("hospital.txt");

/// Runs a command on the hospital: words, of which `-` is its map.
fn on_hospital(command: &str) -> Ran {
    let words: Vec<&str> = command.split(' ').collect();
    with_input(&words, HOSPITAL.as_bytes())
}

#[track_caller]
fn says(command: &str, lines: &[&str]) {
    let ran = on_hospital(command);
    let said: Vec<&str> = ran.output.lines().collect();
    assert_eq!(said, lines, "{command}: {ran:?}");
    assert_eq!((ran.status, ran.errors.as_str()), (0, ""), "{command}");
}

#[track_caller]
fn refused(command: &str, status: u8, words: &str) {
    let ran = on_hospital(command);
    assert_eq!(ran.status, status, "{command}: {ran:?}");
    let said = if status == 1 {
        &ran.output
    } else {
        &ran.errors
    };
    assert!(said.contains(words), "{command}: {ran:?}");
    if status == 2 {
        assert_eq!(ran.output, "", "{command}");
    }
}

#[test]
fn gaps_of_a_floor() {
    says(
        "gaps - --floor 2 --below 900 --apart",
        &[
            "north-2 and bed-21 are 800 mm apart, between corner (2200, 8200) of bed-21 and edge (0, 9000) to \
             (24000, 9000) of north-2",
            "north-2 and bed-22 are 800 mm apart, between corner (5200, 8200) of bed-22 and edge (0, 9000) to \
             (24000, 9000) of north-2",
            "north-2 and bed-23 are 800 mm apart, between corner (8200, 8200) of bed-23 and edge (0, 9000) to \
             (24000, 9000) of north-2",
            "north-2 and bed-24 are 800 mm apart, between corner (11200, 8200) of bed-24 and edge (0, 9000) to \
             (24000, 9000) of north-2",
            "north-2 and bed-25 are 800 mm apart, between corner (14200, 8200) of bed-25 and edge (0, 9000) to \
             (24000, 9000) of north-2",
            "linen-store and desk-2 are 880 mm apart, between corner (18000, 5400) of linen-store and corner \
             (18880, 5400) of desk-2",
            "floor 2: 6 of 91 pairs have a gap of less than 900 mm; 0 of these are not apart",
        ],
    );
    let all = on_hospital("gaps - --floor 2 --below 900");
    assert_eq!(all.output.lines().count(), 11, "{all:?}");
    says(
        "gaps - --floor 2",
        &["south-2 and west-2 are not apart: they have points in common"],
    );
    says(
        "gaps - --floor 2 --below 0",
        &["floor 2: 0 of 91 pairs have a gap of less than 0 mm; 0 of these are not apart"],
    );
}

#[test]
fn gaps_for_a_cart() {
    let ran = on_hospital("gaps - --floor 2 --cart cart --below 281 --apart");
    let lines: Vec<&str> = ran.output.lines().collect();
    assert_eq!(
        lines[0],
        "cart cannot pass straight between north-2 and bed-21: the gap is 800 mm, between corner (2200, 8200) of \
         bed-21 and edge (0, 9000) to (24000, 9000) of north-2, and across it cart needs 900 mm"
    );
    assert_eq!(
        lines[5],
        "linen-store and desk-2 leave cart 280 mm to spare, between corner (18000, 4500) of grown linen-store and \
         edge (18280, 5400) to (18280, 3100) of grown desk-2"
    );
    assert_eq!(
        lines[6],
        "floor 2: 6 of 91 pairs leave cart less than 281 mm; it cannot pass at 5 of these"
    );
}

/// The narrowest gap is the first of the list: the library's answer on the whole floor, and the loop over all pairs.
#[test]
fn the_narrowest_gap_is_the_first_of_the_list() {
    for floor in ["1", "2", "3"] {
        for cart in ["", " --cart cart"] {
            let narrowest = on_hospital(&format!("gaps - --floor {floor}{cart}"));
            let all = on_hospital(&format!("gaps - --floor {floor}{cart} --below 30000"));
            let count = all.output.lines().count();
            assert_eq!(narrowest.output.lines().next(), all.output.lines().next());
            assert!(count > 50, "{all:?}");
        }
    }
}

#[test]
fn gaps_are_in_the_order_of_exact_distances() {
    // √2 is before 3/2 and after 7/5, all rounded down to 1.
    let map = "shape | a | 0 0\nshape | b | 1 1\nshape | c | 1000 1000 1004 1003\nshape | d | 1003 1000\n";
    let ran = with_input(&["gaps", "-", "--below", "3"], map.as_bytes());
    let lines: Vec<&str> = ran.output.lines().collect();
    assert!(
        lines[0].starts_with("a and b are 1 mm (rounded down) apart"),
        "{ran:?}"
    );
    assert!(
        lines[1].starts_with("c and d are 1 mm (rounded down) apart"),
        "{ran:?}"
    );
}

#[test]
fn a_cart_between_two() {
    says(
        "passes - linen-store desk-2 --cart cart",
        &[
            "cart can pass straight between linen-store and desk-2 with 280 mm to spare, measured in direction \
             (-1, 0), while -1·x + 0·y of its origin is between -18280 and -18000; the gap is 880 mm, between corner \
             (18000, 5400) of linen-store and corner (18880, 5400) of desk-2, and across it cart needs 600 mm",
        ],
    );
    says(
        "passes - north-2 bed-21 --cart cart",
        &[
            "cart cannot pass straight between north-2 and bed-21: the gap is 800 mm, between corner (2200, 8200) of \
             bed-21 and edge (0, 9000) to (24000, 9000) of north-2, and across it cart needs 900 mm",
        ],
    );
    says(
        "passes - north-2 west-2 --cart cart",
        &["cart cannot pass straight between north-2 and west-2: these are not apart"],
    );
}

/// A cart that is asked for in a slanted gap needs more than it is wide.
#[test]
fn what_a_cart_needs_is_rounded_up() {
    let map = "outline | cart | 0 0 600 0 600 900 0 900\nshape | a | 0 0\nshape | b | 30 879\n";
    let ran = with_input(&["passes", "-", "a", "b", "--cart", "cart"], map.as_bytes());
    assert_eq!(
        ran.output,
        "cart cannot pass straight between a and b: the gap is 879 mm (rounded down), between a at (0, 0) and b at \
         (30, 879), and across it cart needs 920 mm (rounded up)\n"
    );
}

#[test]
fn a_cart_at_a_place() {
    says(
        "stands - --cart cart --at 3500,100 --floor 2",
        &[
            "cart at (3500, 100) is free on floor 2; the nearest is south-2: 100 mm, between corner (3500, 100) of \
             cart at (3500, 100) and edge (0, 0) to (24000, 0) of south-2",
        ],
    );
    says(
        "stands - --cart cart --at -600,100 --floor 2",
        &["cart at (-600, 100) on floor 2 touches west-2"],
    );
    says(
        "stands - --cart cart --at 23800,0 --floor 2",
        &["cart at (23800, 0) on floor 2 overlaps east-2; it touches south-2"],
    );
    says(
        "stands - --cart cart --at 1500,5500 --floor 1",
        &["cart at (1500, 5500) on floor 1 overlaps bed-11"],
    );
}

#[test]
fn drives_leg_by_leg() {
    says(
        "drive - --cart cart --floor 2 1000,1000 16000,1000 16000,4300",
        &[
            "leg 1: cart is clear from (1000, 1000) to (16000, 1000): south-2 is nearest to cart on its way on floor \
             2: 1 m, between corner (1000, 1000) of cart on its way and edge (0, 0) to (24000, 0) of south-2",
            "leg 2: cart meets column-23 first, after 1.1 m, at 1/3 of the way from (16000, 1000) to (16000, 4300)",
            "cart is stopped on leg 2",
        ],
    );
    says(
        "drive - --cart cart --floor 1 -600,100 -5000,100",
        &[
            "leg 1: cart meets west-1 where it begins its way from (-600, 100) to (-5000, 100)",
            "cart is stopped on leg 1",
        ],
    );
    let still = on_hospital("drive - --cart cart --floor 2 1000,1000 1000,1000");
    assert!(
        still.output.ends_with("cart is clear all the way\n"),
        "{still:?}"
    );
}

#[test]
fn the_nearest_obstacle() {
    says(
        "nearest - --floor 3 --at 12000,4000",
        &[
            "post is nearest to the point (12000, 4000) on floor 3: 500 mm, between the point (12000, 4000) and post \
             at (12000, 4500)",
        ],
    );
    says(
        "nearest - --shape linen-store",
        &[
            "desk-2 is nearest to linen-store on floor 2: 880 mm, between corner (18000, 5400) of linen-store and \
             corner (18880, 5400) of desk-2",
        ],
    );
    says(
        "nearest - --shape cart --at -12000,4000 --floor 3",
        &[
            "west-3 is nearest to cart at (-12000, 4000) on floor 3: 11.4 m, between corner (-11400, 4000) of cart at \
             (-12000, 4000) and edge (0, 0) to (0, 9000) of west-3",
        ],
    );
    says(
        "nearest - --floor 2 --at 0,100",
        &[
            "west-2 is the first that meets the point (0, 100) on floor 2: they have points in common",
        ],
    );
}

/// Commands, how many objects they print, and members of one.
#[rustfmt::skip]
const OBJECTS: &[(&str, usize, &str)] = &[
    ("gaps - --floor 2 --below 900 --json", 10, r#""names":["south-2","west-2"],"apart":false,"rounded":0"#),
    ("gaps - --floor 2 --json --cart cart", 1, r#""floor":2,"cart":"cart","names":"#),
    ("passes - linen-store desk-2 --cart cart --json", 1, r#""passable":true,"direction":[-1,0]"#),
    ("stands - --cart cart --at 23800,0 --floor 2 --json",
     1, r#""state":"overlapping","overlaps":["east-2"],"touches":["south-2"]"#),
    ("drive - --cart cart --floor 2 1000,1000 16000,1000 16000,4300 --json",
     2, r#""meets":true,"name":"column-23","numerator":1,"denominator":3,"safe":1100"#),
    ("nearest - --shape linen-store --json", 1, r#""name":"desk-2","apart":true,"rounded":880"#),
    ("nearest - --floor 9 --at 0,0 --json", 1, r#"{"refused":{"number":20,"#),
];

#[test]
fn an_object_a_line() {
    for (command, lines, member) in OBJECTS.iter().copied() {
        let ran = on_hospital(command);
        assert_eq!(ran.output.lines().count(), lines, "{command}: {ran:?}");
        assert!(ran.output.contains(member), "{command}: {ran:?}");
        for line in ran.output.lines() {
            json::read(line).expect(line);
            assert!(line.contains(r#""sentence":""#), "{line}");
        }
    }
}

/// Commands, their status, and words of what is said.
#[rustfmt::skip]
const MISTAKES: &[(&str, u8, &str)] = &[
    ("gaps", 2, "no file is given"),
    ("gaps no-such-map", 2, "no-such-map: cannot be read: No such file"),
    ("gaps -", 2, "the map has the floors 1, 2, 3: choose one with --floor"),
    ("gaps - --floor second", 2, "`--floor` needs a floor from 0 to 65535, and not `second`"),
    ("gaps - --floor 2 --below 0.9m", 2, "`--below` needs a whole number of millimetres, and not `0.9m`"),
    ("gaps - --floor 2 --bellow 900", 2, "there is no option `--bellow` (did you mean `--below`?)"),
    ("gaps - --floor 2 --cart crt",
     2, "`--cart` needs the name of a shape of the map, and not `crt` (did you mean `cart`?)"),
    ("gaps - --floor 9", 1, "refused (20): floor 9 of the map has fewer than two shapes"),
    ("gaps - --floor 9 --below 900", 1, "refused (20): floor 9 of the map has fewer than two shapes"),
    ("gaps - --floor 9 --apart", 1, "refused (20): floor 9 of the map has fewer than two shapes"),
    ("gaps - --floor 2 --cart bed-11", 1, "refused (13): south-2 is on floor 2 and bed-11 is on floor 1"),
    ("passes - linen-store --cart cart", 2, "two obstacles are needed after the map: MAP A B"),
    ("passes - linnen-store desk-2 --cart cart",
     2, "no shape of the map is called `linnen-store` (did you mean `linen-store`?)"),
    ("passes - linen-store desk-2", 2, "a cart is needed: --cart CART"),
    ("passes - linen-store desk-1 --cart cart",
     1, "refused (13): linen-store is on floor 2 and desk-1 is on floor 1"),
    ("stands - --cart cart --floor 2", 2, "a place is needed: --at X,Y"),
    ("stands - --cart cart --floor 2 --at 3500",
     2, "`--at` needs two whole numbers of millimetres with a comma between them, and not `3500`"),
    ("stands - --cart cart --floor 2 --at 2000000,0",
     1, "refused (3): the corner (2000000, 0) of the point (2000000, 0) is out of range"),
    ("stands - --cart cart --floor 9 --at 0,0", 1, "refused (20): floor 9 of the map has no shape"),
    ("drive - --cart cart --floor 2", 2, "two places or more are needed after the map"),
    ("drive - --cart cart --floor 2 0,0 1,x",
     2, "`drive` needs two whole numbers of millimetres with a comma between them, and not `1,x`"),
    ("drive - --cart cart --floor 9 0,0 10,0", 1, "refused (20): floor 9 of the map has no shape"),
    ("drive - --cart cart --floor 2 0,0 2000000,0", 1, "refused (3): the place (2000000, 0) is out of range"),
    ("nearest - --floor 2", 2, "--at X,Y or --shape NAME is needed"),
    ("nearest - --shape cart --floor 2", 2, "cart is an outline, which is nowhere: --at X,Y puts it there"),
    ("nearest - --shape bed-11 --at 0,0", 2, "bed-11 has its place already: leave out --at or --shape"),
    ("nearest - --floor 9 --at 0,0", 1, "refused (20): floor 9 of the map has no shape"),
    ("nearest - --floor 2 --shape bed-11", 2, "bed-11 is on floor 1, and not on floor 2"),
];

#[test]
fn mistakes_in_commands() {
    for (command, status, words) in MISTAKES.iter().copied() {
        refused(command, status, words);
    }
}

/// A map that lacks a shape promises too much: nothing is answered from it.
#[test]
fn nothing_is_answered_from_a_map_that_is_not_whole() {
    let folder = Folder::new();
    let map = folder.file(
        "map.txt",
        &format!("{HOSPITAL}shape | new | @2 0 0 0 8 9 9\n"),
    );
    let torn = folder.file("torn.txt", &format!("{HOSPITAL}shape | new | @2 0 0 O 8\n"));
    for command in [
        "gaps MAP --floor 2",
        "passes MAP linen-store desk-2 --cart cart",
        "stands MAP --cart cart --at 0,0 --floor 2",
        "drive MAP --cart cart 0,0 1,1 --floor 2",
        "nearest MAP --floor 2 --at 0,0",
    ] {
        for (map, status) in [(&map, 1), (&torn, 2)] {
            let command = command.replace("MAP", map);
            let words: Vec<&str> = command.split(' ').collect();
            let ran = with_input(&words, b"");
            assert_eq!((ran.status, ran.output.as_str()), (status, ""), "{ran:?}");
            assert!(
                ran.errors
                    .ends_with("cocklesway: nothing is answered, since the map is not whole\n"),
                "{ran:?}"
            );
        }
    }
}

/// One shape alone on its floor has no neighbour.
#[test]
fn a_floor_of_one() {
    let map = "shape | lift | @4 0 0 10 0 10 10 0 10\n";
    let ran = with_input(&["nearest", "-", "--shape", "lift"], map.as_bytes());
    assert_eq!(
        ran.output,
        "refused (20): floor 4 of the map has no other shape\n"
    );
    let ran = with_input(&["gaps", "-"], map.as_bytes());
    assert_eq!(
        ran.output,
        "refused (20): floor 4 of the map has fewer than two shapes\n"
    );
    assert_eq!(ran.status, 1);
}

#[test]
fn a_check_says_what_is_remarkable() {
    let map = "shape | bed | @2 0 0 20 0 20 9 0 9\nshape | Bed | @2 10 5 30 5 30 14 10 14\n\
               shape | cot | @2 0 0 20 0 20 9 0 9\nshape | post | @3 1 1\nshape | pole | @3 1 1\n\
               shape | upstairs | @3 0 0 20 0 20 9 0 9\nshape | beside | @2 20 0 40 0 40 5 20 5\n";
    let ran = with_input(&["check", "-"], map.as_bytes());
    let lines: Vec<&str> = ran.output.lines().skip(7).collect();
    assert_eq!(
        lines,
        [
            "bed and Bed overlap on floor 2",
            "bed and cot are the same shape on floor 2",
            "Bed and cot overlap on floor 2",
            "post and pole are the same shape on floor 3",
            "post and upstairs overlap on floor 3",
            "pole and upstairs overlap on floor 3",
            "the names bed and Bed differ only in case",
            "accepted: 7, refused: 0, unreadable lines: 0",
        ],
        "{ran:?}"
    );
    assert_eq!(ran.status, 0);
    let ran = with_input(&["check", "--json", "-"], map.as_bytes());
    let last = ran.output.lines().last().expect("a line");
    assert_eq!(
        last,
        r#"{"remark":"case","floor":null,"names":["bed","Bed"],"sentence":"the names bed and Bed differ only in case"}"#
    );
}

/// Grown shapes and a cart at a place are no obstacles.
#[test]
fn what_is_made_is_no_obstacle() {
    let map =
        format!("{HOSPITAL}grown = grow | linen-store | cart\nthere = at | cart | @2 3500 100\n");
    let ran = with_input(
        &[
            "stands", "-", "--cart", "cart", "--at", "3500,100", "--floor", "2",
        ],
        map.as_bytes(),
    );
    assert!(
        ran.output
            .contains("is free on floor 2; the nearest is south-2: 100 mm"),
        "{ran:?}"
    );
}
