//! The calls against brute force: the same number, and the same output to its last byte.
use cocklesway::{bytes, limits};
use second::host;
use second::make::dice::Dice;
use second::make::{long, pairs};
use second::plane::{Shape, point};

/// A list, as bytes, and its floor.
type Lent<'a> = (&'a [u8], u32);

/// Bytes of an output that hold any answer.
fn all() -> usize {
    8 * limits().corners
}

#[derive(Clone, Copy, Debug)]
enum Writes {
    Sum,
    Merge,
}

impl Writes {
    fn proved(self, (a, f): Lent, (b, g): Lent, out: &mut [u8]) -> u64 {
        match self {
            Writes::Sum => bytes::sum(a, f, b, g, out).number(),
            Writes::Merge => bytes::merge(a, f, b, g, out).number(),
        }
    }

    fn brute(self, (a, f): Lent, (b, g): Lent, out: &mut [u8]) -> u64 {
        match self {
            Writes::Sum => host::sum(a, f, b, g, out),
            Writes::Merge => host::merge(a, f, b, g, out),
        }
    }
}

/// All calls on these lists; the outputs are lent none, too few, just enough and more bytes.
fn agree(a: Lent, b: Lent) {
    agree_on_one(a);
    agree_on_one(b);
    assert_eq!(
        bytes::relation(a.0, a.1, b.0, b.1).number(),
        host::relation(a.0, a.1, b.0, b.1),
        "relation of {a:?} and {b:?}"
    );
    for call in [Writes::Sum, Writes::Merge] {
        let told = call.brute(a, b, &mut vec![0; all()]);
        let need = 8 * (told >> 16 & 0xFFFF) as usize;
        if told & 0xFF == 0 {
            agree_written(call, a, b, need);
            agree_written(call, a, b, need - 1);
            agree_written(call, a, b, need + 1);
        }
        agree_written(call, a, b, 0);
        agree_written(call, a, b, all());
    }
}

fn agree_on_one((list, floor): Lent) {
    let (one, other) = (bytes::judge(list, floor).number(), host::judge(list, floor));
    assert_eq!(one, other, "judge of {list:?} on {floor}");
}

/// The outputs hold the same before, and so they must afterwards. They have exactly the room.
fn agree_written(call: Writes, a: Lent, b: Lent, room: usize) {
    let mut out: Box<[u8]> = (0..room).map(|k| (k % 251) as u8).collect();
    let before = out.clone();
    let mut other = out.clone();
    let (one, two) = (call.proved(a, b, &mut out), call.brute(a, b, &mut other));
    assert_eq!(one, two, "{call:?} of {a:?} and {b:?} in {room} bytes");
    assert_eq!(out, other, "{call:?} of {a:?} and {b:?} in {room} bytes");
    let written = if one & 0xFF == 0 {
        8 * (one >> 16 & 0xFFFF) as usize
    } else {
        0
    };
    assert_eq!(
        out[written..],
        before[written..],
        "only the answer is written"
    );
}

fn bytes_of(shape: &[second::plane::Point]) -> Vec<u8> {
    host::bytes_of(shape)
}

fn square() -> Vec<u8> {
    bytes_of(&[point(0, 0), point(2, 0), point(2, 2), point(0, 2)])
}

/// Shapes of all kinds, in pairs that meet in all ways.
fn any_pair(dice: &mut Dice) -> (Shape, Shape) {
    match dice.below(3) {
        0 => pairs::any(dice),
        1 => pairs::for_sum(dice),
        _ => pairs::for_merge(dice),
    }
}

fn any_floors(dice: &mut Dice) -> [u32; 2] {
    let mut any = || match dice.below(4) {
        0 => dice.below(1 << 32) as u32,
        1 => dice.pick(&[65_534, 65_535, 65_536, 65_537, u32::MAX]),
        _ => dice.below(3) as u32,
    };
    let (f, g) = (any(), any());
    if dice.one_in(4) { [f, g] } else { [f, f] }
}

/// Mostly one change: bytes less or more, another byte, or numbers exchanged.
fn damage(dice: &mut Dice, bytes: &mut Vec<u8>) {
    let at = dice.below(bytes.len());
    let some = 1 + dice.below(9);
    match dice.below(5) {
        0 => bytes.truncate(bytes.len().saturating_sub(some)),
        1 => bytes.resize(bytes.len() + some, 0xFF),
        2 if !bytes.is_empty() => bytes[at] = dice.below(256) as u8,
        3 if !bytes.is_empty() => bytes.rotate_left(at & !7),
        _ => drop(bytes.drain(..at)),
    }
}

#[test]
fn any_shapes_are_answered_as_brute_force_does() {
    let mut dice = Dice::new(21);
    for _ in 0..1500 {
        let (a, b) = any_pair(&mut dice);
        let [f, g] = any_floors(&mut dice);
        agree((&bytes_of(&a), f), (&bytes_of(&b), g));
    }
}

#[test]
fn damaged_lists_are_refused_as_brute_force_does() {
    let mut dice = Dice::new(22);
    for _ in 0..3000 {
        let (a, b) = pairs::any(&mut dice);
        let (mut a, mut b) = (bytes_of(&a), bytes_of(&b));
        let [f, g] = any_floors(&mut dice);
        if dice.one_in(2) {
            damage(&mut dice, &mut a);
        }
        if dice.one_in(2) {
            damage(&mut dice, &mut b);
        }
        agree((&a, f), (&b, g));
    }
}

#[test]
fn any_count_of_bytes_is_answered() {
    let list = [square(), square()].concat();
    for count in 0..=list.len() {
        agree((&list[..count], 1), (&square(), 1));
        agree((&square(), 1), (&list[..count], 1));
    }
}

#[test]
fn the_limit_of_corners_holds_for_any_rest() {
    let mut dice = Dice::new(23);
    for corners in 1022..=1026 {
        let mut list = bytes_of(&long::of_corners(&mut dice, corners));
        for _ in 0..9 {
            agree((&list, 0), (&square(), 0));
            agree((&square(), 0), (&list, 0));
            list.push(0);
        }
    }
    for count in [
        8 * 2048,
        8 * 2048 + 4,
        8 * 2048 + 5,
        8 * 9000,
        8 * 9000 + 4,
        8 * 9000 + 7,
    ] {
        let list = vec![1; count];
        agree((&list, 0), (&square(), 0));
        agree((&square(), 70_000), (&list, 0));
    }
}

#[test]
fn the_longest_answers_are_written_whole() {
    let mut dice = Dice::new(24);
    for total in 1021..=1026 {
        let (a, b) = long::summing_to(&mut dice, total);
        agree((&bytes_of(&a), 9), (&bytes_of(&b), 9));
        let (a, b) = long::dealt(&mut dice, total);
        agree((&bytes_of(&a), 9), (&bytes_of(&b), 9));
    }
}

#[test]
fn floors_go_behind_the_shapes_and_before_the_rest() {
    let far = bytes_of(&[point(600_000, 0)]);
    let floors = [
        0,
        1,
        255,
        256,
        65_535,
        65_536,
        65_537,
        131_072,
        1 << 24,
        u32::MAX,
    ];
    for f in floors {
        for g in floors {
            agree((&square(), f), (&square(), g));
            agree((&far, f), (&far, g));
            agree((&square()[..31], f), (&far, g));
            agree((&far, f), (&square()[..28], g));
        }
    }
}

#[test]
fn slices_may_stand_anywhere() {
    let list = square();
    let mut expected = [0; 32];
    let told = host::sum(&list, 5, &list, 5, &mut expected);
    for at in 0..16 {
        let mut memory = [7; 64];
        memory[at..at + 32].copy_from_slice(&list);
        let lent = &memory[at..at + 32];
        assert_eq!(bytes::judge(lent, 5).number(), 0x0005_0004_0000);
        assert_eq!(bytes::relation(lent, 5, lent, 5).number(), 0x0005_0002_0000);
        for to in 0..16 {
            let mut out = [9; 64];
            assert_eq!(
                bytes::sum(lent, 5, lent, 5, &mut out[to..to + 32]).number(),
                told
            );
            assert_eq!(out[to..to + 32], expected);
            let others = out[..to].iter().chain(&out[to + 32..]);
            assert!(others.into_iter().all(|&byte| byte == 9));
        }
    }
}
