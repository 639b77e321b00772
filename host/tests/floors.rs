//! Floors of every question: which are one, and where refusal 13 has its place. The lines of the program have floors
//! up to 65,535 only.
use cocklesway::{
    Book, Refusal, Shape, Walk, clearance, excess, find, furthest, grow, inside, judge, length,
    limits, merge, mirror, offer, passage, relation, sum, sweep, tangents, width,
};
use second::make::dice::Dice;
use second::make::pairs;
use second::plane::Point;

/// What is asked: of two lists, with an output and a log of the given sizes; the refusal, if any.
type Asked = fn(Shape<'_>, Shape<'_>, &mut [[i32; 2]], &mut [u8]) -> Option<Refusal>;

/// The questions of one list, and of two. The second of one list is not asked of.
const ONE: [Asked; 7] = [
    |a, _, _, _| judge(a).err(),
    |a, _, _, _| furthest(a, [2, 4]).err(),
    |a, _, out, _| mirror(a, out).err(),
    |a, _, out, _| sweep(a, out).err(),
    |a, _, _, _| length(a).err(),
    |a, _, _, _| width(a).err(),
    |a, _, _, log| Book::new(log).add(7, a, 99).err(),
];
const TWO: [Asked; 14] = [
    |a, b, out, _| sum(a, b, out).err(),
    |a, b, out, _| merge(a, b, out).err(),
    |a, b, out, _| grow(a, b, out).err(),
    |a, b, _, _| Walk::begin(a, b).err(),
    |a, b, out, _| Walk::at(9, 9, false).part(a, b, 3, out).err(),
    |a, b, _, _| relation(a, b).err(),
    |a, b, _, _| inside(a, b).err(),
    |a, b, _, _| offer(a, b, [0, 0]).err(),
    |a, b, _, _| find(a, b).err(),
    |a, b, _, _| clearance(a, b).err(),
    |a, b, _, _| excess(a, b).err(),
    |a, b, _, _| tangents(a, b).err(),
    |a, b, _, _| passage(a, b, a).err(),
    |a, b, _, _| passage(a, a, b).err(),
];

/// Numbers at and above the highest floor.
const FLOORS: [u32; 8] = [0, 1, 65_535, 65_536, 65_537, 131_072, 1 << 31, u32::MAX];

/// The corners of shapes as numbers; at times one of them is damaged.
fn lists(dice: &mut Dice) -> [Vec<i32>; 2] {
    let (a, b) = pairs::any(dice);
    let numbers = |shape: &[Point]| -> Vec<i32> {
        let parts = shape.iter().flat_map(|c| [c.x, c.y]);
        parts.map(|part| part as i32).collect()
    };
    let mut lists = [numbers(&a), numbers(&b)];
    if dice.one_in(2) {
        let list = &mut lists[dice.below(2)];
        let at = dice.below(list.len());
        match dice.below(3) {
            0 => list.rotate_left(at),
            1 => list.truncate(at),
            _ => list.extend_from_within(at..),
        }
    }
    lists
}

/// Asks on these floors, and again on floor 0: 13 is given exactly where the lists are no reason before it, and
/// nothing is written with it.
fn agree(asked: Asked, [a, b]: [&[i32]; 2], [f, g]: [u32; 2], one: bool) {
    let (mut out, mut log) = ([[7; 2]; 3], [0; 20]);
    let shape = |list, floor| Shape::of_numbers(list, floor);
    let on_one = asked(shape(a, 0), shape(b, 0), &mut out.clone(), &mut log.clone());
    let told = asked(shape(a, f), shape(b, g), &mut out, &mut log);
    let blames_a_list = on_one.is_some_and(|refusal| refusal.shape().is_some());
    let highest = limits().floor;
    if blames_a_list || (f <= highest && (one || f == g)) {
        assert_eq!(told, on_one, "{a:?} on {f} and {b:?} on {g}");
    } else {
        assert_eq!(told, Some(Refusal::Floors), "{a:?} on {f} and {b:?} on {g}");
        assert_eq!((out, log), ([[7; 2]; 3], [0; 20]));
    }
}

#[test]
fn floors_go_after_the_lists_and_before_the_rest() {
    let mut dice = Dice::new(41);
    for _ in 0..400 {
        let lists = lists(&mut dice);
        let lists = lists.each_ref().map(Vec::as_slice);
        let any = [dice.pick(&FLOORS), dice.pick(&FLOORS)];
        let same = [any[0]; 2];
        for floors in [any, same] {
            ONE.iter()
                .for_each(|&asked| agree(asked, lists, floors, true));
            TWO.iter()
                .for_each(|&asked| agree(asked, lists, floors, false));
        }
    }
}
