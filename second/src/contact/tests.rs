//! First contacts against the relation of cart and obstacle at many places of the way.

use super::*;
use crate::make::dice::Dice;
use crate::make::shapes::{moved, scaled, small, vector};
use crate::plane::{Shape, point};
use crate::separation::{Relation, relation};

/// Whether the cart, at the fraction of the way, is not apart from the obstacle. All is taken d times.
fn meets(obstacle: &[Point], cart: &[Point], [from, to]: [Point; 2], n: i64, d: i64) -> bool {
    let place = from * (d - n) + to * n;
    let there = moved(&scaled(cart, d), place);
    relation(&there, &scaled(obstacle, d)) != Relation::Apart
}

fn any(dice: &mut Dice) -> (Shape, Shape, [Point; 2]) {
    let (obstacle, cart) = (small(dice), small(dice));
    let mut place = || vector(dice, 16);
    (obstacle, cart, [place(), place()])
}

#[test]
fn the_cart_meets_there_and_not_before() {
    let mut dice = Dice::new(61);
    let (mut never, mut at_once, mut later) = (0, 0, 0);
    while never < 300 || at_once < 300 || later < 300 {
        let (obstacle, cart, way) = any(&mut dice);
        let found = contact(&obstacle, &cart, way).expect("all is small");
        let parts = 60;
        let (n, d) = found.map_or((parts + 1, 1), |found| (found.n, found.d));
        for part in 0..=parts {
            let is_before = part * d < n * parts;
            if is_before {
                let (part, parts) = (part as i64, parts as i64);
                let met = meets(&obstacle, &cart, way, part, parts);
                assert!(!met, "{obstacle:?} {cart:?} {way:?} {part}");
            }
        }
        match found {
            None => never += 1,
            Some(found) => {
                let (n, d) = (found.n as i64, found.d as i64);
                assert!(meets(&obstacle, &cart, way, n, d), "{found:?} {way:?}");
                assert!(0 <= n && n <= d && crate::plane::divisor(n, d) == 1);
                *(if n == 0 { &mut at_once } else { &mut later }) += 1;
            }
        }
    }
}

/// The safe millimetres are on the way before the contact, and one more is not.
#[test]
fn safe_millimetres_are_rounded_down() {
    let mut dice = Dice::new(62);
    for _ in 0..4000 {
        let (obstacle, cart, way) = any(&mut dice);
        if let Ok(Some(Contact { n, d, safe })) = contact(&obstacle, &cart, way) {
            let most = n * n * squared_distance(way[0], way[1]);
            assert!(safe * safe * d * d <= most && most < (safe + 1) * (safe + 1) * d * d);
        }
    }
}

#[test]
fn the_widest_numbers_stay_exact() {
    let r = 1_000_000;
    let way = [point(-r, -r), point(r, r)];
    let across = [point(r, -r), point(1 - r, r)];
    let found = contact(&across, &[point(0, 0)], way).expect("all is in range");
    let stated = Contact {
        n: 2_000_000,
        d: 3_999_999,
        safe: 1_414_213,
    };
    assert_eq!(found, Some(stated));
    let l = 8_000_000_000_000;
    assert_eq!(safe(l - 1, l, l), 2_828_427);
    assert_eq!(safe(l, l, l - 1), 2_828_427);
    assert_eq!(safe(1, l, l), 0);
    assert_eq!(safe(3_999_999, 3_999_999, 9_000_000), 3000);
    assert_eq!(safe(3_999_998, 3_999_999, 9_000_000), 2999);
}
