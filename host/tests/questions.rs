//! The exchange of the README, asked of the package.
use cocklesway::{
    Addition, Axis, Book, Nearest, Reading, Refusal, Relation, Shape, Walk, Which, clearance,
    contact, find, furthest, greatest, grow, inside, judge, least_box, length, log_contact,
    log_pack, log_read, merge, mirror, offer, passage, relation, ring, sum, sweep, tablet,
    tangents, width,
};

const SQUARE: Shape = on(2, &[[0, 0], [2, 0], [2, 2], [0, 2]]);
const TRIANGLE: Shape = on(2, &[[0, 0], [1, 0], [0, 1]]);
const RIGHT: Shape = on(2, &[[0, 0], [4, 0], [0, 3]]);
const STAR: Shape = on(2, &[[0, 0], [5, 4], [-1, 4], [4, 0], [2, 6]]);
const UPSTAIRS: Shape = on(3, SQUARE.corners);

const fn on(floor: u32, corners: &[[i32; 2]]) -> Shape<'_> {
    Shape::new(corners, floor)
}

#[test]
fn judge_counts_or_blames() {
    let (shape, edge, corner) = (Which::First, 0, 3);
    assert_eq!(judge(SQUARE).map(|r| (r.count, r.floor)), Ok((4, 2)));
    assert_eq!(
        judge(STAR),
        Err(Refusal::Side {
            shape,
            edge,
            corner
        })
    );
    assert_eq!(judge(on(2, &[])), Err(Refusal::Count { shape }));
    let odd = Shape::of_numbers(&[0, 0, 1], 2);
    assert_eq!(judge(odd), Err(Refusal::Count { shape }));
}

#[test]
fn furthest_has_a_signed_value() {
    let told = |shape, d| furthest(shape, d).map(|r| (r.first, r.last, r.value, r.floor));
    assert_eq!(told(SQUARE, [1, 1]), Ok((2, 2, 4, 2)));
    assert_eq!(told(SQUARE, [1, 0]), Ok((1, 2, 2, 2)));
    assert_eq!(told(SQUARE, [-1, 0]), Ok((3, 0, 0, 2)));
    assert_eq!(told(on(2, &[[0, 0], [2, 0]]), [0, -1]), Ok((0, 1, 0, 2)));
    assert_eq!(told(on(2, &[[1, 1]]), [-3, -2]), Ok((0, 0, -5, 2)));
    assert_eq!(told(SQUARE, [0, 0]), Err(Refusal::Direction));
    assert_eq!(told(SQUARE, [0, 5]), Err(Refusal::NotPrimitive));
}

#[test]
fn shapes_are_written_to_the_front() {
    let mut out = [[7; 2]; 6];
    let mirrored = mirror(TRIANGLE, &mut out);
    assert_eq!(mirrored, Ok(on(2, &[[0, -1], [0, 0], [-1, 0]])));
    let summed = sum(SQUARE, TRIANGLE, &mut out);
    assert_eq!(summed, Ok(on(2, &[[0, 0], [3, 0], [3, 2], [2, 3], [0, 3]])));
    let merged = merge(SQUARE, on(2, &[[5, 1]]), &mut out);
    assert_eq!(merged, Ok(on(2, &[[0, 0], [2, 0], [5, 1], [2, 2], [0, 2]])));
    let grown = grow(SQUARE, TRIANGLE, &mut out);
    let corners = [[0, -1], [2, -1], [2, 2], [-1, 2], [-1, 0]];
    assert_eq!(grown, Ok(on(2, &corners)));
    let points = [[2, 2], [1, 0], [0, 2], [1, 1], [2, 2], [2, 0], [0, 0]];
    let swept = sweep(on(65_535, &points), &mut out);
    assert_eq!(swept, Ok(on(65_535, SQUARE.corners)));
    assert_eq!(out[4..], [[-1, 0], [7, 7]]);
    assert_eq!(sum(SQUARE, TRIANGLE, &mut out[..4]), Err(Refusal::Room));
    assert_eq!(out[..4], *SQUARE.corners);
}

#[test]
fn one_shape_is_measured() {
    let long = length(RIGHT).map(|r| (r.squared, r.from, r.to, r.floor));
    assert_eq!(long, Ok((25, 1, 2, 2)));
    let wide = width(RIGHT).map(|r| (r.edge, r.corner, r.turn, r.squared, r.rounded, r.floor));
    assert_eq!(wide, Ok((1, 0, 12, 25, 2, 2)));
    assert_eq!(width(on(2, &[[0, 0]])), Err(Refusal::Flat));
    let least = least_box(RIGHT).map(|r| (r.edge, r.height, r.along, r.squared, r.floor));
    assert_eq!(least, Ok((0, 12, 16, 16, 2)));
    assert_eq!(least_box(on(2, &[[0, 0], [1, 0]])), Err(Refusal::Flat));
}

#[test]
fn rings_become_shapes() {
    let mut out = [[7; 2]; 5];
    let closed = [[2, 2], [2, 0], [1, 0], [0, 0], [0, 0], [0, 2], [2, 2]];
    assert_eq!(ring(on(2, &closed), &mut out), Ok(SQUARE));
    assert_eq!(out[4], [7, 7]);
    assert_eq!(ring(on(2, &closed), &mut out[..3]), Err(Refusal::Room));
    let shape = Which::First;
    assert_eq!(ring(on(2, &[]), &mut out), Err(Refusal::Count { shape }));
    let many = [[3, 1]; 1025];
    assert_eq!(ring(on(2, &many), &mut out), Ok(on(2, &[[3, 1]])));
    let refused = ring(STAR, &mut []).expect_err("the star is not convex");
    assert!(matches!(refused, Refusal::NotConvex { .. }));
    assert_eq!((refused.number(), refused.shape()), (4, Some(shape)));
}

#[test]
fn two_shapes_are_compared() {
    let standing = relation(SQUARE, on(2, &[[2, 1]]));
    assert_eq!(
        standing.map(|r| (r.relation, r.floor)),
        Ok((Relation::Touching, 2))
    );
    assert_eq!(
        inside(TRIANGLE, SQUARE).map(|r| (r.within, r.floor)),
        Ok((true, 2))
    );
    assert_eq!(
        inside(SQUARE, on(2, &[])),
        Err(Refusal::Count {
            shape: Which::Second
        })
    );
    let beside = on(2, &[[3, 1]]);
    let far = greatest(SQUARE, beside).map(|r| (r.squared, r.first, r.second, r.floor));
    assert_eq!(far, Ok((10, 0, 0, 2)));
    assert_eq!(greatest(SQUARE, UPSTAIRS), Err(Refusal::Floors));
    assert_eq!(
        offer(SQUARE, beside, [1, 0]).map(|r| (r.accepted, r.floor)),
        Ok((true, 2))
    );
    let found = find(beside, SQUARE).expect("they are apart");
    let direction = found.direction.expect("they are apart");
    assert!(direction[0] < 0 && found.floor == 2);
    assert_eq!(
        offer(beside, SQUARE, direction).map(|r| r.accepted),
        Ok(true)
    );
    assert_eq!(
        find(SQUARE, SQUARE).map(|r| (r.direction, r.floor)),
        Ok((None, 2))
    );
}

#[test]
fn carts_pass_or_are_blocked() {
    let told = |left, right, cart| passage(left, right, cart).map(|r| (r.way, r.floor));
    let (wall, post) = (on(2, &[[-9, 7], [9, 7]]), on(2, &[[1, 0]]));
    let (way, floor) = told(wall, post, SQUARE).expect("all are shapes");
    let way = way.expect("there are 5 mm of room");
    assert_eq!(
        (way.across, way.low, way.high, way.width),
        ([0, 1], 0, 5, 5)
    );
    assert_eq!(floor, 2);
    let back =
        passage(post, wall, SQUARE).map(|r| r.way.map(|way| (way.across, way.low, way.high)));
    assert_eq!(back, Ok(Some(([0, -1], -5, 0))));
    assert_eq!(told(SQUARE, TRIANGLE, post), Ok((None, 2)));
    assert_eq!(told(wall, post, UPSTAIRS), Err(Refusal::Floors));
    let shape = Which::Third;
    let (edge, corner) = (0, 3);
    let broken = Refusal::Side {
        shape,
        edge,
        corner,
    };
    assert_eq!(told(wall, post, STAR), Err(broken));
    assert_eq!(
        broken.shape().map(|which| which.to_string()).as_deref(),
        Some("third list")
    );
    let far = on(2, &[[-1_000_000, 0]]);
    assert_eq!(told(post, far, TRIANGLE), Err(Refusal::FarAnswer));
}

#[test]
fn nearest_places_are_of_three_kinds() {
    let told = |a, b| clearance(a, b).map(|r| (r.nearest, r.rounded(), r.floor));
    let (first, second, squared, rounded) = (2, 0, 25, 5);
    let corners = Nearest::Corners {
        first,
        second,
        squared,
        rounded,
    };
    assert_eq!(told(SQUARE, on(2, &[[5, 6]])), Ok((Some(corners), 5, 2)));
    assert_eq!(told(SQUARE, on(2, &[[2, 1]])), Ok((None, 0, 2)));
    let beside = on(2, &[[3, 1]]);
    for (a, b) in [(SQUARE, beside), (beside, SQUARE)] {
        let (nearest, rounded, floor) = told(a, b).expect("both are shapes");
        let across = match nearest {
            Some(Nearest::EdgeCorner(across)) if a == SQUARE => across,
            Some(Nearest::CornerEdge(across)) if b == SQUARE => across,
            other => panic!("{other:?}"),
        };
        assert_eq!(
            (across.corner, across.edge, across.turn, across.squared),
            (0, 1, 2, 4)
        );
        assert_eq!((rounded, across.rounded, floor), (1, 1, 2));
    }
}

#[test]
fn lines_just_touch() {
    let answer =
        tangents(SQUARE, on(2, &[[5, 0], [7, 0], [7, 2], [5, 2]])).expect("they are apart");
    let lines = [answer.left, answer.right, answer.crossing, answer.reverse];
    assert_eq!(
        lines.map(|line| [line.from, line.to]),
        [[1, 0], [2, 3], [1, 3], [2, 0]]
    );
    assert_eq!(answer.floor, 2);
    assert_eq!(tangents(SQUARE, SQUARE), Err(Refusal::NotApart));
}

#[test]
fn two_floors_are_refused() {
    let mut out = [[7; 2]; 6];
    assert_eq!(relation(SQUARE, UPSTAIRS), Err(Refusal::Floors));
    assert_eq!(sum(UPSTAIRS, TRIANGLE, &mut out[..0]), Err(Refusal::Floors));
    let none = on(3, &[]);
    assert_eq!(
        merge(SQUARE, none, &mut out),
        Err(Refusal::Count {
            shape: Which::Second
        })
    );
    assert_eq!(Walk::begin(SQUARE, UPSTAIRS), Err(Refusal::Floors));
    let part = Walk::at(0, 0, false).part(SQUARE, UPSTAIRS, 9, &mut out);
    assert_eq!(part, Err(Refusal::Floors));
    assert_eq!(out, [[7; 2]; 6]);
}

#[test]
fn parts_hand_back_the_walk() {
    let mut out = [[7; 2]; 3];
    let begun = Walk::begin(SQUARE, TRIANGLE).expect("both are shapes");
    assert_eq!(begun, Walk::at(0, 0, false));
    let part = begun
        .part(SQUARE, TRIANGLE, 2, &mut out)
        .expect("there is room");
    assert_eq!((part.corners, part.floor), (&[[0, 0], [3, 0]][..], 2));
    assert_eq!(part.walk, Walk::at(2, 1, false));
    let part = part
        .walk
        .part(SQUARE, TRIANGLE, 9, &mut out)
        .expect("there is room");
    assert_eq!(part.corners, [[3, 2], [2, 3], [0, 3]]);
    assert!(part.walk.is_over());
    let none = part
        .walk
        .part(SQUARE, TRIANGLE, 9, &mut [])
        .expect("nothing is left");
    assert_eq!((none.corners.len(), none.walk.is_over()), (0, true));
    let nowhere = Walk::at(9, 0, false).part(SQUARE, TRIANGLE, 1, &mut []);
    assert_eq!(nowhere, Err(Refusal::NotAPlace));
}

#[test]
fn readings_are_exact() {
    let (x, y) = (Reading::Millimetres(3.0), Reading::Eighths(-16.0));
    assert_eq!(tablet(x, y), Ok([3, -2]));
    let axis = Axis::Y;
    assert_eq!(
        tablet(x, Reading::Eighths(4.0)),
        Err(Refusal::NotWhole { axis })
    );
    assert_eq!(
        tablet(x, Reading::Eighths(f64::NAN)),
        Err(Refusal::NotFinite { axis })
    );
    let far = Reading::Eighths(8_000_008.0);
    assert_eq!(tablet(x, far), Err(Refusal::FarReading { axis }));
}

/// Point 1 -1 named 7 on floor 258.
#[rustfmt::skip]
const RECORD: [u8; 17] = [15, 0, 2, 0, 7, 0, 2, 1, 1, 0, 0, 0, 255, 255, 255, 255, 0x5A];

/// The same from before there were floors.
const OLD: [u8; 15] = [13, 0, 1, 0, 7, 0, 1, 0, 0, 0, 255, 255, 255, 255, 0x5A];

#[test]
fn log_is_added_to_and_read() {
    let (mut log, mut out) = ([0; 18], [[3; 2]; 2]);
    let point = on(258, &[[1, -1]]);
    let mut book = Book::new(&mut log);
    assert_eq!(book.add(7, point, 16), Ok(Addition::Cut));
    assert_eq!(book.read(7, &mut out), Err(Refusal::NoRecord));
    assert_eq!(book.add(7, point, 36), Ok(Addition::Finished));
    assert_eq!(book.bytes(), [&RECORD[..], &[0]].concat());
    assert_eq!(book.read(7, &mut out), Ok(point));
    assert_eq!(book.add(7, point, 36), Err(Refusal::Full));
    assert_eq!(book.read(7, &mut []), Err(Refusal::Room));
    assert_eq!(out, [[1, -1], [3, 3]]);
    log[2] = 1;
    assert_eq!(
        log_read(&log, 7, &mut out),
        Err(Refusal::Damaged { place: 0 })
    );
}

#[test]
fn log_is_packed() {
    let old = [&RECORD[..], &OLD, &[13, 0, 1]].concat();
    let mut new = [9; 16];
    assert_eq!(log_pack(&old, &mut new, None, 15), Ok(Addition::Cut));
    assert_eq!(log_pack(&old, &mut new, None, 1), Ok(Addition::Finished));
    assert_eq!(new, [&OLD[..], &[0]].concat()[..]);
    assert_eq!(log_pack(&old, &mut new, None, 0), Ok(Addition::Finished));
    assert_eq!(log_pack(&old, &mut new[..14], None, 14), Err(Refusal::Full));
    assert_eq!(
        log_pack(&old, &mut new, Some(7), 16),
        Ok(Addition::Finished)
    );
    assert_eq!(new, [0; 16]);
    let mut bad = old;
    bad[17 + 2] = 3;
    let refused = Err(Refusal::Damaged { place: 17 });
    assert_eq!(log_pack(&bad, &mut [], None, 0), refused);
}

#[test]
fn log_has_neighbours_and_gaps() {
    let mut log = [0; 51];
    let mut book = Book::new(&mut log);
    for (name, x) in [(1, 0), (2, 5), (3, 9)] {
        let point = [[x, 0]];
        assert_eq!(book.add(name, on(3, &point), 99), Ok(Addition::Finished));
    }
    let near = |place: [i32; 2], but| {
        let found = book.nearest(on(3, &[place]), but)?;
        Ok::<_, Refusal>((found.name, found.rounded(), found.floor))
    };
    assert_eq!(near([2, 0], None), Ok((1, 2, 3)));
    assert_eq!(near([2, 0], Some(1)), Ok((2, 3, 3)));
    assert_eq!(near([7, 0], None), Ok((2, 2, 3)));
    assert_eq!(near([9, 0], None), Ok((3, 0, 3)));
    assert_eq!(book.nearest(on(4, &[[0, 0]]), None), Err(Refusal::TooFew));
    assert_eq!(
        book.nearest(on(1 << 16, &[[0, 0]]), None),
        Err(Refusal::Floors)
    );
    let narrow = |cart: &[[i32; 2]]| {
        let found = book.gap(on(3, cart))?;
        Ok::<_, Refusal>((found.names, found.rounded(), found.nearest.is_some()))
    };
    assert_eq!(narrow(&[[0, 0]]), Ok(([2, 3], 4, true)));
    assert_eq!(narrow(&[[0, 0], [4, 0]]), Ok(([2, 3], 0, false)));
    assert_eq!(narrow(&[[0, 0], [5, 0]]), Ok(([1, 2], 0, false)));
    assert_eq!(narrow(&[[-999_996, 0]]), Err(Refusal::FarAnswer));
    assert_eq!(book.gap(on(4, &[[0, 0]])), Err(Refusal::TooFew));
}

#[test]
fn drives_meet_obstacles() {
    let (wall, cart) = (on(2, &[[6, -5], [6, 5]]), on(2, &[[0, 0], [2, 0]]));
    let met = |from, to| {
        let answer = contact(wall, cart, from, to)?;
        let told = |m: cocklesway::Meeting| [m.numerator, m.denominator, m.safe];
        Ok::<_, Refusal>(answer.meeting.map(told))
    };
    assert_eq!(met([0, 0], [3, 0]), Ok(None));
    assert_eq!(met([0, 0], [4, 0]), Ok(Some([1, 1, 4])));
    assert_eq!(met([0, 0], [7, 0]), Ok(Some([4, 7, 4])));
    assert_eq!(met([5, 0], [9, 0]), Ok(Some([0, 1, 0])));
    assert_eq!(met([0, 6], [9, 6]), Ok(None));
    let shape = Which::Third;
    assert_eq!(met([-1_000_001, 0], [9, 6]), Err(Refusal::Range { shape }));
    let shape = Which::Fourth;
    assert_eq!(met([0, 0], [0, 1_000_001]), Err(Refusal::Range { shape }));
    let upstairs = on(3, &[[0, 0]]);
    assert_eq!(
        contact(wall, upstairs, [0, 0], [1, 0]),
        Err(Refusal::Floors)
    );
}

#[test]
fn drives_meet_the_shapes_of_a_log() {
    let mut log = [0; 51];
    let mut book = Book::new(&mut log);
    for (name, x) in [(1, 9), (2, 5), (3, 5)] {
        let point = [[x, 0]];
        assert_eq!(book.add(name, on(3, &point), 99), Ok(Addition::Finished));
    }
    let met = |cart: &[[i32; 2]], from, to| {
        let answer = book.contact(on(3, cart), from, to)?;
        let told = |(name, m): (u16, cocklesway::Meeting)| {
            (name, [m.numerator, m.denominator, m.safe], answer.floor)
        };
        Ok::<_, Refusal>(answer.first.map(told))
    };
    let (point, front) = ([[0, 0]], [[0, -9], [0, 9]]);
    assert_eq!(met(&point, [0, 0], [10, 0]), Ok(Some((2, [1, 2, 5], 3))));
    assert_eq!(met(&point, [12, 0], [6, 0]), Ok(Some((1, [1, 2, 3], 3))));
    assert_eq!(met(&front, [1, 4], [5, 4]), Ok(Some((2, [1, 1, 4], 3))));
    assert_eq!(met(&point, [6, 0], [8, 0]), Ok(None));
    let shape = Which::Second;
    let far = [1_000_001, 0];
    assert_eq!(met(&point, far, far), Err(Refusal::Range { shape }));
    let shape = Which::Third;
    assert_eq!(met(&point, [0, 0], far), Err(Refusal::Range { shape }));
    let cart = [[-999_995, 0]];
    assert_eq!(met(&cart, [0, 0], [0, 0]), Err(Refusal::FarAnswer));
    let upstairs = on(4, &point);
    assert_eq!(
        log_contact(book.bytes(), upstairs, far, far),
        Err(Refusal::TooFew)
    );
    assert_eq!(
        book.contact(on(1 << 16, &point), far, far),
        Err(Refusal::Floors)
    );
}

#[test]
fn log_has_records_of_both_kinds() {
    let mut log = [&RECORD[..], &OLD].concat();
    assert_eq!(log_read(&log, 7, &mut [[0; 2]]), Ok(on(0, &[[1, -1]])));
    log[17 + 2] = 3;
    assert_eq!(
        log_read(&log, 7, &mut [[0; 2]]),
        Err(Refusal::Damaged { place: 17 })
    );
}
