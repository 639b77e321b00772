//! One function for each question on shapes.
use crate::archive;
use crate::reply::{coordinate, narrow, position};
use crate::{
    Area, Beyond, Clearance, Contact, Corners, Excess, Furthest, Greatest, Inside, LeastBox,
    Length, Line, Meeting, Nearest, Offer, Passage, Refusal, Relation, Separator, Shape, Standing,
    Tangents, Way, Width,
};

/// Returns how many corners the shape has.
///
/// # Errors
/// Refused: 1 to 5, 13.
///
/// ```
/// use cocklesway::{Refusal, Shape, Which, judge};
///
/// assert_eq!(judge(Shape::new(&[[0, 0], [2, 0], [2, 2], [0, 2]], 3))?.count, 4);
///
/// let star = Shape::new(&[[0, 0], [5, 4], [-1, 4], [4, 0], [2, 6]], 3);
/// let broken = Refusal::Side { shape: Which::First, edge: 0, corner: 3 };
/// assert_eq!(judge(star), Err(broken));
///
/// assert_eq!(judge(Shape::new(&[[0, 0]], 65_536)), Err(Refusal::Floors));
/// # Ok::<(), Refusal>(())
/// ```
#[inline]
pub fn judge(shape: Shape<'_>) -> Result<Corners, Refusal> {
    let [count, floor, ..] = archive::judge(shape).values()?;
    Ok(Corners {
        count: position(count),
        floor: narrow(floor),
    })
}

/// Returns the corners that are furthest in a direction, the first and the last counterclockwise, and their value.
/// A single furthest corner is both. Both corners of a segment across the direction are 0 and 1.
///
/// Directions must be in lowest terms: `[1, 2]`, not `[2, 4]`.
///
/// # Errors
/// Refused: 1 to 5, 13, 11, 12.
///
/// ```
/// use cocklesway::{Refusal, Shape, furthest};
///
/// let square = Shape::new(&[[0, 0], [2, 0], [2, 2], [0, 2]], 0);
/// let answer = furthest(square, [-1, 0])?;
/// assert_eq!((answer.first, answer.last, answer.value), (3, 0, 0));
/// assert_eq!(furthest(square, [0, 5]), Err(Refusal::NotPrimitive));
/// # Ok::<(), Refusal>(())
/// ```
#[inline]
pub fn furthest(shape: Shape<'_>, direction: [i32; 2]) -> Result<Furthest, Refusal> {
    let [first, last, value, floor, ..] = archive::furthest(shape, direction).values()?;
    Ok(Furthest {
        first: position(first),
        last: position(last),
        value: value.cast_signed(),
        floor: narrow(floor),
    })
}

/// Writes the shape of all (-x, -y) at the front of the output and returns it. The rest of the output is kept.
///
/// # Errors
/// Refused, with the output as it was: 1 to 5, 13, 8.
///
/// ```
/// use cocklesway::{Refusal, Shape, mirror};
///
/// let triangle = Shape::new(&[[0, 0], [1, 0], [0, 1]], 2);
/// let mut out = [[7; 2]; 4];
/// let mirrored = mirror(triangle, &mut out)?;
/// assert_eq!(mirrored, Shape::new(&[[0, -1], [0, 0], [-1, 0]], 2));
/// assert_eq!(out[3], [7, 7]);
/// # Ok::<(), Refusal>(())
/// ```
#[inline]
pub fn mirror<'o>(shape: Shape<'_>, out: &'o mut [[i32; 2]]) -> Result<Shape<'o>, Refusal> {
    archive::mirror(shape, out.as_flattened_mut()).written(out)
}

/// Writes the shape of all corner-plus-corner points at the front of the output and returns it. The rest of the
/// output is kept.
///
/// # Errors
/// Refused, with the output as it was: 1 to 5 of the first list, then of the second, 13, 6, 7, 8.
///
/// ```
/// use cocklesway::{Refusal, Shape, sum};
///
/// let square = Shape::new(&[[0, 0], [2, 0], [2, 2], [0, 2]], 3);
/// let triangle = Shape::new(&[[0, 0], [1, 0], [0, 1]], 3);
/// let mut out = [[0; 2]; 8];
/// let answer = sum(square, triangle, &mut out)?;
/// assert_eq!(answer, Shape::new(&[[0, 0], [3, 0], [3, 2], [2, 3], [0, 3]], 3));
///
/// assert_eq!(sum(square, triangle, &mut out[..4]), Err(Refusal::Room));
/// # Ok::<(), Refusal>(())
/// ```
#[inline]
pub fn sum<'o>(a: Shape<'_>, b: Shape<'_>, out: &'o mut [[i32; 2]]) -> Result<Shape<'o>, Refusal> {
    archive::sum(a, b, out.as_flattened_mut()).written(out)
}

/// Writes the shape of both corner lists together at the front of the output and returns it. The rest of the
/// output is kept.
///
/// # Errors
/// Refused, with the output as it was: 1 to 5 of the first list, then of the second, 13, 6, 8.
///
/// ```
/// use cocklesway::{Shape, merge};
///
/// let square = Shape::new(&[[0, 0], [2, 0], [2, 2], [0, 2]], 1);
/// let mut out = [[0; 2]; 5];
/// let answer = merge(square, Shape::new(&[[5, 1]], 1), &mut out)?;
/// assert_eq!(answer.corners, [[0, 0], [2, 0], [5, 1], [2, 2], [0, 2]]);
/// # Ok::<(), cocklesway::Refusal>(())
/// ```
#[inline]
pub fn merge<'o>(
    a: Shape<'_>,
    b: Shape<'_>,
    out: &'o mut [[i32; 2]],
) -> Result<Shape<'o>, Refusal> {
    archive::merge(a, b, out.as_flattened_mut()).written(out)
}

/// Writes the shape of all obstacle-corner minus cart-corner points at the front of the output and returns it. The
/// rest of the output is kept. A cart at a place is to the obstacle as the place is to this shape.
///
/// # Errors
/// Refused, with the output as it was: 1 to 5 of the obstacle, then of the cart, 13, 6, 7, 8.
///
/// ```
/// use cocklesway::{Relation, Shape, grow, relation};
///
/// let bed = Shape::new(&[[-1000, -450], [1000, -450], [1000, 450], [-1000, 450]], 0);
/// let cart = Shape::new(&[[-200, -250], [300, -250], [500, 0], [300, 250], [-200, 250]], 0);
/// let mut out = [[0; 2]; 16];
/// let grown = grow(bed, cart, &mut out)?;
/// let place = Shape::new(&[[-1550, 0]], 0);
/// assert_eq!(relation(place, grown)?.relation, Relation::Apart);
/// # Ok::<(), cocklesway::Refusal>(())
/// ```
#[inline]
pub fn grow<'o>(
    obstacle: Shape<'_>,
    cart: Shape<'_>,
    out: &'o mut [[i32; 2]],
) -> Result<Shape<'o>, Refusal> {
    archive::grow(obstacle, cart, out.as_flattened_mut()).written(out)
}

/// Writes the shape of a set of points at the front of the output and returns it. The rest of the output is kept.
/// The points may be in any order, repeated, and in line.
///
/// # Errors
/// Refused, with the output as it was: 1 to 3, 13, 8.
///
/// ```
/// use cocklesway::{Shape, sweep};
///
/// let points = Shape::new(&[[2, 2], [1, 0], [0, 2], [1, 1], [2, 2], [2, 0], [0, 0]], 1);
/// let mut out = [[0; 2]; 8];
/// assert_eq!(sweep(points, &mut out)?.corners, [[0, 0], [2, 0], [2, 2], [0, 2]]);
/// # Ok::<(), cocklesway::Refusal>(())
/// ```
#[inline]
pub fn sweep<'o>(points: Shape<'_>, out: &'o mut [[i32; 2]]) -> Result<Shape<'o>, Refusal> {
    archive::sweep(points, out.as_flattened_mut()).written(out)
}

/// Writes the shape of a ring at the front of the output and returns it. The rest of the output is kept. The points of
/// a ring are the corners of a shape on the way round, as people draw it:
/// - clockwise or counterclockwise, from any corner;
/// - closed by the first point again, or open;
/// - with equal neighbours, and with points in line.
///
/// # Errors
/// Refused, with the output as it was: 1; 2, where the closing point does not count; 3; 13; 4 if the ring is not
/// convex, with the corner before and the corner at which it turns in or begins to go round again; 8.
///
/// ```
/// use cocklesway::{Refusal, Shape, ring};
///
/// let clockwise = Shape::new(&[[2, 2], [2, 1], [2, 0], [0, 0], [0, 2], [2, 2]], 1);
/// let mut out = [[0; 2]; 8];
/// assert_eq!(ring(clockwise, &mut out)?.corners, [[0, 0], [2, 0], [2, 2], [0, 2]]);
///
/// let dented = Shape::new(&[[0, 0], [4, 0], [1, 1], [0, 4]], 1);
/// assert!(matches!(ring(dented, &mut out), Err(Refusal::NotConvex { .. })));
/// # Ok::<(), Refusal>(())
/// ```
#[inline]
pub fn ring<'o>(points: Shape<'_>, out: &'o mut [[i32; 2]]) -> Result<Shape<'o>, Refusal> {
    let reply = archive::ring(points, out.as_flattened_mut());
    reply.written(out).map_err(Refusal::of_ring)
}

/// Returns the greatest squared distance of two corners, and their positions.
///
/// # Errors
/// Refused: 1 to 5, 13.
///
/// ```
/// use cocklesway::{Shape, length};
///
/// assert_eq!(length(Shape::new(&[[0, 0], [4, 0], [0, 3]], 0))?.squared, 25);
/// # Ok::<(), cocklesway::Refusal>(())
/// ```
#[inline]
pub fn length(shape: Shape<'_>) -> Result<Length, Refusal> {
    let [squared, from, to, floor, ..] = archive::length(shape).values()?;
    Ok(Length {
        squared,
        from: position(from),
        to: position(to),
        floor: narrow(floor),
    })
}

/// Returns twice the area: 0 for a point and a segment. A shape that lost a corner has less.
///
/// # Errors
/// Refused: 1 to 5, 13.
///
/// ```
/// use cocklesway::{Shape, area};
///
/// let bed = Shape::new(&[[0, 0], [2000, 0], [2000, 900], [0, 900]], 3);
/// let lost = Shape::new(&[[0, 0], [2000, 0], [0, 900]], 3);
/// assert_eq!(area(bed)?.twice, 2 * 2000 * 900);
/// assert!(area(lost)?.twice < area(bed)?.twice);
/// # Ok::<(), cocklesway::Refusal>(())
/// ```
#[inline]
pub fn area(shape: Shape<'_>) -> Result<Area, Refusal> {
    let [twice, floor, ..] = archive::area(shape).values()?;
    Ok(Area {
        twice,
        floor: narrow(floor),
    })
}

/// Returns where the shape is narrowest, and how wide it is there.
///
/// # Errors
/// Refused: 1 to 5, 13, 10.
///
/// ```
/// use cocklesway::{Refusal, Shape, width};
///
/// assert_eq!(width(Shape::new(&[[0, 0], [4, 0], [0, 3]], 0))?.rounded, 2);
/// assert_eq!(width(Shape::new(&[[0, 0], [4, 0]], 0)), Err(Refusal::Flat));
/// # Ok::<(), Refusal>(())
/// ```
#[inline]
pub fn width(shape: Shape<'_>) -> Result<Width, Refusal> {
    let [edge, corner, turn, squared, rounded, floor, ..] = archive::width(shape).values()?;
    Ok(Width {
        edge: position(edge),
        corner: position(corner),
        turn,
        squared,
        rounded,
        floor: narrow(floor),
    })
}

/// Returns the least box about the shape, by perimeter: along which edge it lies, the first of several, and its sides.
///
/// # Errors
/// Refused: 1 to 5, 13, 10.
///
/// ```
/// use cocklesway::{Refusal, Shape, least_box};
///
/// let tilted = least_box(Shape::new(&[[0, 0], [3, 1], [2, 4], [-1, 3]], 0))?;
/// assert_eq!((tilted.edge, tilted.height, tilted.along, tilted.squared), (0, 10, 10, 10));
/// assert_eq!(least_box(Shape::new(&[[0, 0], [4, 0]], 0)), Err(Refusal::Flat));
/// # Ok::<(), Refusal>(())
/// ```
#[inline]
pub fn least_box(shape: Shape<'_>) -> Result<LeastBox, Refusal> {
    let [edge, height, along, squared, floor, ..] = archive::least_box(shape).values()?;
    Ok(LeastBox {
        edge: position(edge),
        height,
        along,
        squared,
        floor: narrow(floor),
    })
}

/// Returns whether the shapes are apart, touching or overlapping.
///
/// # Errors
/// Refused: 1 to 5 of the first list, then of the second, 13.
///
/// ```
/// use cocklesway::{Relation, Shape, relation};
///
/// let square = Shape::new(&[[0, 0], [2, 0], [2, 2], [0, 2]], 0);
/// let relation_of = |x, y| relation(square, Shape::new(&[[x, y]], 0)).map(|r| r.relation);
/// assert_eq!(relation_of(3, 1), Ok(Relation::Apart));
/// assert_eq!(relation_of(2, 1), Ok(Relation::Touching));
/// assert_eq!(relation_of(1, 1), Ok(Relation::Overlapping));
/// ```
#[inline]
pub fn relation(a: Shape<'_>, b: Shape<'_>) -> Result<Standing, Refusal> {
    let [relation, floor, ..] = archive::relation(a, b).values()?;
    Ok(Standing {
        relation: Relation::of(relation),
        floor: narrow(floor),
    })
}

/// Returns whether the first shape is inside the second.
///
/// # Errors
/// Refused: 1 to 5 of the first list, then of the second, 13.
///
/// ```
/// use cocklesway::{Shape, inside};
///
/// let square = Shape::new(&[[0, 0], [2, 0], [2, 2], [0, 2]], 0);
/// assert!(inside(square, square)?.within);
/// assert!(!inside(square, Shape::new(&[[1, 1]], 0))?.within);
/// # Ok::<(), cocklesway::Refusal>(())
/// ```
#[inline]
pub fn inside(a: Shape<'_>, b: Shape<'_>) -> Result<Inside, Refusal> {
    let [within, floor, ..] = archive::inside(a, b).values()?;
    Ok(Inside {
        within: within == 1,
        floor: narrow(floor),
    })
}

/// Returns whether a direction u v is accepted as the reason that the shapes are apart: whether every corner of the
/// first has a strictly lesser u·x + v·y than every corner of the second. If it is not, they may be apart all the
/// same; [`find`] knows.
///
/// Directions must be in lowest terms: `[1, 2]`, not `[2, 4]`.
///
/// # Errors
/// Refused: 1 to 5 of the first list, then of the second, 13, 11, 12.
///
/// ```
/// use cocklesway::{Refusal, Shape, offer};
///
/// let square = Shape::new(&[[0, 0], [2, 0], [2, 2], [0, 2]], 0);
/// let beside = Shape::new(&[[3, 1]], 0);
/// assert!(offer(square, beside, [1, 0])?.accepted);
/// assert!(!offer(square, beside, [0, 1])?.accepted);
/// assert_eq!(offer(square, beside, [0, 0]), Err(Refusal::Direction));
/// # Ok::<(), Refusal>(())
/// ```
#[inline]
pub fn offer(a: Shape<'_>, b: Shape<'_>, direction: [i32; 2]) -> Result<Offer, Refusal> {
    let [accepted, floor, ..] = archive::offer(a, b, direction).values()?;
    Ok(Offer {
        accepted: accepted == 1,
        floor: narrow(floor),
    })
}

/// Returns a direction that is accepted as the reason that the shapes are apart, or nothing if they are not. Which
/// of several it is, is left open.
///
/// # Errors
/// Refused: 1 to 5 of the first list, then of the second, 13.
///
/// ```
/// use cocklesway::{Shape, find, offer};
///
/// let (a, b) = (Shape::new(&[[0, 0]], 0), Shape::new(&[[3, 1]], 0));
/// let direction = find(a, b)?.direction.expect("they are apart");
/// assert!(offer(a, b, direction)?.accepted);
/// # Ok::<(), cocklesway::Refusal>(())
/// ```
#[inline]
pub fn find(a: Shape<'_>, b: Shape<'_>) -> Result<Separator, Refusal> {
    Ok(match archive::find(a, b).values()? {
        [1, u, v, floor, ..] => Separator {
            direction: Some([coordinate(u), coordinate(v)]),
            floor: narrow(floor),
        },
        [_, floor, ..] => Separator {
            direction: None,
            floor: narrow(floor),
        },
    })
}

/// Returns where the shapes are nearest, and how near. Of several places that are as near, two corners go first,
/// then a corner of the first shape, then one of the second, each with the smallest positions.
///
/// # Errors
/// Refused: 1 to 5 of the first list, then of the second, 13.
///
/// ```
/// use cocklesway::{Nearest, Shape, clearance};
///
/// let square = Shape::new(&[[0, 0], [2, 0], [2, 2], [0, 2]], 0);
/// let answer = clearance(square, Shape::new(&[[5, 6]], 0))?;
/// let corners = Nearest::Corners { first: 2, second: 0, squared: 25, rounded: 5 };
/// assert_eq!(answer.nearest, Some(corners));
/// # Ok::<(), cocklesway::Refusal>(())
/// ```
#[inline]
pub fn clearance(a: Shape<'_>, b: Shape<'_>) -> Result<Clearance, Refusal> {
    let [values @ .., _, _] = archive::clearance(a, b).values()?;
    let (nearest, floor) = Nearest::of(values);
    Ok(Clearance { nearest, floor })
}

/// Returns the greatest squared distance of a corner of the first shape and a corner of the second, and their
/// positions: the smallest first one of several, then the smallest second. No two points of the shapes are further
/// apart.
///
/// # Errors
/// Refused: 1 to 5 of the first list, then of the second, 13.
///
/// ```
/// use cocklesway::{Shape, greatest};
///
/// let square = Shape::new(&[[0, 0], [2, 0], [2, 2], [0, 2]], 0);
/// let answer = greatest(square, Shape::new(&[[3, 1]], 0))?;
/// assert_eq!((answer.squared, answer.first, answer.second), (10, 0, 0));
/// # Ok::<(), cocklesway::Refusal>(())
/// ```
#[inline]
pub fn greatest(a: Shape<'_>, b: Shape<'_>) -> Result<Greatest, Refusal> {
    let [squared, first, second, floor, ..] = archive::greatest(a, b).values()?;
    Ok(Greatest {
        squared,
        first: position(first),
        second: position(second),
        floor: narrow(floor),
    })
}

/// Returns how far the new shape reaches beyond the old one: the corner that is furthest from the old shape, the
/// smallest position of several, and the distance rounded up.
///
/// # Errors
/// Refused: 1 to 5 of the new list, then of the old one, 13.
///
/// ```
/// use cocklesway::{Beyond, Shape, excess};
///
/// let old = Shape::new(&[[0, 0], [10, 0], [10, 10], [0, 10]], 3);
/// let new = Shape::new(&[[3, 0], [13, 0], [13, 10], [3, 10]], 3);
/// let corners = Beyond::Corners { corner: 1, other: 1, squared: 9, up: 3 };
/// assert_eq!(excess(new, old)?.beyond, Some(corners));
/// # Ok::<(), cocklesway::Refusal>(())
/// ```
#[inline]
pub fn excess(new: Shape<'_>, old: Shape<'_>) -> Result<Excess, Refusal> {
    let (beyond, floor) = match archive::excess(new, old).values()? {
        [0, floor, ..] => (None, floor),
        [1, corner, other, squared, up, floor, ..] => {
            let corners = Beyond::Corners {
                corner: position(corner),
                other: position(other),
                squared,
                up,
            };
            (Some(corners), floor)
        }
        [_, corner, edge, turn, squared, up, floor, ..] => {
            let edge = Beyond::Edge {
                corner: position(corner),
                edge: position(edge),
                turn,
                squared,
                up,
            };
            (Some(edge), floor)
        }
    };
    let floor = narrow(floor);
    Ok(Excess { beyond, floor })
}

/// Returns whether a cart may pass straight between two obstacles, without turning, and how. The corners of its outline
/// are relative to its own origin. A cart that would touch both obstacles is blocked.
///
/// # Errors
/// Refused: 1 to 5 of the first list, of the second, of the third, 13 unless all are on one floor, then 6 and 7 of the
/// left obstacle grown by the cart, then of the right one.
///
/// ```
/// use cocklesway::{Shape, passage};
///
/// let bed = Shape::new(&[[-1000, -450], [1000, -450], [1000, 450], [-1000, 450]], 2);
/// let wall = Shape::new(&[[-1000, 1050], [1000, 1050]], 2);
/// let lengthwise = Shape::new(&[[-450, -250], [450, -250], [450, 250], [-450, 250]], 2);
/// assert_eq!(passage(wall, bed, lengthwise)?.way.map(|way| way.width), Some(100));
///
/// let crosswise = Shape::new(&[[-250, -450], [250, -450], [250, 450], [-250, 450]], 2);
/// assert_eq!(passage(wall, bed, crosswise)?.way, None);
/// # Ok::<(), cocklesway::Refusal>(())
/// ```
#[inline]
pub fn passage(left: Shape<'_>, right: Shape<'_>, cart: Shape<'_>) -> Result<Passage, Refusal> {
    Ok(match archive::passage(left, right, cart).values()? {
        [0, floor, ..] => Passage {
            way: None,
            floor: narrow(floor),
        },
        [_, u, v, low, high, width, floor, ..] => Passage {
            way: Some(Way {
                across: [coordinate(u), coordinate(v)],
                low: low.cast_signed(),
                high: high.cast_signed(),
                width,
            }),
            floor: narrow(floor),
        },
    })
}

/// Returns where a cart that drives straight, without turning, first meets an obstacle. The corners of its outline are
/// relative to its own origin, which goes from the one place to the other; both may be the same. Touching is meeting.
///
/// # Errors
/// Refused: 1 to 5 of the obstacle, then of the cart, 13, 3 of a place, which is the third or fourth list, then 6 and 7
/// of the obstacle grown by the cart.
///
/// ```
/// use cocklesway::{Refusal, Shape, Which, contact};
///
/// let bed = Shape::new(&[[2000, 0], [4000, 0], [4000, 900], [2000, 900]], 2);
/// let cart = Shape::new(&[[-450, -250], [450, -250], [450, 250], [-450, 250]], 2);
/// let meeting = contact(bed, cart, [0, 300], [3100, 300])?.meeting.expect("the bed is ahead");
/// assert_eq!((meeting.numerator, meeting.denominator, meeting.safe), (1, 2, 1550));
/// assert_eq!(contact(bed, cart, [0, -300], [3100, -300])?.meeting, None);
///
/// let far = contact(bed, cart, [0, 0], [0, 1_000_001]);
/// assert_eq!(far, Err(Refusal::Range { shape: Which::Fourth }));
/// # Ok::<(), Refusal>(())
/// ```
#[inline]
pub fn contact(
    obstacle: Shape<'_>,
    cart: Shape<'_>,
    from: [i32; 2],
    to: [i32; 2],
) -> Result<Contact, Refusal> {
    Ok(match archive::contact(obstacle, cart, from, to).values()? {
        [0, floor, ..] => Contact {
            meeting: None,
            floor: narrow(floor),
        },
        [_, numerator, denominator, safe, floor, ..] => Contact {
            meeting: Some(Meeting {
                numerator,
                denominator,
                safe,
            }),
            floor: narrow(floor),
        },
    })
}

/// Returns the four lines that just touch both shapes.
///
/// # Errors
/// Refused: 1 to 5 of the first list, then of the second, 13, 9.
///
/// ```
/// use cocklesway::{Refusal, Shape, tangents};
///
/// let near = Shape::new(&[[0, 0], [2, 0], [2, 2], [0, 2]], 0);
/// let far = Shape::new(&[[5, 0], [7, 0], [7, 2], [5, 2]], 0);
/// let below = tangents(near, far)?.left;
/// assert_eq!((below.from, below.to), (1, 0));
/// assert_eq!(tangents(near, near), Err(Refusal::NotApart));
/// # Ok::<(), Refusal>(())
/// ```
#[inline]
pub fn tangents(a: Shape<'_>, b: Shape<'_>) -> Result<Tangents, Refusal> {
    let [a0, b0, a1, b1, a2, b2, a3, b3, floor] = archive::tangents(a, b).values()?;
    let line = |from, to| Line {
        from: position(from),
        to: position(to),
    };
    Ok(Tangents {
        left: line(a0, b0),
        right: line(a1, b1),
        crossing: line(a2, b2),
        reverse: line(a3, b3),
        floor: narrow(floor),
    })
}
