//! What the package answers, as numbers.
use super::{MOST_VALUES, Numbers};
use cocklesway::{
    Across, Addition, Area, Beyond, Clearance, Contact, Corners, Drive, Excess, Furthest, Gap,
    Greatest, Inside, LeastBox, Length, Nearest, Neighbour, Offer, Part, Passage, Refusal,
    Separator, Shape, Standing, Tangents, Walk, Width,
};

impl From<Refusal> for Numbers {
    fn from(refusal: Refusal) -> Numbers {
        let shape = refusal.shape().map_or(0, |shape| 1 + shape as u64);
        match refusal {
            Refusal::NotFinite { axis }
            | Refusal::NotWhole { axis }
            | Refusal::FarReading { axis } => Numbers::blamed(refusal.number(), 1 + axis as u64),
            Refusal::Side { edge, corner, .. } => Numbers::broken(shape, edge, corner),
            Refusal::NotConvex { before, corner } => Numbers::broken(shape, before, corner),
            Refusal::Damaged { place } => Numbers::damaged(place),
            _ => Numbers::blamed(refusal.number(), shape),
        }
    }
}

impl From<[i32; 2]> for Numbers {
    fn from(corner: [i32; 2]) -> Numbers {
        Numbers::all(corner.map(|z| z as u64))
    }
}

impl From<Corners> for Numbers {
    fn from(r: Corners) -> Numbers {
        Numbers::one(r.count as u64, r.floor)
    }
}

impl From<Shape<'_>> for Numbers {
    fn from(r: Shape<'_>) -> Numbers {
        Numbers::one(r.corners.len() as u64, r.floor)
    }
}

impl From<(u16, Shape<'_>)> for Numbers {
    fn from((name, r): (u16, Shape<'_>)) -> Numbers {
        Numbers::all([r.corners.len() as u64, name.into(), r.floor.into()])
    }
}

impl From<Furthest> for Numbers {
    fn from(r: Furthest) -> Numbers {
        let (first, last) = (r.first as u64, r.last as u64);
        Numbers::all([first, last, r.value as u64, r.floor.into()])
    }
}

impl From<Length> for Numbers {
    fn from(r: Length) -> Numbers {
        Numbers::all([r.squared, r.from as u64, r.to as u64, r.floor.into()])
    }
}

impl From<Area> for Numbers {
    fn from(r: Area) -> Numbers {
        Numbers::all([r.twice, r.floor.into()])
    }
}

impl From<Width> for Numbers {
    fn from(r: Width) -> Numbers {
        let (edge, corner) = (r.edge as u64, r.corner as u64);
        Numbers::all([edge, corner, r.turn, r.squared, r.rounded, r.floor.into()])
    }
}

impl From<LeastBox> for Numbers {
    fn from(r: LeastBox) -> Numbers {
        let edge = r.edge as u64;
        Numbers::all([edge, r.height, r.along, r.squared, r.floor.into()])
    }
}

impl From<Greatest> for Numbers {
    fn from(r: Greatest) -> Numbers {
        let (first, second) = (r.first as u64, r.second as u64);
        Numbers::all([r.squared, first, second, r.floor.into()])
    }
}

impl From<Standing> for Numbers {
    fn from(r: Standing) -> Numbers {
        Numbers::one(r.relation as u64, r.floor)
    }
}

impl From<Inside> for Numbers {
    fn from(r: Inside) -> Numbers {
        Numbers::one(r.within as u64, r.floor)
    }
}

impl From<Offer> for Numbers {
    fn from(r: Offer) -> Numbers {
        Numbers::one(r.accepted as u64, r.floor)
    }
}

impl From<Passage> for Numbers {
    fn from(r: Passage) -> Numbers {
        let Some(way) = r.way else {
            return Numbers::one(0, r.floor);
        };
        let [u, v] = way.across.map(|z| z as u64);
        let (low, high) = (way.low as u64, way.high as u64);
        Numbers::all([1, u, v, low, high, way.width, r.floor.into()])
    }
}

impl From<Contact> for Numbers {
    fn from(r: Contact) -> Numbers {
        let Some(meeting) = r.meeting else {
            return Numbers::one(0, r.floor);
        };
        let (n, d) = (meeting.numerator, meeting.denominator);
        Numbers::all([1, n, d, meeting.safe, r.floor.into()])
    }
}

impl From<Drive> for Numbers {
    fn from(r: Drive) -> Numbers {
        let Some((name, meeting)) = r.first else {
            return Numbers::one(0, r.floor);
        };
        let (n, d) = (meeting.numerator, meeting.denominator);
        Numbers::all([1, name.into(), n, d, meeting.safe, r.floor.into()])
    }
}

impl From<Separator> for Numbers {
    fn from(r: Separator) -> Numbers {
        Numbers::found(r.direction, r.floor)
    }
}

impl From<Clearance> for Numbers {
    fn from(r: Clearance) -> Numbers {
        Numbers::nearest(r.nearest, r.floor)
    }
}

impl From<Neighbour> for Numbers {
    fn from(r: Neighbour) -> Numbers {
        Numbers::nearest(r.nearest, r.floor).named([r.name])
    }
}

impl From<Gap> for Numbers {
    fn from(r: Gap) -> Numbers {
        Numbers::nearest(r.nearest, r.floor).named(r.names)
    }
}

impl Numbers {
    /// Where two shapes are nearest, if they are apart.
    fn nearest(nearest: Option<Nearest>, on: u32) -> Numbers {
        let floor = on.into();
        match nearest {
            None => Numbers::one(0, on),
            Some(Nearest::Corners {
                first,
                second,
                squared,
                rounded,
            }) => Numbers::all([1, first as u64, second as u64, squared, rounded, floor]),
            Some(Nearest::CornerEdge(across)) => Numbers::across(2, across, floor),
            Some(Nearest::EdgeCorner(across)) => Numbers::across(3, across, floor),
        }
    }

    /// A corner of one shape and an edge of the other.
    fn across(kind: u64, r: Across, floor: u64) -> Numbers {
        let (corner, edge) = (r.corner as u64, r.edge as u64);
        Numbers::all([kind, corner, edge, r.turn, r.squared, r.rounded, floor])
    }
}

impl From<Excess> for Numbers {
    fn from(r: Excess) -> Numbers {
        let floor = r.floor.into();
        match r.beyond {
            None => Numbers::one(0, r.floor),
            Some(Beyond::Corners {
                corner,
                other,
                squared,
                up,
            }) => Numbers::all([1, corner as u64, other as u64, squared, up, floor]),
            Some(Beyond::Edge {
                corner,
                edge,
                turn,
                squared,
                up,
            }) => Numbers::all([2, corner as u64, edge as u64, turn, squared, up, floor]),
        }
    }
}

impl From<Tangents> for Numbers {
    fn from(r: Tangents) -> Numbers {
        let ends = [r.left, r.right, r.crossing, r.reverse].map(|line| [line.from, line.to]);
        let mut values = [r.floor.into(); MOST_VALUES];
        for (value, end) in values.iter_mut().zip(ends.as_flattened()) {
            *value = *end as u64;
        }
        Numbers::all(values)
    }
}

impl From<Walk> for Numbers {
    fn from(r: Walk) -> Numbers {
        Numbers::all([r.first() as u64, r.second() as u64, r.is_over().into()])
    }
}

impl From<Part<'_>> for Numbers {
    fn from(r: Part<'_>) -> Numbers {
        let [first, second, over, ..] = Numbers::from(r.walk).values;
        Numbers::all([r.corners.len() as u64, first, second, over, r.floor.into()])
    }
}

impl From<Addition> for Numbers {
    fn from(r: Addition) -> Numbers {
        Numbers::all([(r == Addition::Finished).into()])
    }
}
