//! The first shape of a floor that a drive meets: each current one whose grown box the way enters before what was found
//! is walked.
use super::contact::{Way, grown_box, is_less, places, told};
use super::corner::Corner;
use super::extent::extent;
use super::judge::{MOST, Shape, admitted, some_outside};
use super::log::{Record, current, survey};
use super::sum::survey as grown;
use super::walk::Walk;
use crate::reply::Numbers;

/// The name of the first current shape on a floor that a cart meets on a straight drive, and where: 0; or 1, the name,
/// the fraction of the way, and the millimetres.
#[inline(never)]
pub fn log_contact(log: &[u8], cart: &[i32], floor: u32, from: Corner, to: Corner) -> Numbers {
    match asked(log, cart, floor, from, to) {
        Ok(told) | Err(told) => told,
    }
}

fn asked(
    log: &[u8],
    cart: &[i32],
    floor: u32,
    from: Corner,
    to: Corner,
) -> Result<Numbers, Numbers> {
    let cart = admitted(cart, floor)?;
    let mut records = Vec::new();
    survey(log, |record| records.push(record))?;
    let on_floor = current(&records).filter(|record| u32::from(record.floor) == floor);
    let on_floor: Vec<_> = on_floor.collect();
    if on_floor.is_empty() {
        return Err(Numbers::refused(20));
    }
    places(from, to, 2)?;
    let span = extent(cart);
    let mut buffer = [[0; 2]; MOST];
    let mut best = None;
    for record in on_floor.into_iter().rev() {
        let grown = grown_box(extent(record.shape), span);
        refuse(record, cart, grown, &mut buffer)?;
        let leave = best.map_or((1, 1), |(_, fraction)| fraction);
        let mut way = Way {
            leave,
            ..Way::WHOLE
        };
        if way.misses_box(grown, from, to) {
            continue;
        }
        let mut walk = Walk::of(record.read(&mut buffer), cart);
        if let Some(fraction) = way.meets_walls(&mut walk, from, to)
            && (best.is_none() || is_less(fraction, leave))
        {
            best = Some((record.name, fraction));
        }
    }
    Ok(match best {
        Some((name, fraction)) => {
            let [n, d, safe] = told(fraction, from, to);
            Numbers::all([1, name.into(), n, d, safe, floor.into()])
        }
        None => Numbers::one(0, floor),
    })
}

/// Refuses 6 or 7 of a shape that is grown by the cart. Few corners and what it spans tell that neither is due.
#[inline(always)]
fn refuse(
    record: &Record,
    cart: Shape,
    span: [Corner; 2],
    buffer: &mut [Corner; MOST],
) -> Result<(), Numbers> {
    let few = record.shape.corners.len() + cart.corners.len() <= MOST;
    if few && !some_outside(&span) {
        return Ok(());
    }
    let shape = record.read(buffer);
    grown::<_, true>(shape, cart).map_err(Numbers::refused)?;
    Ok(())
}
