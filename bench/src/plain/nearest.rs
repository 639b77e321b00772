//! The nearest shape of a floor: each current one whose box is not further off than what was found is walked.
use super::clearance::{between_shapes, distance};
use super::extent::{apart, extent};
use super::judge::{MOST, admitted};
use super::log::{current, survey};
use crate::reply::Numbers;

/// The name of the nearest current shape on a floor, but for a name, and what clearance answers of the two.
#[inline(never)]
pub fn log_nearest(log: &[u8], list: &[i32], floor: u32, but: Option<u16>) -> Numbers {
    match asked(log, list, floor, but) {
        Ok(told) | Err(told) => told,
    }
}

/// From the last record to the first: of those that are as near the first in the log is found last.
fn asked(log: &[u8], list: &[i32], floor: u32, but: Option<u16>) -> Result<Numbers, Numbers> {
    let shape = admitted(list, floor)?;
    let span = extent(shape);
    let mut records = Vec::new();
    survey(log, |record| records.push(record))?;
    let mut buffer = [[0; 2]; MOST];
    let mut best = Numbers::refused(20);
    let mut least = (u128::MAX, 1);
    for record in current(&records) {
        if u32::from(record.floor) != floor || Some(record.name) == but {
            continue;
        }
        if least.0 < apart(span, extent(record.shape)) * least.1 {
            continue;
        }
        let found = between_shapes(shape, record.read(&mut buffer), floor);
        let far = distance(found);
        if best.refusal != 0 || far.0 * least.1 <= least.0 * far.1 {
            (best, least) = (found.named([record.name]), far);
        }
    }
    Ok(best)
}
