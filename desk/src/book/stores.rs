//! An addition to a log as single stores.
use cocklesway::{Addition, Book, Refusal, Shape};

/// A byte that is stored at a place.
#[derive(Clone, Copy, Debug, PartialEq, Eq)]
pub struct Store {
    /// The place, in bytes from the front.
    pub place: usize,
    /// The byte.
    pub byte: u8,
}

/// The stores of an addition, in the library's order. The library is asked with one store more each time, and the byte
/// that differs is the next store. A store that changes nothing is left out.
#[derive(Debug)]
pub struct Stores<'a> {
    log: &'a [u8],
    name: u16,
    shape: Shape<'a>,
    before: Vec<u8>,
    after: Vec<u8>,
    allowed: usize,
    is_over: bool,
}

impl<'a> Stores<'a> {
    /// Asks the library for all stores of an addition.
    ///
    /// # Errors
    /// The library refuses the addition, which then has no stores.
    pub fn of(log: &'a [u8], name: u16, shape: Shape<'a>) -> Result<Stores<'a>, Refusal> {
        let mut after = log.to_vec();
        // With `usize::MAX` allowed an addition is never cut.
        let _ = Book::new(&mut after).add(name, shape, usize::MAX)?;
        Ok(Stores {
            log,
            name,
            shape,
            before: log.to_vec(),
            after,
            allowed: 0,
            is_over: false,
        })
    }
}

impl Iterator for Stores<'_> {
    type Item = Store;

    fn next(&mut self) -> Option<Store> {
        while !self.is_over {
            self.allowed += 1;
            self.after.copy_from_slice(self.log);
            let added = Book::new(&mut self.after).add(self.name, self.shape, self.allowed);
            self.is_over = added != Ok(Addition::Cut);
            let place = first_difference(&self.before, &self.after);
            std::mem::swap(&mut self.before, &mut self.after);
            if let Some((place, &byte)) = place.and_then(|at| Some((at, self.before.get(at)?))) {
                return Some(Store { place, byte });
            }
        }
        None
    }
}

/// The first place at which two runs of bytes differ. Whole blocks are compared first, which is quicker.
fn first_difference(a: &[u8], b: &[u8]) -> Option<usize> {
    const BLOCK: usize = 4096;
    let mut blocks = a.chunks(BLOCK).zip(b.chunks(BLOCK)).enumerate();
    let (number, (a, b)) = blocks.find(|(_, (a, b))| a != b)?;
    let within = a.iter().zip(b).position(|(a, b)| a != b)?;
    Some(number * BLOCK + within)
}

#[cfg(test)]
mod tests {
    use super::*;

    const BED: &[[i32; 2]] = &[[0, 0], [2000, 0], [2000, 900], [0, 900]];

    fn made(log: &[u8], stores: &[Store]) -> Vec<u8> {
        let mut log = log.to_vec();
        for store in stores {
            if let Some(byte) = log.get_mut(store.place) {
                *byte = store.byte;
            }
        }
        log
    }

    #[test]
    fn the_stores_make_what_the_library_makes() {
        for torn in [&[][..], &[9, 0, 2], &[0x5A; 60]] {
            let mut log = vec![0; 200];
            log.splice(..torn.len(), torn.iter().copied());
            let shape = Shape::new(BED, 3);
            let stores: Vec<Store> = Stores::of(&log, 7, shape).into_iter().flatten().collect();
            let mut whole = log.clone();
            let added = Book::new(&mut whole).add(7, shape, usize::MAX);
            assert_eq!(added, Ok(Addition::Finished));
            assert_eq!(made(&log, &stores), whole);
            assert_eq!(stores.last().map(|store| store.byte), Some(0x5A));
        }
    }

    #[test]
    fn a_refused_addition_has_no_stores() {
        assert_eq!(
            Stores::of(&[0; 10], 7, Shape::new(BED, 3)).err(),
            Some(Refusal::Full)
        );
    }
}
