//! Times: small blocks of calls on inputs that change from call to call, the ways of answering by
//! turns, many rounds over, the least time of each block counted.
use crate::plain::MOST;
use crate::shapes::Case;
use std::hint::black_box;
use std::time::Instant;

/// Asks a question of each case, one after the other, and says how many nanoseconds it took.
pub type Run = fn(&[Case]) -> u64;

/// Corners of all cases of a meter: too many branches for a processor to learn by heart.
const POOL: usize = 32_768;

/// Corners of a block of calls: they fit into the nearest cache, and a block takes some microseconds.
const BLOCK: usize = 2_000;

/// The body of a `Run`, of a question that writes numbers.
#[inline(always)]
pub fn block<T>(cases: &[Case], ask: impl Fn(&Case, &mut [i32]) -> T) -> u64 {
    let mut out = [0; 2 * MOST];
    timed(cases, |case| ask(case, &mut out))
}

/// The same, of a call that writes bytes.
#[inline(always)]
pub fn block_bytes<T>(cases: &[Case], ask: impl Fn(&Case, &mut [u8]) -> T) -> u64 {
    let mut out = [0; 8 * MOST];
    timed(cases, |case| ask(case, &mut out))
}

/// The same, of a question that adds to the log of its case, which is a fresh one each time.
#[inline(always)]
pub fn block_logs<T>(cases: &[Case], ask: impl Fn(&Case, &mut [u8]) -> T) -> u64 {
    let mut logs: Vec<Vec<u8>> = cases.iter().map(|case| case.log.clone()).collect();
    let mut logs = logs.iter_mut();
    timed(cases, |case| logs.next().map(|log| ask(case, log)))
}

/// A loop with nothing in it but the call. The lists are read first, so that no way of answering waits
/// for them.
#[inline(always)]
fn timed<T>(cases: &[Case], mut ask: impl FnMut(&Case) -> T) -> u64 {
    black_box(cases.iter().map(Case::read).fold(0, i32::wrapping_add));
    let start = Instant::now();
    for case in cases {
        black_box(ask(case));
    }
    start.elapsed().as_nanos() as u64
}

/// One question at one size: its cases, the ways of answering it, and the least time of each for
/// each block of cases so far.
pub struct Meter {
    cases: Vec<Case>,
    block: usize,
    runs: Vec<Run>,
    least: Vec<Vec<u64>>,
}

impl Meter {
    /// Cases of n corners.
    pub fn new(n: usize, runs: &[Run], mut make: impl FnMut() -> Case) -> Meter {
        let block = (BLOCK / n).max(4);
        let blocks = (POOL / n).max(64).div_ceil(block);
        Meter {
            cases: (0..blocks * block).map(|_| make()).collect(),
            block,
            runs: runs.to_vec(),
            least: vec![vec![u64::MAX; runs.len()]; blocks],
        }
    }

    /// One time more for each block and run; who goes first changes from round to round.
    pub fn round(&mut self, round: usize) {
        let ways = self.runs.len();
        for (cases, least) in self.cases.chunks(self.block).zip(&mut self.least) {
            for way in (0..ways).map(|k| (k + round) % ways) {
                least[way] = least[way].min((self.runs[way])(cases));
            }
        }
    }

    /// The microseconds of a call, in the order of the runs.
    pub fn microseconds(&self) -> Vec<f64> {
        let of = |way: usize| {
            let all: u64 = self.least.iter().map(|block| block[way]).sum();
            all as f64 / self.cases.len() as f64 / 1000.0
        };
        (0..self.runs.len()).map(of).collect()
    }
}
