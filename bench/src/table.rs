//! Measures the rows of a table by turns, and prints it.
use crate::pairs::Make;
use crate::random::Random;
use crate::rows::{GROWTH, Row, TABLES, Table};
use crate::shapes::{Case, polygon};
use crate::timing::{Meter, Run};

/// Corners of the table of how the proved questions grow.
const STEPS: [usize; 2] = [100, 400];

/// The seed of all shapes.
const SEED: u64 = 2026;

/// Which rows are measured: those that have one of these words in their names, or all if there are no words.
pub struct Chosen<'a>(&'a [&'a str]);

impl<'a> Chosen<'a> {
    /// The rows that have one of these words, or the first word that no row has.
    pub fn of(words: &'a [&'a str]) -> Result<Chosen<'a>, &'a str> {
        let compared = TABLES.iter().flat_map(|table| table.rows).map(|row| row.0);
        let names: Vec<&str> = compared.chain(GROWTH.iter().map(|row| row.0)).collect();
        let missing = |word: &&&str| !names.iter().any(|name| words_of(name).any(|w| w == **word));
        words
            .iter()
            .find(missing)
            .map_or(Ok(Chosen(words)), |word| Err(word))
    }

    fn has(&self, name: &str) -> bool {
        self.0.is_empty() || words_of(name).any(|word| self.0.contains(&word))
    }
}

/// The words of a row's name.
fn words_of(name: &str) -> impl Iterator<Item = &str> {
    name.split(|c: char| !c.is_alphanumeric() && c != '_')
}

/// For each question and size: proved and plain in microseconds, and their ratio.
pub fn compare(chosen: &Chosen, rounds: usize) {
    for table in &TABLES {
        print(table, chosen, rounds);
    }
}

/// The rows of one table that are chosen.
fn print(table: &Table, chosen: &Chosen, rounds: usize) {
    let rows: Vec<_> = table.rows.iter().filter(|row| chosen.has(row.0)).collect();
    if rows.is_empty() {
        return;
    }
    let meter_of = |&(_, runs, make): &Row, n| {
        meter(table.counted.corners(n), &runs, |random| {
            (table.form)(make(random, n, table.outline))
        })
    };
    let meters = rows
        .iter()
        .map(|row| table.sizes.iter().map(|&n| meter_of(row, n)).collect());
    let times = measured(meters.collect(), rounds);
    let word = table.counted.word();
    let heads = table.sizes.iter().map(|n| format!("{n:>19} {word}"));
    println!("{}", table.legend);
    println!("{:24}{}", "", heads.collect::<String>());
    for ((name, ..), times) in rows.iter().zip(times) {
        let cells = times
            .iter()
            .map(|t| format!("{:9.3}{:9.3}{:9.2}", t[0], t[1], t[0] / t[1]));
        println!("{name:24}{}", cells.collect::<String>());
    }
    println!();
}

/// For each question: its time at the two sizes, and the ratio; 4 is linear, 16 quadratic.
pub fn grow(chosen: &Chosen, rounds: usize) {
    let rows: Vec<_> = GROWTH.iter().filter(|row| chosen.has(row.0)).collect();
    if rows.is_empty() {
        return;
    }
    let meter_of = |run, make: Make, n| meter(n, &[run], |random| make(random, n, polygon));
    let meters = rows
        .iter()
        .map(|&&(_, run, make)| STEPS.map(|n| meter_of(run, make, n)).into());
    let times = measured(meters.collect(), rounds);
    println!("microseconds a call, proved; a ratio of 4 is linear, one of 16 quadratic\n");
    println!(
        "{:24}{:>9}{:>9}{:>9}",
        "corners", STEPS[0], STEPS[1], "ratio"
    );
    for ((name, ..), times) in rows.iter().zip(times) {
        let (few, many) = (times[0][0], times[1][0]);
        println!("{name:24}{few:9.3}{many:9.3}{:9.2}", many / few);
    }
}

/// A meter of n corners.
fn meter(n: usize, runs: &[Run], make: impl Fn(&mut Random) -> Case) -> Meter {
    let mut random = Random::new(SEED);
    Meter::new(n, runs, || make(&mut random))
}

/// The times of all meters, row by row, after the given number of rounds, in which all take turns.
fn measured(mut meters: Vec<Vec<Meter>>, rounds: usize) -> Vec<Vec<Vec<f64>>> {
    for round in 0..rounds {
        for meter in meters.iter_mut().flatten() {
            meter.round(round);
        }
    }
    let times = |row: &Vec<Meter>| row.iter().map(Meter::microseconds).collect();
    meters.iter().map(times).collect()
}
