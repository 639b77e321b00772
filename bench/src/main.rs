//! `bench agree COUNT` compares COUNT plain and proved answers, and fails where two differ.
//! `bench ROUNDS` measures both, and how the proved ones grow, and prints the tables.
//! `bench ROUNDS WORD ..` does so for the rows that have one of these words in their names.
use bench::agree;
use bench::table::{self, Chosen};
use std::process::ExitCode;

fn main() -> ExitCode {
    let words: Vec<String> = std::env::args().skip(1).collect();
    let words: Vec<&str> = words.iter().map(String::as_str).collect();
    match words[..] {
        ["agree", count] => count.parse().map_or_else(|_| usage(), agreed),
        [rounds, ref words @ ..] => {
            let measured = |rounds| measured(rounds, words);
            rounds.parse().map_or_else(|_| usage(), measured)
        }
        _ => usage(),
    }
}

fn usage() -> ExitCode {
    eprintln!("bench agree COUNT: compares answers, as bench agree 100000");
    eprintln!("bench ROUNDS: measures, as bench 200");
    eprintln!("bench ROUNDS WORD ..: measures some rows, as bench 200 sum grow");
    ExitCode::FAILURE
}

fn agreed(count: u64) -> ExitCode {
    match agree::agree(1, count) {
        Ok(answers) => {
            println!("bench: {answers} plain and proved answers agree");
            ExitCode::SUCCESS
        }
        Err(difference) => {
            println!("{difference}");
            ExitCode::FAILURE
        }
    }
}

fn measured(rounds: usize, words: &[&str]) -> ExitCode {
    match Chosen::of(words) {
        Ok(chosen) => {
            table::compare(&chosen, rounds);
            table::grow(&chosen, rounds);
            ExitCode::SUCCESS
        }
        Err(word) => {
            eprintln!("no row has the word {word}");
            ExitCode::FAILURE
        }
    }
}
