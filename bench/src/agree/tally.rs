//! The answers that were compared: how many, and of which kinds.
use super::kinds::{KINDS, kind};
use crate::reply::Numbers;
use std::collections::BTreeSet;
use std::fmt::Debug;

#[derive(Default)]
pub struct Tally {
    answers: u64,
    kinds: BTreeSet<(&'static str, String)>,
}

impl Tally {
    /// How many answers were compared.
    pub fn answers(&self) -> u64 {
        self.answers
    }

    /// Counts one answer, or tells that it differs.
    pub fn add(
        &mut self,
        word: &'static str,
        asked: impl Debug,
        plain: Numbers,
        proved: Numbers,
    ) -> Result<(), String> {
        if plain != proved {
            return Err(format!(
                "{word} of {asked:?}: plain {plain:?}, proved {proved:?}"
            ));
        }
        self.answers += 1;
        self.kinds.insert((word, kind(word, plain)));
        Ok(())
    }

    /// A kind of answers that did not come.
    pub fn missing(&self) -> Option<String> {
        let all = KINDS
            .iter()
            .flat_map(|&(word, kinds)| kinds.split("; ").map(move |kind| (word, kind)));
        let came = |(word, kind): (_, &str)| self.kinds.contains(&(word, kind.to_string()));
        let (word, kind) = all.into_iter().find(|&one| !came(one))?;
        Some(format!(
            "no {word} was answered `{kind}`: ask for more answers"
        ))
    }
}
