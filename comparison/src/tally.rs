//! How often each function gave each answer, in each edition.

use std::collections::BTreeMap;
use std::fmt;

use reference::editions::KNOWN;
use vetrhoss::{BAD_IMAGE, BAD_SIZE, DONE, KEPT};

use crate::call::{Answer, Call, Function, ALL};

/// Enough of each kind that its inner cases are met too.
const LEAST: usize = 30;

/// The number, and a word where one number stands for two things.
type Kind = (u8, &'static str);

/// The edition is 0 where there is none or it is unknown.
#[derive(Default)]
pub struct Tally {
    counts: BTreeMap<(Function, u8, Kind), usize>,
}

impl Tally {
    pub fn count(&mut self, call: &Call, answer: Answer) {
        let kind = kind(call.function, answer);
        let key = (call.function, call.edition(), kind);
        *self.counts.entry(key).or_default() += 1;
    }

    pub fn total(&self) -> usize {
        self.counts.values().sum()
    }

    fn of(&self, function: Function, edition: u8, kind: Kind) -> usize {
        let key = (function, edition, kind);
        self.counts.get(&key).copied().unwrap_or(0)
    }

    /// An error where a function gave some answer too seldom, so that cases that
    /// no longer reach it are noticed.
    pub fn is_full(&self) -> Result<(), String> {
        for (function, edition) in rows() {
            for &(number, word) in kinds(function, edition) {
                let count = self.of(function, edition, (number, word));
                if count < LEAST {
                    return Err(format!(
                        "{function:?}, edition {edition}, answered {number}{word} only {count} times"
                    ));
                }
            }
        }
        Ok(())
    }
}

/// Every function, with each edition where it has to do with one.
fn rows() -> Vec<(Function, u8)> {
    let of_function = |function| {
        let known = KNOWN.iter().map(|edition| edition.number);
        let editions = known.filter(move |_| has_edition(function));
        [0].into_iter()
            .chain(editions)
            .map(move |edition| (function, edition))
    };
    ALL.into_iter().flat_map(of_function).collect()
}

fn has_edition(function: Function) -> bool {
    !matches!(
        function,
        Function::Opc | Function::VectorAt | Function::Triplets
    )
}

fn kind(function: Function, answer: Answer) -> Kind {
    let word = match (function, answer.number, answer.value) {
        (Function::Resynchronise, DONE, KEPT) => " kept",
        (Function::Resynchronise, DONE, _) => " reset",
        _ => "",
    };
    (answer.number, word)
}

/// Every answer that a function can give. Without a known edition an image is
/// unknown or has no bytes.
fn kinds(function: Function, edition: u8) -> &'static [Kind] {
    match function {
        Function::NewUsim | Function::NewAuc if edition == 0 => &[(BAD_IMAGE, "")],
        Function::Challenge | Function::Order | Function::Resynchronise if edition == 0 => {
            &[(BAD_IMAGE, ""), (BAD_SIZE, "")]
        }
        Function::Opc | Function::VectorAt | Function::Triplets => &[(0, ""), (3, "")],
        Function::NewUsim | Function::NewAuc => &[(0, ""), (1, ""), (3, "")],
        Function::Challenge => &[(0, ""), (1, ""), (3, ""), (20, ""), (21, "")],
        Function::Order => &[(0, ""), (1, ""), (2, ""), (3, ""), (4, ""), (6, "")],
        Function::Resynchronise => &[
            (0, " kept"),
            (0, " reset"),
            (1, ""),
            (2, ""),
            (3, ""),
            (4, ""),
            (5, ""),
            (6, ""),
        ],
    }
}

impl fmt::Display for Tally {
    fn fmt(&self, out: &mut fmt::Formatter) -> fmt::Result {
        let met = |row: (Function, u8)| self.counts.keys().any(|key| (key.0, key.1) == row);
        for (function, edition) in rows().into_iter().filter(|&row| met(row)) {
            let name = match edition {
                0 => format!("{function:?}"),
                _ => format!("{function:?} {edition}"),
            };
            write!(out, "{name:16}")?;
            for &(number, word) in kinds(function, edition) {
                let count = self.of(function, edition, (number, word));
                write!(out, "  {number}{word}: {count}")?;
            }
            writeln!(out)?;
        }
        Ok(())
    }
}
