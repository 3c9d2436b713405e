//! Counts per routine and class, and the first example of each.

use std::cmp::Reverse;
use std::collections::BTreeMap;

#[derive(Clone, PartialEq, Eq, Debug)]
pub enum Verdict {
    Same,
    /// They differ, and the class that the difference was shown to belong to.
    Differs(String),
    Unexplained,
    NotCompared(&'static str),
}

#[derive(Default)]
struct Counts {
    same: u64,
    unexplained: u64,
    classes: BTreeMap<String, u64>,
    not_compared: BTreeMap<String, u64>,
}

pub struct Tally {
    of: Vec<(&'static str, Counts)>,
    /// Searches that are the same, by their trials.
    trials: [u64; 11],
    /// Titles and examples, in the order in which they were met.
    examples: Vec<(String, [String; 3])>,
}

/// In the order in which they stand on each other.
const ROUTINES: [&str; 6] = [
    "ENORM",
    "QRFAC",
    "qt_b of LMDER",
    "QRSOLV",
    "LMPAR",
    "LMPAR, m < n",
];

/// So many unexplained differences of a routine are shown.
const SHOWN: u64 = 3;

/// The largest first.
fn listed(of: &BTreeMap<String, u64>) -> String {
    let mut all: Vec<(&String, &u64)> = of.iter().collect();
    all.sort_by_key(|&(_, k)| Reverse(k));
    let words: Vec<String> = all.iter().map(|(name, k)| format!("{k} {name}")).collect();
    words.join(", ")
}

impl Counts {
    fn compared(&self) -> u64 {
        self.same + self.unexplained + self.classes.values().sum::<u64>()
    }

    fn line(&self, routine: &str) -> String {
        let (compared, same) = (self.compared(), self.same);
        let differ = compared - same;
        let mut line = format!("{routine}: {compared} compared, {same} the same, {differ} differ");
        if !self.classes.is_empty() {
            line += &format!(": {}", listed(&self.classes));
        }
        line += &format!("; {} unexplained", self.unexplained);
        if !self.not_compared.is_empty() {
            line += &format!(" (not compared: {})", listed(&self.not_compared));
        }
        line + "\n"
    }
}

impl Default for Tally {
    fn default() -> Tally {
        Tally {
            of: ROUTINES.map(|name| (name, Counts::default())).into(),
            trials: [0; 11],
            examples: Vec::new(),
        }
    }
}

impl Tally {
    fn counts(&mut self, routine: &str) -> &mut Counts {
        let known = self.of.iter().position(|(name, _)| *name == routine);
        &mut self.of[known.expect("one of the routines")].1
    }

    pub fn note_trials(&mut self, trials: usize) {
        self.trials[trials.min(10)] += 1;
    }

    /// `example` gives the input, our answer and MINPACK's.
    pub fn add(
        &mut self,
        routine: &'static str,
        verdict: Verdict,
        example: impl FnOnce() -> [String; 3],
    ) {
        let counts = self.counts(routine);
        let title = match verdict {
            Verdict::Same => {
                counts.same += 1;
                return;
            }
            Verdict::NotCompared(why) => {
                *counts.not_compared.entry(why.into()).or_default() += 1;
                return;
            }
            Verdict::Unexplained => {
                counts.unexplained += 1;
                (counts.unexplained <= SHOWN).then(|| "unexplained".to_string())
            }
            Verdict::Differs(class) => {
                let k = counts.classes.entry(class.clone()).or_default();
                *k += 1;
                (*k == 1).then_some(class)
            }
        };
        if let Some(title) = title {
            self.examples
                .push((format!("{routine}: {title}"), example()));
        }
    }

    pub fn unexplained(&self) -> u64 {
        self.of.iter().map(|(_, c)| c.unexplained).sum()
    }

    fn by_trials(&self) -> String {
        let words: Vec<String> = (0..11)
            .map(|t| format!("{t}: {}", self.trials[t]))
            .collect();
        format!("LMPAR, the same, by trials: {}\n", words.join(", "))
    }

    /// The lines to print. Unexplained differences are always shown, examples of the classes where asked.
    pub fn text(&self, show: bool) -> String {
        let mut text = String::new();
        for (title, [input, ours, theirs]) in &self.examples {
            if show || title.ends_with("unexplained") {
                text +=
                    &format!("{title}\n  input   {input}\n  ours    {ours}\n  MINPACK {theirs}\n");
            }
        }
        for (routine, counts) in &self.of {
            text += &counts.line(routine);
        }
        let compared: u64 = self.of.iter().map(|(_, c)| c.compared()).sum();
        text += &self.by_trials();
        text + &format!("{compared} compared, {} unexplained\n", self.unexplained())
    }
}
