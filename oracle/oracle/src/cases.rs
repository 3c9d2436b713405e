//! Cases by kind, count and seed: what `make` prints is what `cover` counts.

use crate::coverage::Coverage;
use crate::engines::{PLAIN, Working};
use crate::pool::Pool;
use crate::random::Random;
use crate::script::Item;
use crate::wanted;
use crate::{make_away, make_calls, make_sheets};

#[derive(Clone, Copy, PartialEq, Eq, Debug)]
pub enum Kind {
    Calls,
    Factorings,
    Frozen,
}

/// Draws one case.
pub type Draw = fn(&mut Random, &Pool) -> Vec<Item>;

impl Kind {
    fn draw(self) -> Draw {
        match self {
            Kind::Calls => make_away::calls,
            Kind::Factorings => make_calls::factoring_alone,
            Kind::Frozen => make_away::frozen,
        }
    }

    fn wanted(self) -> Vec<String> {
        match self {
            Kind::Calls => wanted::wanted_of_calls(),
            Kind::Factorings => wanted::wanted_of_factorings(),
            Kind::Frozen => wanted::wanted_of_frozen(),
        }
    }
}

pub fn scripts(kind: Kind, count: u64, seed: u64) -> impl Iterator<Item = Vec<Item>> {
    drawn(kind.draw(), count, seed)
}

pub fn drawn(draw: Draw, count: u64, seed: u64) -> impl Iterator<Item = Vec<Item>> {
    let pool = Pool::hunt(seed);
    let mut rng = Random::new(seed);
    (0..count).map(move |_| draw(&mut rng, &pool))
}

/// Every call prints the whole rooms: whether there are more numbers in store and bench.
pub fn is_longer(items: &[Item], most: usize) -> bool {
    items
        .iter()
        .any(|item| matches!(item, Item::Rooms { store, bench, .. } if store + bench > most))
}

/// Of the drawn cases that are not long those that show a wanted row which none before them has shown, `fixed` among those.
pub fn first_shown(
    drawn: impl Iterator<Item = Vec<Item>>,
    wanted: &[String],
    fixed: &[Vec<Item>],
    most: usize,
) -> Vec<Vec<Item>> {
    let mut shown = Coverage::default();
    fixed.iter().for_each(|items| shown.sequence(PLAIN, items));
    drawn
        .filter(|items| {
            let mut own = Coverage::default();
            own.sequence(PLAIN, items);
            let new = |label: &String| own.count(label) > 0 && shown.count(label) == 0;
            let kept = !is_longer(items, most) && wanted.iter().any(new);
            if kept {
                shown.sequence(PLAIN, items);
            }
            kept
        })
        .collect()
}

pub fn sheets(count: u64, seed: u64) -> impl Iterator<Item = Vec<u8>> {
    let pool = Pool::hunt(seed);
    let mut rng = Random::new(seed);
    (0..count).map(move |_| make_sheets::sheet(&mut rng, &pool))
}

/// What the scripts cover by one working, and what they are to cover.
pub fn covered_by_scripts(
    engine: &dyn Working,
    kind: Kind,
    count: u64,
    seed: u64,
) -> (Coverage, Vec<String>) {
    let mut coverage = Coverage::default();
    scripts(kind, count, seed).for_each(|items| coverage.sequence(engine, &items));
    (coverage, kind.wanted())
}

pub fn covered_by_sheets(engine: &dyn Working, count: u64, seed: u64) -> (Coverage, Vec<String>) {
    let mut coverage = Coverage::default();
    sheets(count, seed).for_each(|bytes| coverage.sheet(engine, &bytes, &engine.sheet(&bytes)));
    (coverage, wanted::wanted_of_sheets())
}
