//! Both workings on the same cases, every answer, state and room bit for bit.

use crate::above::as_the_gradient;
use crate::away::as_packed;
use crate::cases::{self, Kind};
use crate::coverage::Coverage;
use crate::engines::{PLAIN, SHOWN};
use crate::leaf::Leaf;
use crate::make_leaves;
use crate::pool::Pool;
use crate::random::Random;
use crate::rooms::Rooms;
use crate::script::{self, Item};
use crate::text::{bits, hex_of_bytes};
use crate::{make_away, make_sheets, sheets};
use api::{Run, Trial};

/// How many cases of a kind were compared, and how many differ.
#[derive(Default, Clone, Copy, PartialEq, Eq, Debug)]
pub struct Tally {
    pub compared: u64,
    pub calls: u64,
    /// Questions held against the answered gradient of the same working, by either, and those not as it says (02, #105).
    pub questions: u64,
    pub against: u64,
    /// Sequences that go over three problems.
    pub in_turn: u64,
    /// Unpackings held against what was packed, by either working, and those that brought back anything else (02, #107).
    pub unpacked: u64,
    pub other: u64,
    pub differ: u64,
}

fn same_trial(a: &Trial, b: &Trial) -> bool {
    let doubles = |t: &Trial| [t.lambda, t.norm, t.lower, t.upper].map(bits);
    doubles(a) == doubles(b)
        && a.fp.map(bits) == b.fp.map(bits)
        && (a.infinite_damping, a.infinite_solve) == (b.infinite_damping, b.infinite_solve)
}

pub fn same_run(a: &Option<Run>, b: &Option<Run>) -> bool {
    let (Some(a), Some(b)) = (a, b) else {
        return a.is_none() && b.is_none();
    };
    a.end == b.end
        && bits(a.undamped_norm) == bits(b.undamped_norm)
        && a.infinite_first_solve == b.infinite_first_solve
        && a.trials.len() == b.trials.len()
        && a.trials
            .iter()
            .zip(&b.trials)
            .all(|(s, t)| same_trial(s, t))
        && a.norms == b.norms
}

/// The norms of a factoring, each with its ranges (02, #106).
fn same_norms(item: &Item) -> bool {
    let Item::Factor {
        m,
        n,
        marks,
        jacobian,
        ..
    } = item
    else {
        return true;
    };
    SHOWN.norms(*m, *n, *marks, jacobian) == PLAIN.norms(*m, *n, *marks, jacobian)
}

fn sheet(bytes: &[u8], tally: &mut Tally, coverage: &mut Coverage) {
    let (shown, plain) = (SHOWN.sheet(bytes), PLAIN.sheet(bytes));
    let runs = (sheets::trace(SHOWN, bytes), sheets::trace(PLAIN, bytes));
    tally.compared += 1;
    if shown != plain || !same_run(&runs.0, &runs.1) {
        tally.differ += 1;
        eprintln!(
            "sheet {}\nshown\n{shown}plain\n{plain}{:?}\n{:?}",
            hex_of_bytes(bytes),
            runs.0,
            runs.1
        );
    }
    coverage.sheet(PLAIN, bytes, &plain);
}

/// The number of the first item after which the two differ.
fn first_difference(items: &[Item], tally: &mut Tally, coverage: &mut Coverage) -> Option<usize> {
    let (mut a, mut b) = (Rooms::none(), Rooms::none());
    for (k, item) in items.iter().enumerate() {
        let runs = (
            a.asked(item).and_then(|s| s.run(SHOWN)),
            b.asked(item).and_then(|s| s.run(PLAIN)),
        );
        let before = (a.clone(), b.clone());
        let (shown, plain) = (a.play(SHOWN, item), b.play(PLAIN, item));
        let (Some(shown), Some(plain)) = (shown, plain) else {
            continue;
        };
        tally.calls += 1;
        let held = [
            as_the_gradient(SHOWN, &before.0, item, &shown),
            as_the_gradient(PLAIN, &before.1, item, &plain),
        ];
        let against = held.contains(&Some(false));
        tally.questions += u64::from(held != [None, None]);
        tally.against += u64::from(against);
        let brought = [
            as_packed(&before.0, item, &shown, &a),
            as_packed(&before.1, item, &plain, &b),
        ];
        let other = brought.contains(&Some(false));
        tally.unpacked += u64::from(brought != [None, None]);
        tally.other += u64::from(other);
        let same = shown.text() == plain.text() && a.same(&b) && same_run(&runs.0, &runs.1);
        if !same || !same_norms(item) || against || other {
            let mut text = String::new();
            a.write(&shown, &mut text);
            b.write(&plain, &mut text);
            eprintln!(
                "{text}{:?}\n{:?}\nas the gradient: {held:?}\nas packed: {brought:?}",
                runs.0, runs.1
            );
            return Some(k);
        }
        coverage.call(PLAIN, &before.1, item, &plain);
    }
    None
}

fn sequence(items: &[Item], tally: &mut Tally, coverage: &mut Coverage) {
    tally.compared += 1;
    let exchanges = |item: &Item| matches!(item, Item::Exchange(_));
    tally.in_turn += u64::from(items.iter().any(exchanges));
    if let Some(last) = first_difference(items, tally, coverage) {
        tally.differ += 1;
        let text = script::text(&items[..=last]);
        eprintln!("sequence, differing after its last line\n{text}");
    }
}

pub fn leaves(count: u64, seed: u64) -> Tally {
    let mut tally = Tally::default();
    let mut rng = Random::new(seed ^ 0x6C65_6166);
    let mut one = |leaf: Leaf| {
        tally.compared += 1;
        let (shown, plain) = (leaf.line(SHOWN), leaf.line(PLAIN));
        if shown != plain {
            tally.differ += 1;
            eprintln!("leaf\nshown {shown}\nplain {plain}");
        }
    };
    make_leaves::edges().into_iter().for_each(&mut one);
    (0..count).for_each(|_| one(make_leaves::random(&mut rng)));
    tally
}

/// The sequences with frozen columns (02, #108), a kind of their own: those without keep their draw.
pub fn frozen(count: u64, seed: u64, coverage: &mut Coverage) -> Tally {
    let mut tally = Tally::default();
    for items in cases::scripts(Kind::Frozen, count, seed) {
        sequence(&items, &mut tally, coverage);
    }
    tally
}

pub fn sheets_and_sequences(sheets: u64, sequences: u64, seed: u64) -> (Tally, Tally, Coverage) {
    let pool = Pool::hunt(seed);
    let (mut of_sheets, mut of_sequences) = (Tally::default(), Tally::default());
    let mut coverage = Coverage::default();
    let mut rng = Random::new(seed);
    for _ in 0..sheets {
        sheet(
            &make_sheets::sheet(&mut rng, &pool),
            &mut of_sheets,
            &mut coverage,
        );
    }
    for _ in 0..sequences {
        sequence(
            &make_away::calls(&mut rng, &pool),
            &mut of_sequences,
            &mut coverage,
        );
    }
    (of_sheets, of_sequences, coverage)
}
