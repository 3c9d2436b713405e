//! 02, #106: which ranges each call tells, by both workings; and what looks right there and is not.

use api::{Measured, Mode, Of, Ranges};
use oracle::cases::{self, Kind};
use oracle::engines::{PLAIN, SHOWN, Working};
use oracle::leaf::Leaf;
use oracle::make_leaves;
use oracle::minpack::reading::vectors;
use oracle::problem::{self, factored};
use oracle::random::Random;
use oracle::replies::Told;
use oracle::rooms::Rooms;
use oracle::script::Item;
use std::collections::BTreeSet;

const NEITHER: Ranges = Ranges::NEITHER;
const SMALL: Ranges = Ranges {
    small: true,
    large: false,
};
const LARGE: Ranges = Ranges {
    small: false,
    large: true,
};
const BOTH: Ranges = Ranges {
    small: true,
    large: true,
};

fn all(norms: &[Measured]) -> Ranges {
    let each = norms.iter().map(|norm| norm.ranges);
    each.fold(NEITHER, Ranges::either)
}

fn both(test: fn(&dyn Working)) {
    test(SHOWN);
    test(PLAIN);
}

/// Zeros of either sign are neither, subnormals small, infinities and NaN large; each entry counts, whichever decides the
/// number.
#[test]
fn of_one_norm() {
    both(|e| {
        let seen = |v: &[f64]| e.enorm(v).unwrap().1;
        let rdwarf = 3.834e-20;
        for zeros in [&[][..], &[0.0], &[-0.0], &[-0.0, 0.0, 1.0]] {
            assert_eq!(seen(zeros), NEITHER);
        }
        for small in [f64::from_bits(1), -f64::from_bits(1), rdwarf, -rdwarf] {
            assert_eq!(seen(&[1.0, small]), SMALL);
        }
        assert_eq!(seen(&[f64::next_up(rdwarf)]), NEITHER);
        for large in [f64::INFINITY, f64::NEG_INFINITY, f64::NAN, f64::MAX, -1e20] {
            assert_eq!(seen(&[large, 1.0]), LARGE);
        }
        assert_eq!(seen(&[1e20, 1e-25]), BOTH);
        assert_eq!(seen(&[1e-25, 1.0, f64::NAN]), BOTH);
        assert_eq!(e.enorm(&[1e20; 129]), Err(2));
    });
}

/// "agiant = rgiant/length": the norm's own.
#[test]
fn the_limit_of_large_goes_by_the_length() {
    both(|e| {
        for length in [1, 2, 3, 4, 16, 127, 128] {
            let agiant = 1.304e19 / length as f64;
            let mut v = vec![0.0; length];
            v[length - 1] = -agiant;
            assert_eq!(e.enorm(&v).unwrap().1, LARGE);
            v[length - 1] = agiant.next_down();
            assert_eq!(e.enorm(&v).unwrap().1, NEITHER);
        }
        assert_eq!(e.enorm(&[4e18]).unwrap().1, NEITHER);
        assert_eq!(e.enorm(&[0.0, 4e18, 0.0, 0.0]).unwrap().1, LARGE);
    });
}

/// What a factoring of ordinary residuals tells, beside what its column norms alone would.
fn of_factoring(e: &dyn Working, m: usize, jacobian: &[f64]) -> (Ranges, Ranges) {
    let n = jacobian.len() / m;
    let (mut store, mut order) = (vec![7.0; n * n + 4 * n], vec![9; n]);
    let mut bench = vec![7.0; m * n + m];
    let residuals = vec![1.0; m];
    let (told, _) = e.factor(
        m, n, 0, jacobian, &residuals, &mut store, &mut order, &mut bench,
    );
    let norms = e.norms(m, n, 0, jacobian).unwrap();
    let told = told.unwrap();
    assert_eq!(told, all(&norms));
    (told, all(&norms[..n]))
}

#[test]
fn small_entries_that_reflections_leave() {
    both(|e| {
        let (u, by) = (1e-4, -2.0 / 7.0);
        let (a, b) = (2e-4, -4e-4);
        // With −2/7 rounded first nothing is left.
        let rest = of_factoring(e, 2, &[a, b, a * -2.0 / 7.0, b * -2.0 / 7.0]);
        assert_eq!(rest, (SMALL, NEITHER));
        assert_eq!(of_factoring(e, 2, &[a, b, a * by, b * by]).0, NEITHER);
        let anew = [u, u, u, -u, u * by, u * by];
        assert_eq!(of_factoring(e, 2, &anew), (SMALL, NEITHER));
        let from = |m: usize, jacobian: &[f64]| -> Vec<Of> {
            let norms = e.norms(m, jacobian.len() / m, 0, jacobian).unwrap();
            let small = norms.iter().filter(|norm| norm.ranges.small);
            small.map(|norm| norm.of).collect()
        };
        assert_eq!(from(2, &anew), [Of::Anew]);
        let pivot = [u, u, 0.0, u * by, u * by, 1e-5];
        assert_eq!(of_factoring(e, 3, &pivot), (SMALL, NEITHER));
        assert_eq!(from(3, &pivot), [Of::Pivot(1)]);
        let kept = [u, 4e-4, 0.0, u, -u, u, u * by, 4e-4 * by, 1e-5];
        assert_eq!(of_factoring(e, 3, &kept), (NEITHER, NEITHER));
    });
    let (u, by) = (1e-4, -2.0 / 7.0);
    let kept = vectors(3, 3, &[u, 4e-4, 0.0, u, -u, u, u * by, 4e-4 * by, 1e-5]).kept;
    assert!(
        kept.iter()
            .flatten()
            .any(|x| *x != 0.0 && x.abs() < 3.8e-20)
    );
}

#[test]
fn large_entries_that_reflections_leave() {
    both(|e| {
        let scaled = |parts: &[f64]| parts.iter().map(|x| x * 1e18).collect::<Vec<f64>>();
        let first = [0.0, 3.2, 3.2, 3.2];
        let pivot = scaled(&[first, [2.5, -2.5, 2.5, 2.5]].concat());
        assert_eq!(of_factoring(e, 4, &pivot), (LARGE, NEITHER));
        let others = [[-2.5, -2.5, 2.5, 2.5], [2.4, -2.4, 2.4, 2.4]].concat();
        let kept = scaled(&[&first[..], &others].concat());
        assert_eq!(of_factoring(e, 4, &kept), (NEITHER, NEITHER));
        let by_m = [0.1, 4.3, 4.3, 4.0, -4.0, 4.0, 1.8, 1.8, 1.8, 1.8, 1.8, 1.8];
        assert_eq!(of_factoring(e, 3, &scaled(&by_m)), (NEITHER, NEITHER));
        assert_eq!(of_factoring(e, 2, &[1e20, 1.0]), (LARGE, LARGE));
    });
}

/// The norm of the first pivot is that of a whole column, and the ranges of all norms are the answer's.
#[test]
fn a_factoring_tells_the_ranges_of_its_norms() {
    let mut rng = Random::new(6);
    for _ in 0..3000 {
        let p = problem::any(&mut rng);
        let norms = SHOWN.norms(p.m, p.n, 0, &p.jacobian).unwrap();
        assert_eq!(PLAIN.norms(p.m, p.n, 0, &p.jacobian), Some(norms.clone()));
        let (columns, later) = norms.split_at(p.n);
        assert!(columns.iter().all(|norm| norm.of == Of::Column));
        let pivots = later.iter().filter(|norm| matches!(norm.of, Of::Pivot(_)));
        assert_eq!(pivots.count(), p.m.min(p.n));
        assert_eq!(later[0].of, Of::Pivot(0));
        assert!(columns.contains(&Measured {
            of: Of::Column,
            ranges: later[0].ranges,
        }));
        let worked = vectors(p.m, p.n, &p.jacobian).worked;
        let seen = worked.iter().map(|v| PLAIN.enorm(v).unwrap().1);
        assert!(seen.eq(norms.iter().map(|norm| norm.ranges)));
    }
}

/// A later scaling works out no norm. A refusal tells nothing, by its type; the call after it tells its own.
#[test]
fn a_scaling_tells_of_the_norm_of_a_first_one() {
    both(|e| {
        let made = factored(&problem::Problem {
            m: 1,
            n: 1,
            jacobian: vec![1e20],
            residuals: vec![1.0],
        });
        let scale = |mode: Mode, x: f64| {
            let (mut store, mut diag) = (made.store.clone(), [1.0]);
            let (told, _) = e.update_diag(made.state, &mut store, mode, &mut diag, &[x], 1.0);
            told.map(|(_, ranges)| ranges)
        };
        assert_eq!(scale(Mode::FirstScaled, 1.0), Ok(LARGE));
        assert_eq!(scale(Mode::FirstScaled, 1e300), Err(8));
        assert_eq!(scale(Mode::FirstScaled, 1e-20), Ok(NEITHER));
        assert_eq!(scale(Mode::FirstScaled, 1e-45), Ok(SMALL));
        assert_eq!(scale(Mode::FirstUnscaled, 1e-45), Ok(SMALL));
        assert_eq!(scale(Mode::FirstUnscaled, 1e20), Ok(LARGE));
        for later in [Mode::LaterScaled, Mode::LaterUnscaled] {
            assert_eq!(scale(later, 1e20), Ok(NEITHER));
        }
    });
}

/// What a search of one row tells, its trials, and whose norms they are.
fn of_search(
    e: &dyn Working,
    j: &[f64],
    r: f64,
    d: &[f64],
    radius: f64,
    lambda: f64,
) -> (Ranges, Vec<Of>) {
    let made = factored(&problem::Problem {
        m: 1,
        n: j.len(),
        jacobian: j.to_vec(),
        residuals: vec![r],
    });
    let (mut store, mut out) = (made.store.clone(), vec![0.0; j.len()]);
    let run = e.run(made.state, &store, &made.order, d, radius, lambda);
    let norms = run.unwrap().norms;
    let (told, _) = e.search(
        made.state,
        &mut store,
        &made.order,
        d,
        radius,
        lambda,
        &mut out,
    );
    let (_, told) = told.unwrap();
    assert_eq!(told, all(&norms));
    (told, norms.iter().map(|norm| norm.of).collect())
}

/// No lower bound without full rank, no correction after the last trial: the one that would come has a small entry, or a
/// large one.
#[test]
fn a_search_of_one_trial_has_no_correction() {
    both(|e| {
        let ones = [1.0, 1.0];
        let small = of_search(e, &[1e20, 0.0], 2e20, &ones, 1.0, 1e40);
        assert_eq!(small, (LARGE, vec![Of::Undamped, Of::Gnorm, Of::Trial]));
        let large = of_search(e, &[1e-20, 0.0], 2e-20, &ones, 1.0, 1e-40);
        assert_eq!(large, (SMALL, vec![Of::Undamped, Of::Gnorm, Of::Trial]));
        let undamped = of_search(e, &[1.0], 1e-30, &[1.0], 1.0, 0.0);
        assert_eq!(undamped, (SMALL, vec![Of::Undamped]));
        let regular = of_search(e, &[1e20], 2e20, &[1.0], 1.0, 0.0);
        let norms = vec![Of::Undamped, Of::LowerBound, Of::Gnorm, Of::Trial];
        assert_eq!(regular, (BOTH, norms));
        let infinite = of_search(e, &[1.0, 1e-320], 3.0, &[1.0, 1e-320], 1.0, 1e-300);
        assert_eq!(infinite.0, LARGE);
    });
}

/// Small in the first of two trials alone, whose step is shorter than the radius.
#[test]
fn a_trial_that_is_not_the_last_counts() {
    both(|e| {
        let (told, norms) = of_search(e, &[1.0], 6e-20, &[1.0], 4.2e-20, 1e3);
        let trials = norms.iter().filter(|of| **of == Of::Trial).count();
        assert_eq!((told, trials), (SMALL, 2));
    });
}

/// In every answered search the ranges are those of the norms of its run.
#[test]
fn a_search_tells_the_ranges_of_its_norms() {
    let mut answered = 0;
    for items in cases::scripts(Kind::Calls, 1500, 7) {
        let mut rooms = Rooms::none();
        for item in &items {
            let runs = [SHOWN, PLAIN].map(|e| rooms.asked(item).and_then(|asked| asked.run(e)));
            let reply = rooms.play(SHOWN, item);
            let (Item::Search { .. }, Some(Ok(answer))) = (item, reply.map(|r| r.answer)) else {
                continue;
            };
            assert!(matches!(answer.told, Told::Found { .. }));
            for run in runs {
                assert_eq!(answer.ranges, run.map(|run| all(&run.norms)));
            }
            answered += 1;
        }
    }
    assert!(answered > 300, "{answered} answered");
}

/// What `leafrun` reads is what both workings answer; the vectors for the ranges are all there.
#[test]
fn the_stored_leaves_are_the_oracles() {
    let stored = include_str!("../../../crates/leafrun/stdin");
    let stored: BTreeSet<&str> = stored.lines().collect();
    let mut rng = Random::new(1 ^ 0x6C65_6166);
    let random = (0..2600).map(|_| make_leaves::random(&mut rng));
    let made: Vec<Leaf> = make_leaves::edges().into_iter().chain(random).collect();
    for engine in [SHOWN, PLAIN] {
        let lines: BTreeSet<String> = made.iter().map(|leaf| leaf.line(engine)).collect();
        assert!(stored.iter().all(|line| lines.contains(*line)));
    }
    let mut ranges = Vec::new();
    oracle::make_norms::ranges(&mut ranges);
    assert!(
        ranges
            .iter()
            .all(|leaf| stored.contains(leaf.line(SHOWN).as_str()))
    );
}
