//! Searches, traced: one small witness for every stop rule, for every place of refusal 8 and for what must not refuse;
//! then seeded ones, each run of which is what document 01 says of it. The traced copy is held to the original's bits
//! in all of them.

mod common;

use api::{End, Engine, Place, Run, State, Stop, Traced};
use common::Numbers;
use shown::Shown;
use std::collections::BTreeMap;

struct Question {
    state: State,
    store: Vec<f64>,
    order: Vec<usize>,
    diag: Vec<f64>,
    radius: f64,
    lambda: f64,
}

fn power(numbers: &mut Numbers) -> i32 {
    if numbers.one_in(2) {
        return 0;
    }
    numbers.below(2100) as i32 - 1070
}

fn scaled(numbers: &mut Numbers, count: usize) -> Vec<f64> {
    let (wide, whole, common) = (numbers.one_in(4), numbers.one_in(3), power(numbers));
    let entry = |numbers: &mut Numbers| {
        let scale = if wide { power(numbers) } else { common };
        let near = if whole {
            numbers.below(5) as f64 - 2.0
        } else {
            numbers.finite(0)
        };
        let half = 2f64.powi(scale / 2);
        near * half * 2f64.powi(scale - scale / 2)
    };
    let entries = (0..count).map(|_| entry(numbers));
    entries
        .map(|entry| if entry.is_finite() { entry } else { 1.0 })
        .collect()
}

fn positive(numbers: &mut Numbers) -> f64 {
    let number = scaled(numbers, 1)[0].abs();
    if number > 0.0 { number } else { 1.0 }
}

fn factored(m: usize, jacobian: &[f64], residuals: &[f64], diag: &[f64]) -> Option<Question> {
    let n = diag.len();
    let mut store = vec![0.0; n * n + 4 * n];
    let mut order = vec![0; n];
    let mut bench = vec![0.0; m * n + m];
    let (answer, state) = Shown.factor(
        m, n, 0, jacobian, residuals, &mut store, &mut order, &mut bench,
    );
    answer.ok()?;
    Some(Question {
        state,
        store,
        order,
        diag: diag.to_vec(),
        radius: 1.0,
        lambda: 0.0,
    })
}

fn question(numbers: &mut Numbers) -> Option<Question> {
    let (m, n) = (1 + numbers.below(5), 1 + numbers.below(4));
    let (jacobian, residuals) = (scaled(numbers, m * n), scaled(numbers, m));
    let diag = scaled(numbers, n);
    let diag: Vec<f64> = diag
        .iter()
        .map(|entry| if *entry == 0.0 { 1.0 } else { *entry })
        .collect();
    let lambda = if numbers.one_in(2) {
        0.0
    } else {
        positive(numbers)
    };
    let radius = positive(numbers);
    let asked = factored(m, &jacobian, &residuals, &diag)?;
    Some(Question {
        radius,
        lambda,
        ..asked
    })
}

fn run(asked: &Question) -> Run {
    let (order, diag) = (&asked.order, &asked.diag);
    let run = Shown.run(
        asked.state,
        &asked.store,
        order,
        diag,
        asked.radius,
        asked.lambda,
    );
    let run = run.expect("the question passes its checks");
    assert_answer(asked, &run);
    assert_rules(asked, &run);
    run
}

/// The answer of the search itself agrees with its run.
fn assert_answer(asked: &Question, run: &Run) {
    let mut store = asked.store.clone();
    let mut step = vec![7.0; asked.state.n];
    let (order, diag) = (&asked.order, &asked.diag);
    let (radius, lambda) = (asked.radius, asked.lambda);
    let (found, _) = Shown.search(
        asked.state,
        &mut store,
        order,
        diag,
        radius,
        lambda,
        &mut step,
    );
    let last = run.trials.last();
    match (run.end, found) {
        (End::Refused(_), Err(8)) => (),
        (End::Stopped(_), Ok((found, _))) => {
            assert_eq!(found.trials, run.trials.len());
            assert_eq!(found.lambda, last.map_or(0.0, |trial| trial.lambda));
            assert_eq!(
                found.norm,
                last.map_or(run.undamped_norm, |trial| trial.norm)
            );
            assert_eq!(found.lambda == 0.0, found.trials == 0);
            assert!(step.iter().all(|entry| entry.is_finite()));
        }
        (end, found) => panic!("{end:?}, yet {found:?}"),
    }
}

/// The stop rule holds at the last trial, and at no earlier one.
fn assert_rules(asked: &Question, run: &Run) {
    let radius = asked.radius;
    let undamped = run.undamped_norm - radius;
    assert_eq!(
        run.end == End::Stopped(Stop::Undamped),
        undamped <= radius * 0.1
    );
    let mut previous = undamped;
    let count = run.trials.len();
    for (t, trial) in (1..).zip(&run.trials) {
        assert!(t <= 10 && (t == 10) == (trial.fp.is_none() && trial.norm.is_finite()));
        let Some(fp) = trial.fp else { continue };
        let within = fp.abs() <= radius * 0.1;
        let falling = trial.lower == 0.0 && fp <= previous && previous < 0.0;
        let stop = match run.end {
            End::Stopped(Stop::Within) => t == count,
            End::Stopped(Stop::Falling) => t == count && !within,
            _ => false,
        };
        assert_eq!(within || falling, stop);
        assert!(!(t == 1 && falling));
        previous = fp;
    }
    if run.end == End::Stopped(Stop::Ten) {
        assert_eq!(count, 10);
    }
}

/// One row; the columns' entries, the residual, the scaling, radius and lambda.
fn one_row(jacobian: &[f64], residual: f64, diag: &[f64], radius: f64, lambda: f64) -> Run {
    let asked = factored(1, jacobian, &[residual], diag).expect("finite");
    run(&Question {
        radius,
        lambda,
        ..asked
    })
}

#[test]
fn a_witness_for_every_stop_rule() {
    let stopped = |run: Run| (run.end, run.trials.len());
    let undamped = one_row(&[1.0], 1.0, &[1.0], 1.0, 0.0);
    assert_eq!(stopped(undamped), (End::Stopped(Stop::Undamped), 0));
    let within = one_row(&[1.0], 1.0, &[2.0], 1.0, 0.0);
    assert_eq!(stopped(within), (End::Stopped(Stop::Within), 1));
    let falling = one_row(&[1.0, 1.0], 1.0, &[2.0, 1.0], 1.0, 1.0);
    assert_eq!(stopped(falling), (End::Stopped(Stop::Falling), 8));
    let ten = one_row(&[1.0, 1.0], 4.0, &[4.0, 1.0], 1.0, 1e-320);
    assert_eq!(stopped(ten), (End::Stopped(Stop::Ten), 10));
}

#[test]
fn a_witness_for_every_place_of_refusal_8() {
    let refused = |run: Run, place| assert_eq!(run.end, End::Refused(place));
    refused(
        one_row(&[1e-320], 1.0, &[1.0], 1.0, 0.0),
        Place::UndampedNorm,
    );
    refused(one_row(&[1.0], 1.0, &[1.0], 1e-320, 0.0), Place::LowerBound);
    refused(one_row(&[1e308], 2.0, &[1e308], 1.0, 0.0), Place::Gnorm);
    refused(
        one_row(&[1.0, 1.0], 1.0, &[1e-200, 1.0], 1e-320, 0.0),
        Place::Lambda,
    );
    refused(
        one_row(&[1.0, 1e-320], 1.0, &[3.0, 1e-320], 1.0, 0.0),
        Place::TrialNorm,
    );
    refused(
        one_row(&[1e-300], 1e-200, &[1.0], 1.0, 0.0),
        Place::Correction,
    );
}

/// An infinite upper bound, damping or inner solve is not on document 01's list: the search goes on and answers.
#[test]
fn a_witness_for_everything_infinite_that_is_answered() {
    let answered = |run: &Run| matches!(run.end, End::Stopped(_));
    let upper = one_row(&[1.0, 1.0], 1.0, &[1.0, 1e-300], 1e-300, 0.0);
    assert!(answered(&upper) && upper.trials[0].upper == f64::INFINITY);
    let damping = one_row(&[2.0, 1.0], 4.0, &[1.0, 1e308], 1.0, 1.0);
    assert!(answered(&damping) && damping.trials.iter().any(|trial| trial.infinite_damping));
    let first = one_row(&[1e-320], 1e-150, &[1.0], 1.0, 0.0);
    assert!(answered(&first) && first.infinite_first_solve);
    let solve = one_row(&[1.0, 1e-320], 3.0, &[1.0, 1e-320], 1.0, 1e-300);
    assert!(answered(&solve) && solve.trials.iter().any(|trial| trial.infinite_solve));
}

#[test]
fn seeded_searches_are_what_document_01_says() {
    let mut counts: BTreeMap<String, usize> = BTreeMap::new();
    let mut numbers = Numbers(3);
    for asked in (0..10000).filter_map(|_| question(&mut numbers)) {
        *counts.entry(format!("{:?}", run(&asked).end)).or_default() += 1;
    }
    println!("{counts:#?}");
    assert!(counts.len() > 6);
}
