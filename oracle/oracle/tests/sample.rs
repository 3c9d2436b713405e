//! What `cover` counts is what the calls answer, and the sample that the gate replays is the oracle's own.

use api::{End, Place};
use oracle::cases::{self, Kind};
use oracle::classes::CLASSES;
use oracle::coverage::Coverage;
use oracle::engines::{PLAIN, SHOWN, Working};
use oracle::rooms::Rooms;
use oracle::script::Item;
use oracle::wanted::{wanted_of_calls, wanted_of_frozen};
use oracle::{sample, script};
use std::sync::LazyLock;

static SAMPLE: LazyLock<Vec<Vec<Item>>> = LazyLock::new(sample::cases);

fn printed(engine: &dyn Working, cases: &[Vec<Item>]) -> String {
    let mut rooms = Rooms::none();
    let items = cases.iter().flatten();
    items.map(|item| rooms.printed(engine, item)).collect()
}

fn counts(coverage: &Coverage, labels: &[&str]) -> u64 {
    labels.iter().map(|label| coverage.count(label)).sum()
}

/// The classes are read off runs, the answers off calls.
#[test]
fn the_rows_of_searches_add_up() {
    for engine in [SHOWN, PLAIN] {
        let (coverage, wanted) = cases::covered_by_scripts(engine, Kind::Calls, 6000, 2);
        assert_eq!(coverage.missing(&wanted), Vec::<String>::new());
        assert!(
            coverage
                .table(&wanted)
                .ends_with(" rows wanted, 0 at zero\n")
        );
        let answered = coverage.count("search ok");
        assert_eq!(counts(&coverage, &CLASSES[..4]), answered);
        assert_eq!(counts(&coverage, &CLASSES[10..21]), answered);
        let refused = coverage.count("search refused 8");
        assert_eq!(counts(&coverage, &CLASSES[4..10]), refused);
    }
}

#[test]
fn a_row_at_zero_is_told() {
    let (coverage, wanted) = cases::covered_by_scripts(PLAIN, Kind::Factorings, 1, 1);
    let table = coverage.table(&wanted);
    assert!(table.contains("         0 factor refused 8\n"));
    assert!(!table.ends_with(" 0 at zero\n"));
}

/// At least one factoring in twenty is of 64 rows and 8 columns or more.
#[test]
fn large_factorings_are_no_rarity() {
    let (coverage, wanted) = cases::covered_by_scripts(PLAIN, Kind::Factorings, 6000, 1);
    assert_eq!(coverage.missing(&wanted), Vec::<String>::new());
    assert!(coverage.count("factor ok, m from 64, n from 8") >= 300);
}

#[test]
fn the_sample_covers() {
    let mut all = Coverage::default();
    let (mut with, mut without) = (0, 0);
    for items in SAMPLE.iter() {
        let mut own = Coverage::default();
        own.sequence(SHOWN, items);
        all.sequence(SHOWN, items);
        match counts(&own, &["search ok", "search refused 8"]) {
            0 => without += 1,
            _ => with += 1,
        }
    }
    assert!(without >= 500 && with >= 300, "{without} {with}");
    assert_eq!(all.missing(&wanted_of_calls()), Vec::<String>::new());
    assert_eq!(all.missing(&wanted_of_frozen()), Vec::<String>::new());
}

/// The stored input is the sample, and the stored output is what both workings print for it.
#[test]
fn the_stored_sample_is_the_oracles() {
    let stored = |name: &str| {
        let replay = concat!(env!("CARGO_MANIFEST_DIR"), "/../../crates/replay/");
        std::fs::read_to_string(replay.to_string() + name).unwrap()
    };
    let script: String = SAMPLE.iter().map(|items| script::text(items)).collect();
    assert!(stored("stdin") == script, "make it anew: oracle/README.md");
    assert!(stored("stdout") == printed(SHOWN, &SAMPLE));
    assert!(stored("stdout") == printed(PLAIN, &SAMPLE));
}

/// The first is refused before its first trial, the second before its tenth solve, the third after it.
#[test]
fn the_sample_has_refusals_of_the_last_trial() {
    let run = |case: usize| {
        let (mut rooms, items) = (Rooms::none(), &SAMPLE[case]);
        items[..2].iter().for_each(|item| {
            rooms.play(SHOWN, item);
        });
        let run = rooms.asked(&items[2]).and_then(|asked| asked.run(SHOWN));
        run.map(|run| (run.end, run.trials.len()))
    };
    assert_eq!(run(28), Some((End::Refused(Place::UndampedNorm), 0)));
    assert_eq!(run(29), Some((End::Refused(Place::Lambda), 9)));
    assert_eq!(run(30), Some((End::Refused(Place::TrialNorm), 10)));
}

/// Document 01, only run: G with r = (36) gives lambda above zero; 128 rows are accepted, 129 refused.
#[test]
fn the_sample_has_what_is_only_run() {
    let answer = |case: usize, line: usize| {
        let text = printed(SHOWN, &SAMPLE[case..=case]);
        text.lines().nth(line).unwrap().to_string()
    };
    let found = answer(3, 6);
    let [ok, lambda, _, trials, "0", "0"] = found.split(' ').collect::<Vec<_>>()[..] else {
        panic!("{found}")
    };
    let lambda = f64::from_bits(u64::from_str_radix(lambda, 16).unwrap());
    assert!((ok, trials) == ("ok", "1") && lambda > 0.0);
    assert_eq!(answer(8, 0), "ok 0 0");
    assert_eq!(answer(9, 0), "refused 2");
}
