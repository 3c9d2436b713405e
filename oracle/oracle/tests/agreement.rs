//! Both workings give the same bits, and the cases reach everything that document 01 tells apart.

use oracle::cases::{self, Kind};
use oracle::compare;
use oracle::coverage::Coverage;
use oracle::engines::PLAIN;
use oracle::pool::Pool;
use oracle::random::Random;
use oracle::rooms::Rooms;
use oracle::sheets::Fields;
use oracle::wanted::{wanted_of_calls, wanted_of_frozen, wanted_of_sheets};
use oracle::{make_away, make_sheets, script};

#[test]
fn leaves_agree() {
    let tally = compare::leaves(20_000, 1);
    assert!(tally.compared > 30_000);
    assert_eq!(tally.differ, 0);
}

#[test]
fn sheets_and_sequences_agree() {
    let (sheets, sequences, _) = compare::sheets_and_sequences(2000, 1000, 1);
    assert_eq!((sheets.compared, sheets.differ), (2000, 0));
    assert_eq!((sequences.compared, sequences.differ), (1000, 0));
    assert!(sequences.calls > 5000);
    assert!(sequences.questions > 300 && sequences.against == 0);
    assert!(sequences.unpacked > 100 && sequences.other == 0);
}

/// 02, #108: a third of these has no mark.
#[test]
fn frozen_sequences_agree_and_cover() {
    let mut coverage = Coverage::default();
    let tally = compare::frozen(3000, 1, &mut coverage);
    assert_eq!((tally.compared, tally.differ), (3000, 0));
    assert!(tally.questions > 1000 && tally.against == 0);
    assert!(tally.unpacked > 300 && tally.other == 0);
    assert_eq!(coverage.missing(&wanted_of_frozen()), Vec::<String>::new());
}

#[test]
fn sheets_cover() {
    let pool = Pool::hunt(3);
    let (mut rng, mut coverage) = (Random::new(3), Coverage::default());
    for _ in 0..6000 {
        let bytes = make_sheets::sheet(&mut rng, &pool);
        coverage.sheet(PLAIN, &bytes, &PLAIN.sheet(&bytes));
    }
    assert_eq!(coverage.missing(&wanted_of_sheets()), Vec::<String>::new());
}

#[test]
fn calls_cover() {
    let pool = Pool::hunt(4);
    let (mut rng, mut coverage) = (Random::new(4), Coverage::default());
    for _ in 0..6000 {
        coverage.sequence(PLAIN, &make_away::calls(&mut rng, &pool));
    }
    assert_eq!(coverage.missing(&wanted_of_calls()), Vec::<String>::new());
}

/// When a partial norm is worked out anew: no quotient meets the edge, so that `<=` cannot be told from `<` there.
#[test]
fn no_quotient_gives_epsmch_itself() {
    let tested = |q: f64| 0.05 * (q * q);
    let below = f64::from_bits(0x3E71_E377_9B97_F4A7);
    assert!(tested(below) < f64::EPSILON && tested(below.next_up()) > f64::EPSILON);
}

/// A script says all that its items say, so that another program that reads it is asked the same.
#[test]
fn scripts_read_back() {
    let of_calls = cases::scripts(Kind::Calls, 200, 5);
    for items in of_calls.chain(cases::scripts(Kind::Frozen, 200, 5)) {
        let text = script::text(&items);
        let (mut a, mut b) = (Rooms::none(), Rooms::none());
        for (item, line) in items.iter().zip(text.lines()) {
            let read = script::read(line).unwrap();
            let replies = (a.play(PLAIN, item), b.play(PLAIN, &read));
            assert_eq!(replies.0.map(|r| r.text()), replies.1.map(|r| r.text()));
            assert!(a.same(&b));
        }
    }
}

/// A sheet's header has 24 bits: each of its values, with doubles that make the exact length for some of them.
#[test]
fn every_header() {
    let mut bytes = vec![0u8; 3 + 8 * 4];
    for x in bytes[3..].chunks_mut(8) {
        x.copy_from_slice(&1.0f64.to_be_bytes());
    }
    for head in (0..1 << 24).step_by(7).chain(0x11_0000..0x13_0000) {
        bytes[..3].copy_from_slice(&u32::to_be_bytes(head)[1..]);
        let said = PLAIN.sheet(&bytes);
        let exact = Fields::read(&bytes).is_some();
        assert_eq!(
            exact,
            !["refused 1\n", "refused 2\n", "refused 3\n"].contains(&said.as_str())
        );
    }
}
