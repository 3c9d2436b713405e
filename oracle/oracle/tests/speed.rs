//! The stored run of the program `speed` says what both workings say.

use oracle::engines::{PLAIN, SHOWN};
use oracle::speed::{Task, sum};
use oracle::text::push_double;

const ASKED: &str = include_str!("../../../crates/speed/stdin");
const PRINTED: &str = include_str!("../../../crates/speed/stdout");

#[test]
fn stored_checksum() {
    let numbers: Vec<u64> = ASKED
        .split_whitespace()
        .map(|word| u64::from_str_radix(word, 16).unwrap())
        .collect();
    let [m, n, calls, mode] = numbers[..] else {
        panic!("four numbers")
    };
    let task = Task {
        m: m as usize,
        n: n as usize,
        calls,
        mode,
    };
    for engine in [SHOWN, PLAIN] {
        let mut text = String::new();
        push_double(&mut text, sum(engine, &task));
        assert_eq!(text + "\n", PRINTED);
    }
}

/// Every mode and some sizes, m < n among them: both workings give the same sum.
#[test]
fn both_workings() {
    for (m, n) in [(1, 1), (8, 2), (3, 5), (16, 4), (64, 8)] {
        for mode in 0..=8 {
            let task = Task {
                m,
                n,
                calls: 20,
                mode,
            };
            let sums = [SHOWN, PLAIN].map(|engine| sum(engine, &task).to_bits());
            assert_eq!(sums[0], sums[1]);
        }
    }
}
