//! The sample that the gate replays where there is no Rust: fixed cases, then cases thinned from those of `make`.

use crate::cases::{drawn, is_longer};
use crate::coverage::Coverage;
use crate::engines::PLAIN;
use crate::make_calls::{bare_factoring, bare_sequence};
use crate::random::Random;
use crate::sample_above;
use crate::sample_away;
use crate::sample_frozen;
use crate::sample_ranges;
use crate::script::Item;
use crate::wanted::wanted_but_ranges;

/// How many are kept: factorings alone; sequences without a search that gets past its input checks; sequences with one.
const FACTORINGS: usize = 250;
const WITHOUT: usize = 260;
const WITH: usize = 300;
/// Beyond that a sequence is kept for a row of the coverage that fewer calls than this have shown.
const FEW: u64 = 3;
const DRAWN: u64 = 4000;
/// Every call prints the whole rooms, so of the drawn cases with more numbers in store and bench only so many are kept.
pub const LONG: usize = 120;
const LONG_KEPT: usize = 2;

pub fn case(m: usize, n: usize, jacobian: &[f64], residuals: &[f64], calls: &[Item]) -> Vec<Item> {
    marked_case(m, n, 0, jacobian, residuals, calls)
}

pub fn marked_case(
    m: usize,
    n: usize,
    marks: u16,
    jacobian: &[f64],
    residuals: &[f64],
    calls: &[Item],
) -> Vec<Item> {
    let rooms = Item::Rooms {
        store: n * n + 4 * n,
        order: n,
        bench: m * n + m,
        out: n,
        seed: 1,
    };
    let factor = Item::Factor {
        m,
        n,
        marks,
        jacobian: jacobian.to_vec(),
        residuals: residuals.to_vec(),
    };
    [&[rooms, factor], calls, &[Item::End]].concat()
}

pub fn search(diag: &[f64], radius: f64, lambda: f64) -> Item {
    Item::Search {
        diag: diag.to_vec(),
        radius,
        lambda,
    }
}

/// Document 01's examples E to L, and G with r = (36).
fn examples() -> Vec<Vec<Item>> {
    let three = |r: f64, call: Item| case(1, 1, &[3.0], &[r], &[call]);
    vec![
        case(1, 2, &[3.0, 3.0], &[1.0], &[]),
        three(6.0, search(&[1.0], 2.0, 0.0)),
        three(33.0, search(&[1.0], 10.0, 0.0)),
        three(36.0, search(&[1.0], 10.0, 0.0)),
        case(
            1,
            2,
            &[3.0, 4.0],
            &[8.0],
            &[Item::Zero, Item::Gradient(8.0)],
        ),
        case(
            4,
            3,
            &[0.0; 12],
            &[1.0, 2.0, 3.0, 4.0],
            &[Item::Determined, Item::Gradient(1.0)],
        ),
        three(6.0, search(&[1.0], 0.0, 0.0)),
        three(6.0, Item::Solve(vec![1.0])),
    ]
}

/// The largest sizes, and one row or column more; a search on the largest, and on the widest with fewer rows.
fn limits() -> Vec<Vec<Item>> {
    let mut rng = Random::new(1);
    let numbers: Vec<f64> = (0..128 * 16).map(|_| rng.unit()).collect();
    let of_ones = |m: usize, n: usize| case(m, n, &vec![1.0; m * n], &vec![1.0; m], &[]);
    let wide = |m: usize| {
        let asked = search(&[1.0; 16], 0.5, 0.0);
        case(m, 16, &numbers[..m * 16], &numbers[..m], &[asked])
    };
    vec![
        of_ones(128, 1),
        of_ones(129, 1),
        of_ones(1, 16),
        of_ones(1, 17),
        wide(128),
        wide(5),
    ]
}

/// A search of one row: Jacobian, residual, scaling, radius, lambda.
type Witness = (&'static [f64], f64, &'static [f64], f64, f64);

/// Each stop rule; each place of refusal 8; each infinite number that is answered. The same inputs stand in
/// docs/TRACE.md.
const WITNESSES: [Witness; 14] = [
    (&[1.0], 1.0, &[1.0], 1.0, 0.0),
    (&[1.0], 1.0, &[2.0], 1.0, 0.0),
    (&[1.0, 1.0], 1.0, &[2.0, 1.0], 1.0, 1.0),
    (&[1.0, 1.0], 4.0, &[4.0, 1.0], 1.0, 1e-320),
    (&[1e-320], 1.0, &[1.0], 1.0, 0.0),
    (&[1.0], 1.0, &[1.0], 1e-320, 0.0),
    (&[1e308], 2.0, &[1e308], 1.0, 0.0),
    (&[1.0, 1.0], 1.0, &[1e-200, 1.0], 1e-320, 0.0),
    (&[1.0, 1e-320], 1.0, &[3.0, 1e-320], 1.0, 0.0),
    (&[1e-300], 1e-200, &[1.0], 1.0, 0.0),
    (&[1.0, 1.0], 1.0, &[1.0, 1e-300], 1e-300, 0.0),
    (&[2.0, 1.0], 4.0, &[1.0, 1e308], 1.0, 1.0),
    (&[1e-320], 1e-150, &[1.0], 1.0, 0.0),
    (&[1.0, 1e-320], 3.0, &[1.0, 1e-320], 1.0, 1e-300),
];

/// Each search again after a zero solve: the room is what the factoring left, answered or refused.
fn witnesses() -> Vec<Vec<Item>> {
    WITNESSES
        .iter()
        .map(|&(jacobian, r, diag, radius, lambda)| {
            let asked = search(diag, radius, lambda);
            let calls = [asked.clone(), Item::Zero, asked];
            case(1, jacobian.len(), jacobian, &[r], &calls)
        })
        .collect()
}

/// Refusals 8 that a search which went on would turn into an answer: an infinite undamped norm where R is singular;
/// an infinite lambda for trial ten; an infinite scaled norm in trial ten, where the step alone is over the largest
/// number. Chance does not make the last.
fn going_on() -> Vec<Vec<Item>> {
    let pairs = [1e3, 0.0, 1e3, 0.0, 0.0, 1e-16, 0.0, 5e-17];
    let of_pairs = search(&[2.0, 1.0, 4e-12, 1e-12], 3e296, 2e9);
    let of_ten = search(&[1e20, 1.0], 4.446e-304, 7.4e307);
    let undamped = search(&[1.0, 1.0], 1.0, 0.0);
    vec![
        case(1, 2, &[1e-320, 0.0], &[1.0], &[undamped]),
        case(1, 2, &[1.0, 0.0], &[5.2e24], &[of_ten]),
        case(2, 4, &pairs, &[1.5e299, 1.1235582093e292], &[of_pairs]),
    ]
}

/// What is held, and what a held call reads: L = 5 for J = (3), r = (6), D = (4), so L·qt_b is −30 in a fresh working. Each call
/// between that a problem allows: refused ones, a zero solve, a search; and straight after a factoring every held call
/// is refused 5, whoever asks.
fn held() -> Vec<Vec<Item>> {
    let four = || Item::Damped(vec![4.0]);
    let refused = || search(&[1.0], 0.0, 0.0);
    let three = |calls: &[Item]| case(1, 1, &[3.0], &[6.0], calls);
    vec![
        three(&[
            four(),
            Item::Mul,
            refused(),
            Item::Mul,
            Item::Determined,
            Item::Mul,
        ]),
        three(&[
            four(),
            Item::Zero,
            Item::Mul,
            four(),
            search(&[1.0], 2.0, 0.0),
            Item::Mul,
        ]),
        three(&[Item::Mul, Item::Solve(vec![1.0]), Item::Mul]),
    ]
}

/// 02, #104: what `determined` must tell apart. Factored: a limit met exactly and just exceeded; more columns than rows, so
/// that max(m, n) is n; a limit whose products come out otherwise in the other order; `qr.rs`'s matrix of rank one. Claimed:
/// a large diagonal after a zero one, and one that is larger than the first.
fn near() -> Vec<Vec<Item>> {
    let (r, p) = (0x021F_6D0C_8E71_FDBE, 0x0000_0009_D213_EC84);
    let edge = 2.0 * f64::EPSILON;
    let on_diagonal = |m: usize, n: usize, diagonal: [f64; 2]| {
        let mut jacobian = vec![0.0; m * n];
        (jacobian[0], jacobian[m + 1]) = (diagonal[0], diagonal[1]);
        case(m, n, &jacobian, &vec![1.0; m], &[Item::Determined])
    };
    let products = (0..50).map(|k| ((k % 10 + 1) * (k / 10 + 1)) as f64);
    let rank_one: Vec<f64> = products.collect();
    let claimed = |diagonal: &[f64]| {
        let n = diagonal.len();
        let cells = diagonal.iter().enumerate();
        let cells = cells.map(|(j, d)| Item::Store(j * n + j, *d)).collect();
        let calls = [cells, vec![Item::Determined]].concat();
        case(n, n, &vec![1.0; n * n], &vec![1.0; n], &calls)
    };
    vec![
        on_diagonal(2, 2, [1.0, edge]),
        on_diagonal(2, 2, [1.0, edge.next_up()]),
        on_diagonal(2, 4, [1.0, 3.0 * f64::EPSILON]),
        on_diagonal(5, 2, [f64::from_bits(r), f64::from_bits(p)]),
        case(10, 5, &rank_one, &[1.0; 10], &[Item::Determined]),
        claimed(&[1.0, 0.0, 1.0]),
        claimed(&[1e-20, 1.0]),
    ]
}

fn is_long(items: &[Item]) -> bool {
    is_longer(items, LONG)
}

/// Keeps what `keep` says, and of long cases the first few.
fn thinned(
    drawn: impl Iterator<Item = Vec<Item>>,
    mut keep: impl FnMut(&[Item]) -> bool,
) -> Vec<Vec<Item>> {
    let mut long = 0;
    drawn
        .filter(|items| {
            let room = !is_long(items) || long < LONG_KEPT;
            let kept = room && keep(items);
            long += usize::from(kept && is_long(items));
            kept
        })
        .collect()
}

fn sequences() -> Vec<Vec<Item>> {
    let (wanted, mut shown) = (wanted_but_ranges(), Coverage::default());
    let (mut with, mut without) = (0, 0);
    thinned(drawn(bare_sequence, DRAWN, 2), |items| {
        let mut own = Coverage::default();
        own.sequence(PLAIN, items);
        let few = wanted
            .iter()
            .any(|label| own.count(label) > 0 && shown.count(label) < FEW);
        let worked = own.count("search ok") + own.count("search refused 8") > 0;
        let (kept, most) = if worked {
            (&mut with, WITH)
        } else {
            (&mut without, WITHOUT)
        };
        if !few && *kept >= most {
            return false;
        }
        *kept += 1;
        shown.sequence(PLAIN, items);
        true
    })
}

pub fn cases() -> Vec<Vec<Item>> {
    let mut factorings = thinned(drawn(bare_factoring, DRAWN, 1), |_| true);
    factorings.truncate(FACTORINGS);
    let fixed = [
        examples(),
        limits(),
        witnesses(),
        going_on(),
        held(),
        near(),
    ]
    .concat();
    let ranges = sample_ranges::cases();
    [
        fixed,
        factorings,
        sequences(),
        ranges,
        sample_frozen::cases(),
        sample_above::cases(),
        sample_away::cases(),
    ]
    .concat()
}
