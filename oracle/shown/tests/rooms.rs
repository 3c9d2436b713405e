//! Seeded sequences of calls over one lent room: no call ends otherwise than by an answer or a refusal, and after each
//! the room is as document 01's table says, told from the bits before and after alone.

mod common;

use api::{EMPTY, Engine, Held, Mode, State};
use common::Numbers;
use shown::Shown;

const SURPLUS: usize = 3;

/// A lent room with surplus, and the state as it came back.
#[derive(Clone)]
struct Site {
    state: State,
    store: Vec<f64>,
    order: Vec<usize>,
    bench: Vec<f64>,
}

fn bits(numbers: &[f64]) -> Vec<u64> {
    numbers.iter().map(|number| number.to_bits()).collect()
}

fn is_zero(numbers: &[f64]) -> bool {
    numbers.iter().all(|number| number.to_bits() == 0)
}

impl Site {
    fn new(numbers: &mut Numbers, m: usize, n: usize) -> Site {
        Site {
            state: EMPTY,
            store: numbers.list(n * n + 4 * n + SURPLUS),
            order: (0..n + SURPLUS).map(|_| numbers.below(n + 1)).collect(),
            bench: numbers.list(m * n + m + SURPLUS),
        }
    }

    fn factor(&mut self, numbers: &mut Numbers, m: usize, n: usize) {
        let before = self.clone();
        let (jacobian, residuals) = (numbers.matrix(m * n), numbers.matrix(m));
        let (store, order, bench) = (&mut self.store, &mut self.order, &mut self.bench);
        let (answer, state) = Shown.factor(m, n, 0, &jacobian, &residuals, store, order, bench);
        self.state = state;
        let needed = n * n + 4 * n;
        assert_eq!(bits(&self.store[needed..]), bits(&before.store[needed..]));
        assert_eq!(self.order[n..], before.order[n..]);
        assert_eq!(
            bits(&self.bench[m * n + m..]),
            bits(&before.bench[m * n + m..])
        );
        match answer {
            Ok(_) => assert_eq!(
                state,
                State {
                    m,
                    n,
                    held: Held::Nothing,
                    marks: 0,
                }
            ),
            Err(_) => assert_eq!(state, EMPTY),
        }
        match answer {
            Err(number @ 2..8) => {
                assert_eq!(number, 6);
                self.assert_same(&before);
            }
            _ => assert!(is_zero(&self.bench[..m * n + m])),
        }
        if answer == Err(8) {
            assert!(is_zero(&self.store[..needed]));
            assert!(
                self.order[..n]
                    .iter()
                    .enumerate()
                    .all(|(place, entry)| place == *entry)
            );
        }
        if answer.is_ok() {
            assert!(self.lower(n).iter().all(|entry| entry.to_bits() == 0));
            assert!(is_zero(&self.store[n * n + 2 * n..needed]));
        }
    }

    fn assert_same(&self, before: &Site) {
        assert_eq!(bits(&self.store), bits(&before.store));
        assert_eq!(self.order, before.order);
        assert_eq!(bits(&self.bench), bits(&before.bench));
    }

    /// The strict lower part and l_diag.
    fn lower(&self, n: usize) -> Vec<f64> {
        let below = (0..n).flat_map(|j| (j + 1..n).map(move |i| j * n + i));
        let l_diag = n * n + 2 * n..n * n + 3 * n;
        below.chain(l_diag).map(|place| self.store[place]).collect()
    }

    /// Everything but the strict lower part, l_diag and work.
    fn kept(&self, n: usize) -> Vec<u64> {
        let upper = (0..n).flat_map(|j| (0..=j).map(move |i| j * n + i));
        let vectors = n * n..n * n + 2 * n;
        let surplus = n * n + 4 * n..self.store.len();
        let places = upper.chain(vectors).chain(surplus);
        places.map(|place| self.store[place].to_bits()).collect()
    }
}

/// The number of an answer: 0 where it is not a refusal.
fn number<T>(answer: &Result<T, u8>) -> u8 {
    answer.as_ref().err().copied().unwrap_or(0)
}

/// One call at random. Gives its refusal number, the state back, and whether it is a solve or a search.
fn call(
    which: usize,
    site: &mut Site,
    numbers: &mut Numbers,
    out: &mut [f64],
) -> (u8, State, bool) {
    let (state, n) = (site.state, out.len() - SURPLUS);
    let (store, order) = (&mut site.store, &site.order);
    let mut lent = numbers.matrix(n);
    let (radius, lambda) = (numbers.double().abs(), numbers.double().abs());
    match which {
        0 => {
            let (answer, state) = Shown.solve_with_zero_diagonal(state, store, order, out);
            (number(&answer), state, true)
        }
        1 => {
            let (answer, state) = Shown.solve_with_diagonal(state, store, order, &lent, out);
            (number(&answer), state, true)
        }
        2 => {
            let (answer, state) = Shown.search(state, store, order, &lent, radius, lambda, out);
            (number(&answer), state, true)
        }
        3 => {
            let (answer, state) = Shown.solve(state, store, order, &lent, out);
            (number(&answer), state, false)
        }
        4 => {
            let (answer, state) = Shown.mul_qt_b(state, store, out);
            (number(&answer), state, false)
        }
        5 => {
            let (answer, state) = Shown.max_a_t_b_scaled(state, store, order, radius);
            (number(&answer), state, false)
        }
        6 => {
            let (answer, state) = Shown.a_x_norm(state, store, order, &lent);
            (number(&answer), state, false)
        }
        13 => {
            let (answer, state) = Shown.above_limit(state, store, order, radius, lambda);
            (number(&answer), state, false)
        }
        7 => {
            let (answer, state) = Shown.determined(state, store);
            (number(&answer), state, false)
        }
        8 => {
            let (answer, state) = Shown.is_non_singular(state, store);
            (number(&answer), state, false)
        }
        _ => {
            let modes = [
                Mode::FirstScaled,
                Mode::FirstUnscaled,
                Mode::LaterScaled,
                Mode::LaterUnscaled,
            ];
            let (mode, x) = (modes[which - 9], numbers.matrix(n));
            let before = bits(&lent);
            let (answer, state) = Shown.update_diag(state, store, mode, &mut lent, &x, radius);
            let unscaled = matches!(mode, Mode::FirstUnscaled | Mode::LaterUnscaled);
            if unscaled || answer.is_err() {
                assert_eq!(bits(&lent), before);
            }
            (number(&answer), state, false)
        }
    }
}

/// What the state and the lower part are after a solve or a search that passed its checks.
fn assert_settled(site: &Site, which: usize, refused: bool) {
    let held = match which {
        _ if refused => Held::Nothing,
        0 => Held::Zero,
        1 => Held::Damped,
        _ => Held::Nothing,
    };
    assert_eq!(site.state.held, held);
    if held != Held::Damped {
        assert!(is_zero(&site.lower(site.state.n)));
    }
}

fn step(site: &mut Site, numbers: &mut Numbers, n: usize) -> u8 {
    let which = numbers.below(14);
    let work = n * n + 3 * n..n * n + 4 * n;
    // Every call leaves +0 there, so that only a soiled work shows which of them wrote it.
    site.store[work.clone()].fill(7.0);
    let before = site.clone();
    let mut out = vec![7.0; n + SURPLUS];
    let (refused, state, settles) = call(which, site, numbers, &mut out);
    site.state = state;
    assert!(out[n..].iter().all(|entry| *entry == 7.0));
    if refused != 0 {
        assert!(out.iter().all(|entry| *entry == 7.0));
    }
    assert_eq!(site.order, before.order);
    assert_eq!(bits(&site.bench), bits(&before.bench));
    if (1..8).contains(&refused) {
        site.assert_same(&before);
        assert_eq!(state, before.state);
        return refused;
    }
    assert_eq!(site.kept(n), before.kept(n));
    assert!(is_zero(&site.store[work]));
    if settles {
        assert_settled(site, which, refused == 8);
    } else {
        assert_eq!(bits(&site.lower(n)), bits(&before.lower(n)));
        assert_eq!(state, before.state);
    }
    refused
}

#[test]
fn rooms_after_seeded_calls() {
    let mut numbers = Numbers(1);
    let mut counts = [0usize; 9];
    for sequence in 0..1500 {
        let n = 1 + numbers.below(if sequence % 20 == 0 { 16 } else { 4 });
        let m = 1 + numbers.below(if sequence % 20 == 0 { 128 } else { 6 });
        let mut site = Site::new(&mut numbers, m, n);
        site.factor(&mut numbers, m, n);
        for _ in 0..12 {
            counts[usize::from(step(&mut site, &mut numbers, n))] += 1;
        }
    }
    println!("answered, then refused 1 to 8: {counts:?}");
    assert!(
        [0, 5, 6, 7, 8].iter().all(|number| counts[*number] > 20),
        "{counts:?}"
    );
}

/// A length that is mostly enough.
fn about(numbers: &mut Numbers, needed: usize) -> usize {
    if numbers.one_in(12) {
        numbers.below(needed)
    } else {
        needed + numbers.below(2)
    }
}

/// A state that no factoring gave, over a room of any length with anything in it.
fn made_up(numbers: &mut Numbers) -> Site {
    let n = if numbers.one_in(20) {
        17
    } else {
        1 + numbers.below(4)
    };
    let m = if numbers.one_in(20) {
        [0, 129][numbers.below(2)]
    } else {
        1 + numbers.below(6)
    };
    let held = [Held::Empty, Held::Nothing, Held::Zero, Held::Damped][numbers.below(4)];
    let mut order: Vec<usize> = (0..about(numbers, n)).collect();
    if order.len() > 1 {
        let (a, b) = (numbers.below(order.len()), numbers.below(order.len()));
        order.swap(a, b);
        if numbers.one_in(8) {
            order[a] = n + numbers.below(2);
        }
    }
    let length = about(numbers, n * n + 4 * n);
    Site {
        state: State {
            m,
            n,
            held,
            marks: 0,
        },
        store: numbers.list(length),
        order,
        bench: Vec::new(),
    }
}

#[test]
fn made_up_rooms_are_answered_or_refused() {
    let mut numbers = Numbers(2);
    let mut counts = [0usize; 9];
    for _ in 0..20000 {
        let mut site = made_up(&mut numbers);
        let before = site.clone();
        let which = numbers.below(14);
        let mut out = vec![7.0; site.state.n + SURPLUS];
        let (refused, state, _) = call(which, &mut site, &mut numbers, &mut out);
        if (1..8).contains(&refused) {
            site.assert_same(&before);
            assert_eq!(state, before.state);
        }
        counts[usize::from(refused)] += 1;
    }
    println!("answered, then refused 1 to 8: {counts:?}");
    assert!(
        [0, 2, 3, 4, 5, 6, 7, 8]
            .iter()
            .all(|number| counts[*number] > 20),
        "{counts:?}"
    );
}
