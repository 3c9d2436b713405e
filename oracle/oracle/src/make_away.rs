//! Three problems in turn, packed and unpacked (02, #107): three of five sequences end with such a part. It is drawn aside, so
//! that what stands before it stays what it is.

use crate::arguments::length;
use crate::away::needed;
use crate::engines::PLAIN;
use crate::make_calls::{self, Scene, call_of, example, factoring};
use crate::make_frozen::{self, marked_example};
use crate::pool::{Example, Pool};
use crate::problem;
use crate::random::Random;
use crate::rooms::Rooms;
use crate::script::{ASIDE, Item, PACKED};
use crate::spoil_away as spoil;
use api::{EMPTY, Held, State};

/// A station: its problems, those that are lent and those put aside, and what its owner keeps beside each packed room.
pub struct Station {
    pub rooms: Rooms,
    pub items: Vec<Item>,
    pub problems: Vec<(Example, u16)>,
    /// Which problem is lent, then which are put aside.
    pub at: [usize; 1 + ASIDE],
    /// The state, and which problem it is of.
    pub beside: [(State, usize); PACKED],
}

pub const KEPT: [Held; 3] = [Held::Nothing, Held::Zero, Held::Damped];

impl Station {
    /// Whether a call was answered; nothing for other items.
    pub fn put(&mut self, item: Item) -> Option<bool> {
        let reply = self.rooms.play(PLAIN, &item);
        self.items.push(item);
        reply.map(|reply| reply.answer.is_ok())
    }

    /// What the calls of the lent problem are drawn from.
    pub fn scene(&self) -> Scene {
        let (example, marks) = self.problems[self.at[0]].clone();
        Scene {
            example,
            marks,
            store: self.rooms.store.len(),
            order: self.rooms.order.len(),
        }
    }

    pub fn most(&self, of: impl Fn(usize, usize) -> usize) -> usize {
        let sizes = self
            .problems
            .iter()
            .map(|(e, _)| (e.problem.m, e.problem.n));
        sizes.map(|(m, n)| of(m, n)).max().unwrap_or(0)
    }

    /// A room for any of the problems or for one.
    fn lend(&mut self, rng: &mut Random, own: usize) {
        let n = self.problems[own].0.problem.n;
        let n = if rng.percent(70) {
            self.most(|_, n| n)
        } else {
            n
        };
        let (bench, out) = (self.most(|m, n| m * n + m), self.most(|_, n| n));
        let item = Item::Rooms {
            store: length(rng, n * n + 4 * n),
            order: length(rng, n),
            bench: length(rng, bench),
            out,
            seed: rng.bits(),
        };
        self.put(item);
        self.at[0] = own;
    }

    pub fn lend_packed(&mut self, rng: &mut Random, packed: usize, n: usize) {
        let mut about = |needed: usize| match rng.below(100) {
            0..5 => rng.below(needed),
            5..60 => needed,
            _ => needed + 1 + rng.below(3),
        };
        let (room, places) = (about(needed(n)), about(n));
        let seed = rng.bits();
        self.put(Item::Lend {
            packed,
            room,
            places,
            seed,
        });
    }

    fn call(&mut self, rng: &mut Random) {
        let scene = self.scene();
        let item = match rng.below(11) {
            10 => Item::Above {
                b_norm: rng.unit().abs() * 10.0,
                limit: rng.pick(&[0.0, 1.0, 1e-3]),
            },
            k => call_of(rng, &scene, [0, 14, 28, 42, 52, 60, 68, 78, 89, 92][k]),
        };
        self.put(item);
    }

    /// After a solve now and then; after it, at times, a number that is none in the surplus.
    fn pack(&mut self, rng: &mut Random) {
        let k = rng.below(PACKED);
        let state = self.rooms.state;
        match rng.below(100) {
            0..8 => {
                let other = spoil::state(rng, self, state);
                self.put(Item::State(other));
            }
            8..40 => {
                let which = rng.pick(&[0, 14]);
                let item = call_of(rng, &self.scene(), which);
                self.put(item);
            }
            _ => {}
        }
        if self.put(Item::Pack(k)) == Some(true) {
            self.beside[k] = (self.rooms.state, self.at[0]);
            if rng.percent(25) {
                spoil::surplus(rng, self, k);
            }
        }
    }

    /// Mostly one that something is kept beside.
    fn some_packed(&self, rng: &mut Random) -> usize {
        let is_kept = |k: &usize| self.beside[*k].0.held != Held::Empty;
        let kept: Vec<usize> = (0..PACKED).filter(is_kept).collect();
        if kept.is_empty() || rng.percent(10) {
            return rng.below(PACKED);
        }
        rng.pick(&kept)
    }

    /// The state that is kept beside the room mostly, of any held; the lent store is now and then lent anew.
    pub fn unpack(&mut self, rng: &mut Random, k: usize) {
        let (kept, own) = self.beside[k];
        if rng.percent(25) {
            self.lend(rng, own);
        }
        let held = rng.pick(&KEPT);
        let of_kept = State { held, ..kept };
        match rng.below(100) {
            0..65 if kept.held != Held::Empty => self.put(Item::State(of_kept)),
            65..75 => {
                let (other, _) = self.beside[rng.below(PACKED)];
                self.put(Item::State(other))
            }
            75..85 => {
                let other = spoil::state(rng, self, of_kept);
                self.put(Item::State(other))
            }
            _ => None,
        };
        if rng.percent(30) {
            spoil::lent_list(rng, self);
        }
        if self.put(Item::Unpack(k)) == Some(true) {
            self.at[0] = own;
            self.after(rng);
        }
    }

    /// A held call straight after it now and then, and others.
    fn after(&mut self, rng: &mut Random) {
        if rng.percent(20) {
            self.put(Item::Mul);
        }
        for _ in 0..1 + rng.below(3) {
            self.call(rng);
        }
    }

    fn step(&mut self, rng: &mut Random) {
        match rng.below(100) {
            0..18 => {
                let k = rng.below(ASIDE);
                self.put(Item::Exchange(k));
                self.at.swap(0, 1 + k);
            }
            18..42 => self.pack(rng),
            42..68 => {
                let k = self.some_packed(rng);
                self.unpack(rng, k);
            }
            68..84 => self.call(rng),
            _ => spoil::any(rng, self),
        }
    }
}

/// Of the same sizes and marks as another.
fn alike(rng: &mut Random, (other, marks): &(Example, u16)) -> (Example, u16) {
    let problem = problem::sized(rng, other.problem.m, other.problem.n);
    let diag = problem::scaling(rng, problem.n);
    let radius = problem::radius(rng, &problem, &diag);
    let lambda = problem::lambda(rng);
    let example = Example {
        problem,
        diag,
        radius,
        lambda,
    };
    (example, *marks)
}

fn problems(rng: &mut Random, pool: &Pool, marked: bool) -> Vec<(Example, u16)> {
    let mut problems: Vec<(Example, u16)> = Vec::new();
    for _ in 0..1 + ASIDE {
        let drawn = match problems.first() {
            Some(first) if rng.percent(50) => alike(rng, first),
            _ if marked && rng.percent(85) => marked_example(rng, pool),
            _ => (example(rng, pool), 0),
        };
        problems.push(drawn);
    }
    problems
}

/// Three problems, each factored in rooms of its own, and three packed rooms; then the steps.
fn part(rng: &mut Random, pool: &Pool, marked: bool) -> Vec<Item> {
    let mut station = Station {
        rooms: Rooms::none(),
        items: Vec::new(),
        problems: problems(rng, pool, marked),
        at: [0, 1, 2],
        beside: [(EMPTY, 0); PACKED],
    };
    for k in 0..=ASIDE {
        station.lend(rng, k);
        let item = factoring(rng, &station.scene());
        station.put(item);
        if k < ASIDE {
            station.put(Item::Exchange(k));
        }
    }
    station.at = [2, 0, 1];
    for k in 0..PACKED {
        let n = station.most(|_, n| n);
        station.lend_packed(rng, k, n);
    }
    for _ in 0..5 + rng.below(8) {
        station.step(rng);
    }
    station.items
}

fn with_part(mut rng: Random, pool: &Pool, marked: bool, mut items: Vec<Item>) -> Vec<Item> {
    if rng.percent(60) {
        let end = items.pop();
        items.append(&mut part(&mut rng, pool, marked));
        items.extend(end);
    }
    items
}

/// A generator of its own, which takes nothing from the other's draws.
fn apart(rng: &Random) -> Random {
    Random::new(rng.aside().bits() ^ 0x7061_636B)
}

pub fn calls(rng: &mut Random, pool: &Pool) -> Vec<Item> {
    let own = apart(rng);
    with_part(own, pool, false, make_calls::sequence(rng, pool))
}

pub fn frozen(rng: &mut Random, pool: &Pool) -> Vec<Item> {
    let own = apart(rng);
    with_part(own, pool, true, make_frozen::sequence(rng, pool))
}

/// The part alone, for the sample.
pub fn alone(rng: &mut Random, pool: &Pool) -> Vec<Item> {
    let marked = rng.percent(50);
    let mut items = part(rng, pool, marked);
    items.push(Item::End);
    items
}
