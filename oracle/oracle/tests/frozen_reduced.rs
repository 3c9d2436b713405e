//! 02, #108: "the result must be that of the problem without the frozen columns". The same problem twice, with its frozen
//! columns in a room full of junk, and without them in a room of its own; each call is made on both, and every bit of
//! answer, state and room of the one is told from the other.

use api::{Held, Mode, free, frozen};
use oracle::compare::same_run;
use oracle::engines::{PLAIN, SHOWN, Working};
use oracle::make_frozen::marked_example;
use oracle::pool::{Example, Pool};
use oracle::problem;
use oracle::random::Random;
use oracle::replies::Reply;
use oracle::rooms::{Rooms, same_bits};
use oracle::script::{Item, mode_of};

struct Twins {
    m: usize,
    n: usize,
    marks: u16,
    free: usize,
    frozen: Rooms,
    own: Rooms,
}

fn lent(m: usize, n: usize, seed: u64) -> Item {
    Item::Rooms {
        store: n * n + 4 * n,
        order: n,
        bench: m * n + m,
        out: n,
        seed,
    }
}

impl Twins {
    fn lent(example: &Example, marks: u16, engine: &dyn Working) -> Twins {
        let (m, n) = (example.problem.m, example.problem.n);
        let free = free(marks, n);
        let (mut frozen, mut own) = (Rooms::none(), Rooms::none());
        frozen.play(engine, &lent(m, n, 3));
        own.play(engine, &lent(m, free, 4));
        Twins {
            m,
            n,
            marks,
            free,
            frozen,
            own,
        }
    }

    fn gathered(&self, v: &[f64], size: usize) -> Vec<f64> {
        let parts = v.chunks(size).take(self.n).enumerate();
        let free = parts.filter(|(k, _)| !frozen(self.marks, *k));
        free.flat_map(|(_, part)| part.to_vec()).collect()
    }

    /// The same call on the problem without the frozen columns.
    fn reduced(&self, item: &Item) -> Item {
        let vector = |v: &[f64]| self.gathered(v, 1);
        match item {
            Item::Factor {
                jacobian,
                residuals,
                ..
            } => Item::Factor {
                m: self.m,
                n: self.free,
                marks: 0,
                jacobian: self.gathered(jacobian, self.m),
                residuals: residuals.clone(),
            },
            Item::Damped(v) => Item::Damped(vector(v)),
            Item::Solve(v) => Item::Solve(vector(v)),
            Item::Norm(v) => Item::Norm(vector(v)),
            Item::Scale {
                mode,
                diag,
                x,
                step_bound,
            } => Item::Scale {
                mode: *mode,
                diag: vector(diag),
                x: vector(x),
                step_bound: *step_bound,
            },
            Item::Search {
                diag,
                radius,
                lambda,
            } => Item::Search {
                diag: vector(diag),
                radius: *radius,
                lambda: *lambda,
            },
            other => other.clone(),
        }
    }

    /// The place of the reduced problem's store that a place of the lent one has; none past the free count.
    fn place(&self, place: usize) -> Option<usize> {
        let (part, within) = (place / self.n, place % self.n);
        let part = match part {
            part if part < self.free => part,
            part if part < self.n => return None,
            part => part - self.n + self.free,
        };
        (within < self.free).then_some(part * self.free + within)
    }

    /// The whole store after a call that passed its checks: past the free count work is +0, and so are the lower part and
    /// l_diag after a call that sets them; the rest stays.
    fn store(&self, before: &[f64], sets_l: bool) -> Vec<f64> {
        let n = self.n;
        let past = |place: usize| match place / n {
            part if part < n && place % n > part => sets_l,
            part if part == n + 2 => sets_l,
            part => part == n + 3,
        };
        let all = 0..before.len();
        let number = |place: usize| match self.place(place) {
            Some(own) => self.own.store[own],
            None if past(place) => 0.0,
            None => before[place],
        };
        all.map(number).collect()
    }

    /// The output after an answered call: "a frozen column's step is +0", and a held call's places past the free count.
    fn out(&self, held_call: bool) -> Vec<f64> {
        let mut own = self.own.out.iter();
        let number = |k: usize| match held_call {
            true => self.own.out.get(k).copied().unwrap_or(0.0),
            false if frozen(self.marks, k) => 0.0,
            false => *own.next().unwrap(),
        };
        (0..self.n).map(number).collect()
    }

    fn soil(&mut self, rng: &mut Random) {
        for place in 0..self.frozen.store.len() {
            if self.place(place).is_none() {
                self.frozen.store[place] = rng.pick(&[f64::NAN, -0.0, 7.0, -1e300]);
            }
        }
        self.frozen.out.fill(-7.0);
        self.own.out.fill(-7.0);
    }

    /// Makes one call on both. Whether it was answered.
    fn call(&mut self, engine: &dyn Working, item: &Item) -> bool {
        let reduced = self.reduced(item);
        let before = self.frozen.clone();
        let runs = (
            before.asked(item).and_then(|asked| asked.run(engine)),
            self.own.asked(&reduced).and_then(|asked| asked.run(engine)),
        );
        assert!(same_run(&runs.0, &runs.1));
        let full = self.frozen.play(engine, item).unwrap();
        let own = self.own.play(engine, &reduced).unwrap();
        let first = |reply: &Reply| reply.text().lines().next().unwrap().to_string();
        assert_eq!(first(&full), first(&own));
        assert_eq!(self.frozen.state.held, self.own.state.held);
        assert_eq!(self.frozen.state.marks, self.marks);
        assert_eq!(self.frozen.order, before.order);
        self.assert_rooms(item, &before, &full);
        if let Item::Scale { mode, diag, .. } = item {
            self.assert_scaling(*mode, diag, &full, &own);
        }
        full.answer.is_ok()
    }

    fn assert_rooms(&self, item: &Item, before: &Rooms, reply: &Reply) {
        let sets_l = matches!(item, Item::Zero | Item::Damped(_) | Item::Search { .. });
        let held_call = matches!(item, Item::Solve(_) | Item::Mul);
        if matches!(reply.answer, Ok(_) | Err(8)) {
            let store = self.store(&before.store, sets_l);
            assert!(same_bits(&self.frozen.store, &store));
        }
        let out = match reply.answer.is_ok() && (sets_l || held_call) {
            true => self.out(held_call),
            false => before.out.clone(),
        };
        assert!(same_bits(&self.frozen.out, &out));
    }

    /// "First scaling gives a frozen column 1, later scaling leaves its entry", and so does every unscaled one.
    fn assert_scaling(&self, mode: Mode, lent: &[f64], full: &Reply, own: &Reply) {
        let first = full.answer.is_ok() && mode == Mode::FirstScaled;
        let (full, own) = (full.scaling.as_ref(), own.scaling.as_ref());
        let (full, own) = (full.unwrap(), own.unwrap());
        assert!(same_bits(&self.gathered(full, 1), own));
        for k in (0..self.n).filter(|k| frozen(self.marks, *k)) {
            let kept = if first { 1.0 } else { lent[k] };
            assert!(same_bits(&full[k..=k], &[kept]));
        }
    }

    /// Factors both. The order list continues the count, and all of the bench is +0.
    fn factor(&mut self, engine: &dyn Working, example: &Example) -> bool {
        let item = Item::Factor {
            m: self.m,
            n: self.n,
            marks: self.marks,
            jacobian: example.problem.jacobian.clone(),
            residuals: example.problem.residuals.clone(),
        };
        let reduced = self.reduced(&item);
        let full = self.frozen.play(engine, &item).unwrap();
        let own = self.own.play(engine, &reduced).unwrap();
        assert_eq!(full.text(), own.text());
        let zeros = vec![0.0; self.frozen.store.len()];
        assert!(same_bits(&self.frozen.store, &self.store(&zeros, true)));
        let order = self.own.order.iter().copied().chain(self.free..self.n);
        assert!(self.frozen.order.iter().copied().eq(order));
        assert!(self.frozen.bench.iter().all(|x| x.to_bits() == 0));
        let held = (self.frozen.state.held, self.own.state.held);
        assert_eq!(held.0, held.1);
        let kept = if held.0 == Held::Empty { 0 } else { self.marks };
        assert_eq!(self.frozen.state.marks, kept);
        full.answer.is_ok()
    }
}

fn call(rng: &mut Random, example: &Example, which: usize) -> Item {
    let n = example.problem.n;
    match which {
        0 => Item::Zero,
        1 => Item::Damped(problem::vector(rng, n)),
        2 => Item::Solve(problem::vector(rng, n)),
        3 => Item::Mul,
        4 => Item::Gradient(rng.pick(&[1.0, 1e-300, 1e300])),
        5 => Item::Norm(problem::vector(rng, n)),
        6 => Item::Scale {
            mode: mode_of(rng.below(4)),
            diag: problem::vector(rng, n),
            x: problem::vector(rng, n),
            step_bound: 100.0,
        },
        7 => Item::Search {
            diag: example.diag.clone(),
            radius: example.radius,
            lambda: example.lambda,
        },
        8 => Item::Determined,
        9 => Item::NonSingular,
        _ => Item::Above {
            b_norm: rng.pick(&[1.0, 1e-300, 1e300]),
            limit: rng.pick(&[0.0, 0.5, 1.0, 1e300]),
        },
    }
}

fn compared(engine: &dyn Working, seed: u64) {
    let pool = Pool::hunt(seed);
    let mut rng = Random::new(seed);
    let mut answered = [0; 11];
    for _ in 0..1500 {
        let (example, marks) = marked_example(&mut rng, &pool);
        if free(marks, example.problem.n) == 0 {
            continue;
        }
        let mut twins = Twins::lent(&example, marks, engine);
        if !twins.factor(engine, &example) {
            continue;
        }
        for _ in 0..6 {
            let which = rng.below(11);
            twins.soil(&mut rng);
            let item = call(&mut rng, &example, which);
            answered[which] += usize::from(twins.call(engine, &item));
        }
    }
    assert!(answered.iter().all(|count| *count > 150), "{answered:?}");
}

#[test]
fn the_shown_rust_answers_as_without_the_frozen_columns() {
    compared(SHOWN, 11);
}

#[test]
fn the_second_working_answers_as_without_the_frozen_columns() {
    compared(PLAIN, 12);
}
