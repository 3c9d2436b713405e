//! Lent rooms, and the items of a script played on them.

use crate::away::{Aside, Packed};
use crate::classes::Asked;
use crate::engines::Working;
use crate::random::STEP;
use crate::replies::{Answer, Reply, Told};
use crate::script::{ASIDE, Item, PACKED, held_number};
use crate::text::{bits, canonical, push_doubles, push_numbers};
use api::{EMPTY, Found, State};

#[derive(Clone, Debug)]
pub struct Rooms {
    pub store: Vec<f64>,
    pub order: Vec<usize>,
    pub bench: Vec<f64>,
    pub out: Vec<f64>,
    pub state: State,
    /// Whether the lent problem came out of a packed room, and only calls have changed it since (02, #107).
    pub unpacked: bool,
    pub aside: [Aside; ASIDE],
    pub packed: [Packed; PACKED],
}

/// The counter whose bits are the junk: no call may come to rely on a clean room.
pub struct Junk(pub u64);

impl Junk {
    fn next(&mut self) -> u64 {
        self.0 = self.0.wrapping_add(STEP);
        self.0
    }
    pub fn doubles(&mut self, len: usize) -> Vec<f64> {
        (0..len)
            .map(|_| canonical(f64::from_bits(self.next())))
            .collect()
    }
    pub fn places(&mut self, len: usize) -> Vec<usize> {
        (0..len).map(|_| (self.next() % 32) as usize).collect()
    }
}

fn found(f: Found) -> Told {
    Told::Found {
        lambda: f.lambda,
        norm: f.norm,
        trials: f.trials,
    }
}

impl Rooms {
    pub fn none() -> Rooms {
        Rooms::lent(0, 0, 0, 0, 0)
    }

    fn lent(store: usize, order: usize, bench: usize, out: usize, seed: u64) -> Rooms {
        let mut junk = Junk(seed);
        Rooms {
            store: junk.doubles(store),
            bench: junk.doubles(bench),
            out: junk.doubles(out),
            order: junk.places(order),
            state: EMPTY,
            unpacked: false,
            aside: Default::default(),
            packed: Default::default(),
        }
    }

    /// What a search is about to be asked; none where its output is too short.
    pub fn asked<'a>(&'a self, item: &'a Item) -> Option<Asked<'a>> {
        let Rooms {
            store,
            order,
            out,
            state,
            ..
        } = self;
        match item {
            Item::Search {
                diag,
                radius,
                lambda,
            } if out.len() >= state.n => Some(Asked {
                state: *state,
                store,
                order,
                diag,
                radius: *radius,
                lambda: *lambda,
            }),
            _ => None,
        }
    }

    /// A reply where the item is a call.
    pub fn play(&mut self, engine: &dyn Working, item: &Item) -> Option<Reply> {
        match item {
            Item::Rooms {
                store,
                order,
                bench,
                out,
                seed,
            } => {
                *self = Rooms {
                    aside: std::mem::take(&mut self.aside),
                    packed: std::mem::take(&mut self.packed),
                    ..Rooms::lent(*store, *order, *bench, *out, *seed)
                };
            }
            Item::State(state) => self.state = *state,
            Item::Order(k, v) => self.order[*k] = *v,
            Item::Store(k, x) => self.store[*k] = *x,
            Item::End => {}
            Item::Exchange(_) | Item::Lend { .. } | Item::Packed(..) | Item::Place(..) => {
                self.set_away(item);
                return None;
            }
            Item::Pack(_) | Item::Unpack(_) => return Some(self.put_away(engine, item)),
            Item::Scale { .. } => return Some(self.scale(engine, item)),
            _ => {
                self.unpacked &= !matches!(item, Item::Factor { .. });
                return Some(self.call(engine, item).into());
            }
        }
        self.unpacked = false;
        None
    }

    fn scale(&mut self, engine: &dyn Working, item: &Item) -> Reply {
        let Item::Scale {
            mode,
            diag,
            x,
            step_bound,
        } = item
        else {
            unreachable!("only a scaling comes here")
        };
        let mut lent = diag.clone();
        let (result, state) = engine.update_diag(
            self.state,
            &mut self.store,
            *mode,
            &mut lent,
            x,
            *step_bound,
        );
        self.state = state;
        let answer = result.map(|(start, ranges)| match start {
            Some(start) => Answer::with(Told::Doubles(vec![start.xnorm, start.radius]), ranges),
            None => Answer::with(Told::Done, ranges),
        });
        Reply {
            scaling: Some(lent),
            ..answer.into()
        }
    }

    fn call(&mut self, engine: &dyn Working, item: &Item) -> Result<Answer, u8> {
        let Rooms {
            store,
            order,
            bench,
            out,
            state,
            ..
        } = self;
        let done = |()| Told::Done.into();
        let double = |x| Told::Doubles(vec![x]);
        let truth = |yes| Told::Count(usize::from(yes)).into();
        let (answer, after) = match item {
            Item::Factor {
                m,
                n,
                marks,
                jacobian: j,
                residuals,
            } => {
                let (r, s) = engine.factor(*m, *n, *marks, j, residuals, store, order, bench);
                (r.map(|ranges| Answer::with(Told::Done, ranges)), s)
            }
            Item::Zero => {
                let (r, s) = engine.solve_with_zero_diagonal(*state, store, order, out);
                (r.map(done), s)
            }
            Item::Damped(diag) => {
                let (r, s) = engine.solve_with_diagonal(*state, store, order, diag, out);
                (r.map(done), s)
            }
            Item::Solve(rhs) => {
                let (r, s) = engine.solve(*state, store, order, rhs, out);
                (r.map(done), s)
            }
            Item::Mul => {
                let (r, s) = engine.mul_qt_b(*state, store, out);
                (r.map(done), s)
            }
            Item::Gradient(b_norm) => {
                let (r, s) = engine.max_a_t_b_scaled(*state, store, order, *b_norm);
                (r.map(|x| double(x).into()), s)
            }
            Item::Above { b_norm, limit } => {
                let (r, s) = engine.above_limit(*state, store, order, *b_norm, *limit);
                (r.map(truth), s)
            }
            Item::Norm(x) => {
                let (r, s) = engine.a_x_norm(*state, store, order, x);
                (r.map(|(x, ranges)| Answer::with(double(x), ranges)), s)
            }
            Item::Search {
                diag,
                radius,
                lambda,
            } => {
                let (r, s) = engine.search(*state, store, order, diag, *radius, *lambda, out);
                (r.map(|(f, ranges)| Answer::with(found(f), ranges)), s)
            }
            Item::Determined => {
                let (r, s) = engine.determined(*state, store);
                (r.map(|count| Told::Count(count).into()), s)
            }
            Item::NonSingular => {
                let (r, s) = engine.is_non_singular(*state, store);
                (r.map(truth), s)
            }
            _ => unreachable!("not a call"),
        };
        *state = after;
        answer
    }

    /// What the item prints: nothing where it is no call; `.` where it ends a case.
    pub fn printed(&mut self, engine: &dyn Working, item: &Item) -> String {
        let mut text = String::new();
        if let Item::End = item {
            text.push_str(".\n");
        } else if let Some(reply) = self.play(engine, item) {
            self.write(&reply, &mut text);
        }
        text
    }

    pub fn write(&self, reply: &Reply, out: &mut String) {
        reply.write(out);
        out.push_str("state");
        push_numbers(
            out,
            &[
                self.state.m,
                self.state.n,
                held_number(self.state.held) as usize,
            ],
        );
        if self.state.marks != 0 {
            push_numbers(out, &[usize::from(self.state.marks)]);
        }
        out.push_str("\nstore");
        push_doubles(out, &self.store);
        out.push_str("\norder");
        push_numbers(out, &self.order);
        out.push_str("\nbench");
        push_doubles(out, &self.bench);
        out.push_str("\nout");
        push_doubles(out, &self.out);
        out.push('\n');
    }

    /// Bit for bit, NaN one value.
    pub fn same(&self, other: &Rooms) -> bool {
        self.state == other.state
            && self.order == other.order
            && same_bits(&self.store, &other.store)
            && same_bits(&self.bench, &other.bench)
            && same_bits(&self.out, &other.out)
            && self.same_away(other)
    }
}

pub fn same_bits(a: &[f64], b: &[f64]) -> bool {
    a.len() == b.len() && a.iter().zip(b).all(|(x, y)| bits(*x) == bits(*y))
}
