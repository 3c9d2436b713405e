//! Problems put aside, and packed rooms (02, #107): what a script has beside the lent rooms.

use crate::engines::Working;
use crate::replies::{Reply, Told};
use crate::rooms::{Junk, Rooms, same_bits};
use crate::script::Item;
use crate::text::bits;
use api::{EMPTY, State};
use std::mem::swap;

/// A lent problem while the calls have another.
#[derive(Clone, Debug)]
pub struct Aside {
    pub store: Vec<f64>,
    pub order: Vec<usize>,
    pub state: State,
    pub unpacked: bool,
}

impl Default for Aside {
    fn default() -> Aside {
        Aside {
            store: Vec::new(),
            order: Vec::new(),
            state: EMPTY,
            unpacked: false,
        }
    }
}

#[derive(Clone, Debug, Default)]
pub struct Packed {
    pub room: Vec<f64>,
    pub places: Vec<usize>,
    /// What the latest answered packing put here, as long as nobody spoils it. Not a part of the room.
    pub written: Option<Kept>,
}

/// What is packed of a problem, read off its store: its sizes and marks, R on and above the diagonal, qt_b, norms, the order.
#[derive(Clone, PartialEq, Debug)]
pub struct Kept {
    pub m: usize,
    pub n: usize,
    pub marks: u16,
    numbers: Vec<u64>,
    order: Vec<usize>,
}

/// How many doubles are packed of a problem of n columns.
pub fn needed(n: usize) -> usize {
    n * (n + 1) / 2 + 2 * n
}

impl Kept {
    fn of(state: State, store: &[f64], order: &[usize]) -> Kept {
        let State { m, n, marks, .. } = state;
        let upper = (0..n).flat_map(|j| (0..=j).map(move |i| j * n + i));
        let places = upper.chain(n * n..n * n + 2 * n);
        Kept {
            m,
            n,
            marks,
            numbers: places.map(|place| bits(store[place])).collect(),
            order: order[..n].to_vec(),
        }
    }

    /// "A state of that same problem": of its sizes and marks.
    pub fn is_of(&self, state: State) -> bool {
        (self.m, self.n, self.marks) == (state.m, state.n, state.marks)
    }

    /// Whether a number that is not finite is among them.
    pub fn has_none(&self) -> bool {
        let mut numbers = self.numbers.iter();
        numbers.any(|x| !f64::from_bits(*x).is_finite())
    }
}

impl Packed {
    /// The surplus may be anything.
    fn spoilt(&mut self, touched: impl Fn(usize) -> bool) {
        self.written = self.written.take().filter(|kept| !touched(kept.n));
    }

    fn same(&self, other: &Packed) -> bool {
        same_bits(&self.room, &other.room) && self.places == other.places
    }
}

impl Rooms {
    /// The items that are no calls.
    pub fn set_away(&mut self, item: &Item) {
        match item {
            Item::Exchange(k) => {
                let other = &mut self.aside[*k];
                swap(&mut self.store, &mut other.store);
                swap(&mut self.order, &mut other.order);
                swap(&mut self.state, &mut other.state);
                swap(&mut self.unpacked, &mut other.unpacked);
            }
            Item::Lend {
                packed,
                room,
                places,
                seed,
            } => {
                let mut junk = Junk(*seed);
                self.packed[*packed] = Packed {
                    room: junk.doubles(*room),
                    places: junk.places(*places),
                    written: None,
                };
            }
            Item::Packed(k, place, x) => {
                self.packed[*k].room[*place] = *x;
                self.packed[*k].spoilt(|n| *place < needed(n));
            }
            Item::Place(k, place, v) => {
                self.packed[*k].places[*place] = *v;
                self.packed[*k].spoilt(|n| *place < n);
            }
            _ => unreachable!("only what is no call comes here"),
        }
    }

    /// A packing or an unpacking.
    pub fn put_away(&mut self, engine: &dyn Working, item: &Item) -> Reply {
        let Rooms {
            store,
            order,
            state,
            packed,
            ..
        } = self;
        let (answer, after, k) = match item {
            Item::Pack(k) => {
                let Packed {
                    room,
                    places,
                    written,
                } = &mut packed[*k];
                let (answer, after) = engine.pack(*state, store, order, room, places);
                if answer.is_ok() {
                    *written = Some(Kept::of(*state, store, order));
                }
                (answer, after, *k)
            }
            Item::Unpack(k) => {
                let Packed { room, places, .. } = &packed[*k];
                let (answer, after) = engine.unpack(*state, room, places, store, order);
                self.unpacked |= answer.is_ok();
                (answer, after, *k)
            }
            _ => unreachable!("only packing and unpacking come here"),
        };
        *state = after;
        let Packed { room, places, .. } = &packed[k];
        let packed = Some((room.clone(), places.clone()));
        let answer = answer.map(|()| Told::Done.into());
        Reply {
            packed,
            ..answer.into()
        }
    }

    /// What is put aside and what is packed, bit for bit.
    pub fn same_away(&self, other: &Rooms) -> bool {
        let aside = |(a, b): (&Aside, &Aside)| {
            a.state == b.state && a.order == b.order && same_bits(&a.store, &b.store)
        };
        self.aside.iter().zip(&other.aside).all(aside)
            && self
                .packed
                .iter()
                .zip(&other.packed)
                .all(|(a, b)| a.same(b))
    }
}

/// Whether an unpacking of what packing wrote, with a state of that same problem, brought back what was packed, bit for bit.
/// None for any other item.
pub fn as_packed(before: &Rooms, item: &Item, reply: &Reply, after: &Rooms) -> Option<bool> {
    let Item::Unpack(k) = item else {
        return None;
    };
    let written = before.packed[*k].written.as_ref();
    let kept = written.filter(|kept| reply.answer.is_ok() && kept.is_of(before.state))?;
    Some(*kept == Kept::of(after.state, &after.store, &after.order))
}
