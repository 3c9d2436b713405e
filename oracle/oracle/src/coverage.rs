//! What a set of cases covered, with counts.

use crate::above_rows;
use crate::away_rows;
use crate::classes::{Asked, CLASSES};
use crate::engines::Working;
use crate::frozen_rows::{self, Marked};
use crate::replies::{Answer, Reply, Told};
use crate::rooms::Rooms;
use crate::script::Item;
use crate::seen;
use crate::sheets::{self, Fields};
use crate::wanted::{DETERMINED, KINDS, SIZES};
use api::{Held, Mode};
use std::collections::BTreeMap;

#[derive(Default)]
pub struct Coverage {
    counts: BTreeMap<String, u64>,
}

pub fn name(item: &Item) -> &'static str {
    match item {
        Item::Factor { .. } => "factor",
        Item::Zero => "zero solve",
        Item::Damped(_) => "damped solve",
        Item::Solve(_) => "held solve",
        Item::Mul => "held mul_qt_b",
        Item::Gradient(_) => "gradient",
        Item::Above { .. } => "above limit",
        Item::Norm(_) => "norm of Jx",
        Item::Scale { .. } => "scaling",
        Item::Search { .. } => "search",
        Item::Determined => "determined",
        Item::NonSingular => "is_non_singular",
        Item::Pack(_) => "pack",
        Item::Unpack(_) => "unpack",
        _ => "no call",
    }
}

impl Coverage {
    pub fn add(&mut self, label: &str) {
        *self.counts.entry(label.to_string()).or_insert(0) += 1;
    }

    pub fn missing(&self, wanted: &[String]) -> Vec<String> {
        wanted
            .iter()
            .filter(|label| !self.counts.contains_key(*label))
            .cloned()
            .collect()
    }

    pub fn count(&self, label: &str) -> u64 {
        self.counts.get(label).copied().unwrap_or(0)
    }

    pub fn text(&self) -> String {
        self.counts
            .iter()
            .map(|(label, count)| format!("{count:10} {label}\n"))
            .collect()
    }

    /// The same, with what is wanted and was not met.
    pub fn table(&self, wanted: &[String]) -> String {
        let mut all = Coverage {
            counts: self.counts.clone(),
        };
        for label in wanted {
            all.counts.entry(label.clone()).or_insert(0);
        }
        let missing = self.missing(wanted).len();
        all.text() + &format!("{} rows wanted, {missing} at zero\n", wanted.len())
    }

    fn kinds(&mut self, f: &Fields) {
        let jacobian = &f.doubles[..f.m * f.n];
        let columns: Vec<&[f64]> = jacobian.chunks(f.m).collect();
        let any = |test: fn(f64) -> bool| f.doubles.iter().any(|&x| test(x));
        let present = [
            f.m < f.n,
            f.m == 128,
            f.n == 16,
            (f.m, f.n) == (128, 16),
            (f.m, f.n) == (1, 1),
            any(|x| x == 0.0 && x.is_sign_negative()),
            any(f64::is_subnormal),
            any(|x| x != 0.0 && x.abs() < 1e-319),
            any(|x| x.is_finite() && x.abs() >= 1e307),
            any(f64::is_nan),
            any(f64::is_infinite),
            columns.iter().any(|c| c.iter().all(|&x| x == 0.0)),
            columns.windows(2).any(|w| w[0] == w[1]),
        ];
        for (kind, _) in KINDS.iter().zip(present).filter(|(_, there)| *there) {
            self.add(&format!("sheet with {kind}"));
        }
    }

    pub fn sheet(&mut self, engine: &dyn Working, bytes: &[u8], printed: &str) {
        let fields = Fields::read(bytes);
        let first = printed.lines().next().unwrap_or("");
        if first.starts_with("refused") {
            self.add(&format!("sheet {first}"));
        }
        let Some(f) = fields else { return };
        self.kinds(&f);
        let overflow = f.doubles[..f.m * f.n].iter().any(|x| x.abs() == f64::MAX);
        if overflow && first == "refused 7" && sheets::ready(engine, &f).is_none() {
            self.add("sheet J overflows and radius is zero");
        }
        if first.starts_with("refused") && first != "refused 8" {
            return;
        }
        if first != "refused 8" {
            self.add(&format!("sheet call {} answered", f.call));
            self.rank(&f, printed);
        }
        match sheets::ready(engine, &f) {
            Some(ready) => self.search(engine, &ready.asked()),
            None => self.add("sheet refused 8 before its search"),
        }
    }

    fn rank(&mut self, f: &Fields, printed: &str) {
        let count = printed
            .lines()
            .find_map(|l| l.strip_prefix("determined ")?.parse::<usize>().ok());
        if count.is_some_and(|k| k < f.m.min(f.n)) {
            self.add("sheet rank deficient");
        }
    }

    pub fn search(&mut self, engine: &dyn Working, asked: &Asked) {
        for class in asked.classes(engine) {
            self.add(CLASSES[class]);
        }
    }

    /// One call: the rooms before it, and its reply. One with marks has rows of its own (02, #108).
    pub fn call(&mut self, engine: &dyn Working, rooms: &Rooms, item: &Item, reply: &Reply) {
        match Marked::of(rooms, item) {
            Some(marked) => self.all(frozen_rows::of_call(engine, &marked, reply)),
            None => self.unmarked(engine, rooms, item, reply),
        }
        self.all(above_rows::of_call(engine, rooms, item, reply));
        self.all(away_rows::of_call(rooms, item, reply));
    }

    fn unmarked(&mut self, engine: &dyn Working, rooms: &Rooms, item: &Item, reply: &Reply) {
        let call = name(item);
        let before = rooms.state;
        if let Some(asked) = rooms.asked(item) {
            self.search(engine, &asked);
        }
        match &reply.answer {
            Err(k) => self.add(&format!("{call} refused {k}")),
            Ok(_) => self.add(&format!("{call} ok")),
        }
        if let Ok(Answer {
            ranges: Some(ranges),
            ..
        }) = reply.answer
        {
            self.add(&seen::label(call, ranges));
        }
        match (item, &reply.answer) {
            (Item::Solve(_), Err(5)) if before.held == Held::Nothing => {
                self.add("held solve refused 5, nothing held");
            }
            (Item::Solve(_) | Item::Mul, Ok(_)) => {
                self.add(&format!("{call} ok, {:?}", before.held))
            }
            (Item::Scale { mode, .. }, Ok(answer)) => self.scaling(*mode, answer),
            (Item::Factor { m, n, jacobian, .. }, Ok(_)) => {
                self.sizes(call, *m, *n);
                self.all(seen::of_factoring(engine, *m, *n, jacobian));
            }
            (Item::Search { .. }, Ok(_)) => {
                self.sizes(call, before.m, before.n);
                let asked = rooms.asked(item);
                self.all(asked.map_or(Vec::new(), |asked| seen::of_search(engine, &asked)));
            }
            (Item::Determined, Ok(answer)) => self.determined(rooms, answer),
            _ => {}
        }
    }

    fn all(&mut self, labels: Vec<String>) {
        labels.iter().for_each(|label| self.add(label));
    }

    fn sizes(&mut self, call: &str, m: usize, n: usize) {
        for (size, _) in SIZES.iter().filter(|(_, holds)| holds(m, n)) {
            self.add(&format!("{call} ok, {size}"));
        }
    }

    fn determined(&mut self, rooms: &Rooms, answer: &Answer) {
        let Told::Count(count) = answer.told else {
            return;
        };
        let (m, n) = (rooms.state.m, rooms.state.n);
        let diagonal: Vec<f64> = (0..n).map(|j| rooms.store[j * n + j]).collect();
        let there = &diagonal[..m.min(n)];
        let rank = there.iter().take_while(|d| **d != 0.0).count();
        let limit = (m.max(n) as f64 * f64::EPSILON) * diagonal[0].abs();
        let present = [
            count < rank,
            count == rank && rank < n,
            limit.is_subnormal(),
            limit > 0.0 && there.get(count).is_some_and(|d| d.abs() == limit),
            m < n,
            there.iter().any(|d| d.is_nan()),
            there.iter().any(|d| d.is_infinite()),
        ];
        for (what, _) in DETERMINED.iter().zip(present).filter(|(_, holds)| *holds) {
            self.add(&format!("determined ok, {what}"));
        }
    }

    fn scaling(&mut self, mode: Mode, answer: &Answer) {
        self.add(&format!("scaling ok, {mode:?}"));
        if let Some(ranges) = answer.ranges {
            self.add(&seen::scaling(mode, ranges));
        }
        if matches!(&answer.told, Told::Doubles(v) if v[0] == 0.0) {
            self.add("scaling ok, xnorm zero");
        }
    }

    pub fn sequence(&mut self, engine: &dyn Working, items: &[Item]) {
        let mut rooms = Rooms::none();
        for item in items {
            let before = rooms.clone();
            if let Some(reply) = rooms.play(engine, item) {
                self.call(engine, &before, item, &reply);
            }
        }
    }
}
