//! What calls with marks show (02, #108): rows of their own, beside those of the calls without marks.

use crate::engines::Working;
use crate::replies::Reply;
use crate::rooms::Rooms;
use crate::script::Item;
use crate::wanted::{MODES, REFUSALS};
use crate::{coverage, frozen_norms};
use api::{End, Held, Mode, Stop, frozen, mark_past};

/// One call, its sizes and its marks.
pub struct Marked<'a> {
    pub rooms: &'a Rooms,
    pub item: &'a Item,
    pub m: usize,
    pub n: usize,
    pub marks: u16,
    pub free: usize,
}

impl<'a> Marked<'a> {
    /// None where the call has no marks.
    pub fn of(rooms: &'a Rooms, item: &'a Item) -> Option<Marked<'a>> {
        let (m, n, marks) = match item {
            Item::Factor { m, n, marks, .. } => (*m, *n, *marks),
            _ => (rooms.state.m, rooms.state.n, rooms.state.marks),
        };
        let free = api::free(marks, n.min(16));
        (marks != 0).then_some(Marked {
            rooms,
            item,
            m,
            n,
            marks,
            free,
        })
    }

    fn in_range(&self) -> bool {
        (1..=128).contains(&self.m) && (1..=16).contains(&self.n)
    }

    /// What stands at the free columns.
    pub fn gathered(&self, v: &[f64]) -> Vec<f64> {
        let free = (0..self.n).filter(|k| !frozen(self.marks, *k));
        free.map(|k| v[k]).collect()
    }

    /// The numbers that test 6 reads and that are not a frozen column's.
    fn others_read(&self) -> Vec<f64> {
        match self.item {
            Item::Factor {
                jacobian,
                residuals,
                ..
            } => {
                let columns = jacobian.chunks(self.m).take(self.n).enumerate();
                let free = columns.filter(|(k, _)| !frozen(self.marks, *k));
                let free: Vec<f64> = free.flat_map(|(_, column)| column.to_vec()).collect();
                [&free, &residuals[..self.m]].concat()
            }
            Item::Damped(v) | Item::Solve(v) | Item::Norm(v) => self.gathered(v),
            Item::Scale {
                mode,
                diag,
                x,
                step_bound,
            } => match mode {
                Mode::LaterScaled => self.gathered(diag),
                Mode::LaterUnscaled => Vec::new(),
                _ => [self.gathered(x), vec![*step_bound]].concat(),
            },
            Item::Search {
                diag,
                radius,
                lambda,
            } => [self.gathered(diag), vec![*radius, *lambda]].concat(),
            Item::Gradient(b_norm) => vec![*b_norm],
            Item::Above { b_norm, limit } => vec![*b_norm, *limit],
            _ => Vec::new(),
        }
    }

    /// Why an order list is refused, which is why another test would let it pass.
    fn refused_list(&self) -> Vec<&'static str> {
        let order = match self.item {
            Item::Unpack(k) => &self.rooms.packed[*k].places[..self.n],
            _ => &self.rooms.order[..self.n],
        };
        let is_permutation = |of: &[usize]| (0..of.len()).all(|k| of.contains(&k));
        let (first, tail) = order.split_at(self.free);
        let continued = tail.iter().copied().eq(self.free..self.n);
        let present = [
            (is_permutation(order), LISTS[0]),
            (is_permutation(first) && !continued, LISTS[1]),
            (!is_permutation(first) && continued, LISTS[2]),
        ];
        let there = present.iter().filter(|(holds, _)| *holds);
        there.map(|(_, why)| *why).collect()
    }

    fn why_refused(&self, number: u8) -> Vec<&'static str> {
        let finite = || self.others_read().iter().all(|x| x.is_finite());
        let mut why = match (number, self.item) {
            (2, _) if self.in_range() && mark_past(self.marks, self.n) => vec![PAST],
            (4, _) => self.refused_list(),
            (5, Item::Solve(_) | Item::Mul) if self.rooms.state.held == Held::Nothing => {
                vec!["nothing held"]
            }
            (6, Item::Unpack(_)) => Vec::new(),
            (6, _) if finite() => vec![FROZEN_NUMBER],
            (7, Item::Search { radius, lambda, .. }) if *radius > 0.0 && *lambda >= 0.0 => {
                let zero = self.others_read()[..self.free].contains(&0.0);
                if zero { Vec::new() } else { vec![FROZEN_ZERO] }
            }
            _ => Vec::new(),
        };
        let reaches = (3..=7).contains(&number) && self.rooms.state.held != Held::Empty;
        if self.free == 0 && (reaches || matches!(self.item, Item::Factor { .. })) {
            why.push(NONE_FREE);
        }
        why
    }

    /// Whether what is past the free count is not +0: of R, qt_b and norms; of the lower part and l_diag.
    fn junk(&self) -> [bool; 2] {
        let (n, free) = (self.n, self.free);
        let is_past = |place: &usize| place % n >= free || (free..n).contains(&(place / n));
        let soiled = |place: &usize| self.rooms.store[*place].to_bits() != 0;
        let of_r = |place: usize| match place / n {
            row if row < n => place % n <= row,
            row => row < n + 2,
        };
        let places = (0..n * n + 3 * n).filter(is_past).filter(soiled);
        let (upper, lower): (Vec<usize>, Vec<usize>) = places.partition(|place| of_r(*place));
        [!upper.is_empty(), !lower.is_empty()]
    }

    fn diagonal_has_zero(&self) -> bool {
        let diagonal = |j: usize| self.rooms.store[j * self.n + j];
        (0..self.m.min(self.free)).any(|j| diagonal(j) == 0.0)
    }

    fn shape(&self) -> Vec<&'static str> {
        let present = [
            (self.free == 1 && self.n > 1, SHAPES[0]),
            (self.free + 1 == self.n, SHAPES[1]),
            (self.m < self.n && self.m >= self.free, SHAPES[2]),
            (self.m < self.free, SHAPES[3]),
            (self.n == 16, SHAPES[4]),
        ];
        let there = present.iter().filter(|(holds, _)| *holds);
        there.map(|(_, shape)| *shape).collect()
    }
}

const PAST: &str = "a mark past n";
const LISTS: [&str; 3] = [
    "a permutation of all columns",
    "the tail alone",
    "the first places alone",
];
const FROZEN_NUMBER: &str = "a frozen column's number alone";
const FROZEN_ZERO: &str = "a frozen entry of zero alone";
const NONE_FREE: &str = "no column free";
const JUNK: [&str; 2] = ["junk past the free count", "junk in L past the free count"];
const SHORT: &str = "rank short among the free";
const SHAPES: [&str; 5] = [
    "free = 1",
    "free = n - 1",
    "m < n and m >= free",
    "m < free",
    "n = 16",
];
const STOPS: [(Stop, &str); 4] = [
    (Stop::Undamped, "stopped undamped"),
    (Stop::Ten, "stopped at ten"),
    (Stop::Within, "stopped within"),
    (Stop::Falling, "stopped falling"),
];

fn row(call: &str, what: &str) -> String {
    format!("with marks: {call} {what}")
}

fn of_run(engine: &dyn Working, marked: &Marked) -> Vec<&'static str> {
    let asked = marked.rooms.asked(marked.item);
    let Some(run) = asked.and_then(|asked| asked.run(engine)) else {
        return Vec::new();
    };
    let stopped = STOPS
        .iter()
        .filter(|(stop, _)| run.end == End::Stopped(*stop));
    let mut rows: Vec<&str> = stopped.map(|(_, name)| *name).collect();
    if run.trials.len() > 1 {
        rows.push("trials above one");
    }
    rows
}

fn of_answer(engine: &dyn Working, marked: &Marked, reply: &Reply) -> Vec<String> {
    let mut what: Vec<String> = Vec::new();
    let mut add = |word: &str| what.push(word.to_string());
    let state = marked.rooms.state;
    if let Item::Factor { .. } | Item::Search { .. } | Item::NonSingular | Item::Above { .. } =
        marked.item
    {
        marked.shape().into_iter().for_each(&mut add);
    }
    match marked.item {
        Item::Solve(_) | Item::Mul => add(&format!("{:?}", state.held)),
        Item::Scale { mode, .. } => add(&format!("{mode:?}")),
        Item::Zero if marked.diagonal_has_zero() => add(SHORT),
        Item::Search { .. } => {
            if marked.diagonal_has_zero() {
                add(SHORT);
            }
            of_run(engine, marked).into_iter().for_each(&mut add);
        }
        _ => {}
    }
    if !matches!(marked.item, Item::Factor { .. } | Item::Unpack(_)) {
        let junk = marked.junk().into_iter().zip(JUNK);
        junk.filter(|(there, _)| *there)
            .for_each(|(_, name)| add(name));
    }
    what.extend(frozen_norms::of_answer(engine, marked, reply));
    what
}

/// The rows of one call with marks.
pub fn of_call(engine: &dyn Working, marked: &Marked, reply: &Reply) -> Vec<String> {
    let call = coverage::name(marked.item);
    let (said, what) = match &reply.answer {
        Ok(_) => ("ok".to_string(), of_answer(engine, marked, reply)),
        Err(number) => {
            let why = marked.why_refused(*number);
            let why = why.iter().map(|why| why.to_string()).collect();
            (format!("refused {number}"), why)
        }
    };
    let more = what
        .iter()
        .map(|what| row(call, &format!("{said}, {what}")));
    std::iter::once(row(call, &said)).chain(more).collect()
}

fn wanted_of_refusals(call: &str, number: u8) -> Vec<String> {
    let why: &[&str] = match (number, call) {
        (2, _) => &[PAST],
        (4, _) => &[LISTS[0], LISTS[1], LISTS[2], NONE_FREE],
        (5, "held solve" | "held mul_qt_b") => &["nothing held", NONE_FREE],
        (6, "gradient" | "above limit" | "unpack") => &[NONE_FREE],
        (6, _) => &[FROZEN_NUMBER, NONE_FREE],
        (7, "search") => &[FROZEN_ZERO, NONE_FREE],
        (3 | 7, _) => &[NONE_FREE],
        _ => &[],
    };
    let said = format!("refused {number}");
    let more = why.iter().map(|why| format!("{said}, {why}"));
    more.chain([said.clone()]).collect()
}

fn wanted_of_answers(call: &str) -> Vec<String> {
    let stops = STOPS.map(|(_, stop)| stop);
    let what: Vec<&[&str]> = match call {
        "factor" => vec![&SHAPES],
        "zero solve" => vec![&[SHORT], &JUNK],
        "held solve" | "held mul_qt_b" => vec![&["Zero", "Damped"], &JUNK],
        "scaling" => vec![&MODES, &JUNK],
        "search" => vec![&[SHORT, "trials above one"], &SHAPES, &stops, &JUNK],
        "is_non_singular" | "above limit" => vec![&SHAPES, &JUNK],
        "unpack" => Vec::new(),
        _ => vec![&JUNK],
    };
    let what = what.concat();
    what.iter().map(|what| format!("ok, {what}")).collect()
}

fn wanted_of(call: &str, numbers: &[u8]) -> Vec<String> {
    let mut what = vec!["ok".to_string(), "refused 9".to_string()];
    what.extend(
        numbers
            .iter()
            .flat_map(|number| wanted_of_refusals(call, *number)),
    );
    what.extend(wanted_of_answers(call));
    what.extend(frozen_norms::wanted(call));
    what.iter().map(|what| row(call, what)).collect()
}

/// The calls without marks too: a third of the cases has none, so that free = n.
pub fn wanted() -> Vec<String> {
    let unmarked = REFUSALS.iter().map(|(call, _)| format!("{call} ok"));
    let marked = REFUSALS
        .iter()
        .flat_map(|(call, numbers)| wanted_of(call, numbers));
    unmarked.chain(marked).collect()
}
