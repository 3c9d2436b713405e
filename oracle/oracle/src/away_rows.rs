//! What packings and unpackings show (02, #107), and calls on a problem that was unpacked; without marks and with them.

use crate::away::needed;
use crate::coverage;
use crate::replies::{Reply, Told};
use crate::rooms::Rooms;
use crate::script::Item;
use crate::wanted::REFUSALS;
use api::{Held, State, free};

/// Either call, answered.
const HELD: [&str; 3] = ["nothing held", "zero held", "damped held"];
const FEWER_ROWS: &str = "m < n";
const WIDEST: &str = "n = 16";
/// One column that is frozen is none.
const NARROWEST: &str = "n = 1";

/// Packing's own.
const JUNK_IN_WORK: &str = "junk in work";
const NOT_FINITE: &str = "a number that is not finite";
/// Unpacking's own.
const WRITTEN: &str = "what packing wrote";
const OTHER_STATE: &str = "what packing wrote, by a state of another problem";
const FOREIGN: &str = "a foreign room";
const SURPLUS: &str = "a number that is not finite in the surplus";
const NO_LIST: &str = "over an order list that is none";
const OVER_L: &str = "over what a damped solve left";
const PAST_FREE: &str = "a room with junk past the free count";

const SHORT: [&str; 4] = [
    "the store alone",
    "the order list alone",
    "the room alone",
    "the places alone",
];
/// 6 of a room that packing wrote.
const PACKED: &str = "what packing wrote";

const AFTER: &str = "after an unpacking";
const LAMBDA: &str = "after an unpacking, lambda above zero";
const SHORT_RANK: &str = "after an unpacking, m < n";

fn row(marks: u16, call: &str, what: &str) -> String {
    let before = if marks == 0 { "" } else { "with marks: " };
    format!("{before}{call} {what}")
}

/// The lengths that are lent, each with what is needed.
fn short_alone(rooms: &Rooms, k: usize) -> Option<&'static str> {
    let (n, packed) = (rooms.state.n, &rooms.packed[k]);
    let is_short = [
        rooms.store.len() < n * n + 4 * n,
        rooms.order.len() < n,
        packed.room.len() < needed(n),
        packed.places.len() < n,
    ];
    let mut short = SHORT.iter().zip(is_short).filter(|(_, short)| *short);
    let first = short.next();
    first
        .filter(|_| short.next().is_none())
        .map(|(name, _)| *name)
}

fn of_sizes(state: State) -> Vec<&'static str> {
    let held = match state.held {
        Held::Damped => 2,
        Held::Zero => 1,
        _ => 0,
    };
    let present = [
        (true, HELD[held]),
        (state.m < state.n, FEWER_ROWS),
        (state.n == 16, WIDEST),
        (state.n == 1, NARROWEST),
    ];
    there(&present)
}

fn there(present: &[(bool, &'static str)]) -> Vec<&'static str> {
    let there = present.iter().filter(|(holds, _)| *holds);
    there.map(|(_, name)| *name).collect()
}

fn of_packing(rooms: &Rooms) -> Vec<&'static str> {
    let n = rooms.state.n;
    let upper = (0..n).flat_map(|j| (0..=j).map(move |i| j * n + i));
    let mut packed = upper.chain(n * n..n * n + 2 * n);
    let work = &rooms.store[n * n + 3 * n..n * n + 4 * n];
    there(&[
        (work.iter().any(|x| x.to_bits() != 0), JUNK_IN_WORK),
        (
            packed.any(|place| !rooms.store[place].is_finite()),
            NOT_FINITE,
        ),
    ])
}

fn of_unpacking(rooms: &Rooms, k: usize) -> Vec<&'static str> {
    let (state, packed) = (rooms.state, &rooms.packed[k]);
    let n = state.n;
    let own = packed.written.as_ref().map(|kept| kept.is_of(state));
    let order = &rooms.order[..n];
    let l_diag = &rooms.store[n * n + 2 * n..n * n + 3 * n];
    let surplus = &packed.room[needed(n)..];
    let past = |place: usize| packed.room[place].to_bits() != 0;
    let free = free(state.marks, n);
    // The last column is past the free count wherever one is frozen.
    let mut last = n * (n - 1) / 2..n * (n + 1) / 2;
    there(&[
        (own == Some(true), WRITTEN),
        (own == Some(false), OTHER_STATE),
        (own.is_none(), FOREIGN),
        (surplus.iter().any(|x| !x.is_finite()), SURPLUS),
        (!(0..n).all(|column| order.contains(&column)), NO_LIST),
        (
            state.held == Held::Damped && l_diag.iter().any(|x| *x != 0.0),
            OVER_L,
        ),
        (free < n && last.any(past), PAST_FREE),
    ])
}

fn of_call_after(rooms: &Rooms, item: &Item, reply: &Reply) -> Vec<&'static str> {
    let lambda = match &reply.answer {
        Ok(answer) => match answer.told {
            Told::Found { lambda, .. } => lambda > 0.0,
            _ => false,
        },
        Err(_) => false,
    };
    let fewer = rooms.state.m < rooms.state.n && matches!(item, Item::Zero);
    there(&[(true, AFTER), (lambda, LAMBDA), (fewer, SHORT_RANK)])
}

/// The rows of one call, given the rooms before it.
pub fn of_call(rooms: &Rooms, item: &Item, reply: &Reply) -> Vec<String> {
    let mut what = Vec::new();
    let mut add = |said: String, words: Vec<&str>| {
        what.extend(words.iter().map(|word| format!("{said}, {word}")));
    };
    let ok = || "ok".to_string();
    match (item, &reply.answer) {
        (Item::Pack(_), Ok(_)) => {
            add(ok(), of_sizes(rooms.state));
            add(ok(), of_packing(rooms));
        }
        (Item::Unpack(k), Ok(_)) => {
            add(ok(), of_sizes(rooms.state));
            add(ok(), of_unpacking(rooms, *k));
        }
        (Item::Pack(k) | Item::Unpack(k), Err(3)) => {
            let short = short_alone(rooms, *k);
            add("refused 3".into(), short.into_iter().collect());
        }
        (Item::Unpack(k), Err(6)) => {
            let written = rooms.packed[*k].written.as_ref();
            let own = written.is_some_and(|kept| kept.has_none() && kept.is_of(rooms.state));
            add("refused 6".into(), there(&[(own, PACKED)]));
        }
        _ => {}
    }
    let called = !matches!(item, Item::Factor { .. } | Item::Unpack(_));
    match (item, &reply.answer) {
        (_, Ok(_)) if called && rooms.unpacked => add(ok(), of_call_after(rooms, item, reply)),
        (Item::Solve(_) | Item::Mul, Err(5)) if rooms.unpacked => {
            add("refused 5".into(), vec![AFTER]);
        }
        _ => {}
    }
    let call = coverage::name(item);
    let rows = what.iter().map(|what| row(rooms.state.marks, call, what));
    rows.collect()
}

fn wanted_of(marks: u16) -> Vec<String> {
    let mut wanted = Vec::new();
    let mut add = |call: &str, said: &str, words: &[&str]| {
        let rows = words
            .iter()
            .map(|word| row(marks, call, &format!("{said}, {word}")));
        wanted.extend(rows);
    };
    for call in ["pack", "unpack"] {
        add(call, "ok", &HELD);
        add(call, "ok", &[FEWER_ROWS, WIDEST]);
        add(call, "refused 3", &SHORT);
        match marks {
            0 => add(call, "ok", &[NARROWEST]),
            _ => add("unpack", "ok", &[PAST_FREE]),
        }
    }
    add("pack", "ok", &[JUNK_IN_WORK, NOT_FINITE]);
    let own = [WRITTEN, OTHER_STATE, FOREIGN, SURPLUS, NO_LIST, OVER_L];
    add("unpack", "ok", &own);
    add("unpack", "refused 6", &[PACKED]);
    let calls = REFUSALS.iter().map(|(call, _)| *call);
    calls
        .filter(|call| !["factor", "unpack"].contains(call))
        .for_each(|call| add(call, "ok", &[AFTER]));
    add("search", "ok", &[LAMBDA]);
    add("zero solve", "ok", &[SHORT_RANK]);
    for call in ["held solve", "held mul_qt_b"] {
        add(call, "refused 5", &[AFTER]);
    }
    wanted.sort();
    wanted.dedup();
    wanted
}

pub fn wanted() -> Vec<String> {
    wanted_of(0)
}

pub fn wanted_with_marks() -> Vec<String> {
    wanted_of(1)
}
