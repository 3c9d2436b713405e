//! The part of the sample that is there for packing (02, #107): what looks right and is not, then drawn cases that show what none
//! before them has shown.

use crate::away::needed;
use crate::cases::{drawn, first_shown};
use crate::make_away;
use crate::sample::{case, marked_case, search};
use crate::script::Item;
use crate::wanted::wanted_away;
use api::{Held, State};

const DRAWN: u64 = 6000;
/// Every call prints the whole rooms: of the drawn cases those with more numbers in store and bench are left out.
const MOST: usize = 60;

fn lend(packed: usize, room: usize, places: usize) -> Item {
    Item::Lend {
        packed,
        room,
        places,
        seed: 7,
    }
}

/// With one double and one place more than are needed.
fn lent(packed: usize, n: usize) -> Item {
    lend(packed, needed(n) + 1, n + 1)
}

/// Rooms full of junk in the place of those that were lent.
fn anew(m: usize, n: usize) -> Item {
    Item::Rooms {
        store: n * n + 4 * n + 1,
        order: n + 1,
        bench: m * n + m,
        out: n,
        seed: 11,
    }
}

fn state(m: usize, n: usize, held: Held, marks: u16) -> Item {
    Item::State(State { m, n, held, marks })
}

/// Case H, of which 7 doubles are packed.
fn h(calls: &[Item]) -> Vec<Item> {
    case(1, 2, &[3.0, 4.0], &[8.0], calls)
}

fn solve(x: f64) -> Item {
    Item::Damped(vec![x; 2])
}

fn factored(jacobian: &[f64], residual: f64) -> Item {
    Item::Factor {
        m: 1,
        n: jacobian.len(),
        marks: 0,
        jacobian: jacobian.to_vec(),
        residuals: vec![residual],
    }
}

/// Packed after a damped solve and unpacked over junk: a held call is refused 5, the zero solve is (0, 2). Then over the store
/// in which another problem's damped solve stands, by a state that says so.
fn over_what_stands() -> Vec<Vec<Item>> {
    let damped = || state(1, 2, Held::Damped, 0);
    let after = [Item::Unpack(0), Item::Mul, Item::Zero, Item::Mul];
    let over_junk = [solve(1.0), lent(0, 2), Item::Pack(0), anew(1, 2), damped()];
    let over_other = [
        lent(0, 2),
        Item::Pack(0),
        Item::Exchange(1),
        anew(1, 2),
        factored(&[5.0, 2.0], 3.0),
        solve(2.0),
    ];
    vec![
        h(&[&over_junk[..], &after].concat()),
        h(&[&over_other[..], &after].concat()),
    ]
}

/// With nothing, a zero and a damped solve held the same is packed; and the same again of what was unpacked.
fn while_held() -> Vec<Vec<Item>> {
    let rooms = [lent(0, 2), lent(1, 2), lent(2, 2)];
    let packed = [
        Item::Pack(0),
        Item::Zero,
        Item::Pack(1),
        solve(1.0),
        Item::Pack(2),
        Item::Mul,
    ];
    let again = [
        Item::Unpack(2),
        Item::Solve(vec![1.0, 2.0]),
        Item::Pack(1),
        Item::Unpack(0),
        Item::Zero,
    ];
    vec![h(&[&rooms[..], &packed, &again].concat())]
}

/// A number that is none: behind the last packed double, at it, at the first; in the lent store, of which packing makes no
/// test. Junk in the lent order list, in the places, in the store's work.
fn not_finite() -> Vec<Vec<Item>> {
    let of = |calls: &[Item]| h(&[&[lent(0, 2), Item::Pack(0)], calls].concat());
    let at = |place: usize, x: f64| {
        of(&[
            Item::Packed(0, place, x),
            solve(1.0),
            Item::Unpack(0),
            Item::Zero,
        ])
    };
    let list = [Item::Order(0, 31), Item::Order(1, 31)];
    let places = [Item::Place(0, 1, 1), Item::Unpack(0)];
    let soiled = |place: usize, x: f64| {
        let calls = [Item::Store(place, x), Item::Pack(0), Item::Unpack(0)];
        of(&[&calls[..], &[Item::Zero]].concat())
    };
    vec![
        at(7, f64::NAN),
        at(6, f64::NAN),
        at(0, f64::INFINITY),
        of(&[&list[..], &[Item::Unpack(0), Item::Zero]].concat()),
        of(&[&places[..], &[Item::Zero]].concat()),
        soiled(0, f64::NAN),
        soiled(7, f64::NEG_INFINITY),
        soiled(1, f64::NAN),
        soiled(8, f64::NAN),
        soiled(11, 7.0),
    ]
}

/// Each of the four lent slices one short, of either call; a state with everything wrong.
fn refused() -> Vec<Vec<Item>> {
    let both = [Item::Pack(0), Item::Unpack(0)];
    let nothing = || state(1, 2, Held::Nothing, 0);
    let short = |store: usize, order: usize, room: usize, places: usize| {
        let rooms = Item::Rooms {
            store,
            order,
            bench: 3,
            out: 2,
            seed: 1,
        };
        h(&[&[lend(0, room, places), rooms, nothing()], &both[..]].concat())
    };
    let claimed = |m: usize, n: usize, held: Held, marks: u16| {
        let calls = [lent(0, 2), Item::Pack(0), state(m, n, held, marks)];
        h(&[&calls[..], &both].concat())
    };
    vec![
        short(11, 2, 7, 2),
        short(12, 1, 7, 2),
        short(12, 2, 6, 2),
        short(12, 2, 7, 1),
        claimed(1, 2, Held::Empty, 0xFFFF),
        claimed(129, 2, Held::Zero, 0),
        claimed(1, 17, Held::Damped, 0),
        claimed(1, 2, Held::Nothing, 0x2000),
        claimed(1, 2, Held::Nothing, 0xC000),
        claimed(1, 1, Held::Nothing, 0),
        claimed(128, 2, Held::Zero, 0),
    ]
}

/// Two rows and three columns, whose R has no third row; one row and column with a lambda above zero; a room that nobody packed,
/// whose last rows come back as they are.
fn of_few_rows() -> Vec<Vec<Item>> {
    let away = |m: usize, n: usize| {
        let back = [anew(m, n), state(m, n, Held::Nothing, 0), Item::Unpack(0)];
        [&[lent(0, n), Item::Pack(0)], &back[..]].concat()
    };
    let ones = |n: usize| search(&vec![1.0; n], 10.0, 0.0);
    let short = [Item::Zero, Item::Determined, Item::NonSingular, ones(3)];
    let rows = [1.0, 2.0, 5.0, -1.0, 2.0, 0.0];
    let foreign = [
        lent(0, 2),
        Item::Place(0, 0, 1),
        Item::Place(0, 1, 0),
        Item::Unpack(0),
        lent(1, 2),
        Item::Pack(1),
        Item::Zero,
    ];
    vec![
        case(
            2,
            3,
            &rows,
            &[3.0, 1.0],
            &[&away(2, 3)[..], &short].concat(),
        ),
        case(1, 1, &[3.0], &[36.0], &[away(1, 1), vec![ones(1)]].concat()),
        h(&foreign),
    ]
}

/// Three problems in turn in one store, each with its state beside its room; and in three stores.
fn in_turn() -> Vec<Vec<Item>> {
    let residuals = [8.0, 4.0, -2.0];
    let put = |k: usize| {
        [
            factored(&[3.0, 4.0], residuals[k]),
            lent(k, 2),
            Item::Pack(k),
        ]
    };
    let back = |k: usize| [Item::Unpack(k), Item::Zero];
    let one: Vec<Item> = (0..3).flat_map(put).chain((0..3).flat_map(back)).collect();
    let lend = |k: usize| {
        [
            Item::Exchange(k),
            anew(1, 2),
            factored(&[3.0, 4.0], residuals[k]),
        ]
    };
    let turns = [Item::Exchange(0), Item::Zero, Item::Exchange(1), Item::Zero];
    let away = [
        lent(2, 2),
        Item::Pack(2),
        Item::Exchange(0),
        Item::Unpack(2),
        Item::Zero,
    ];
    let three: Vec<Item> = (0..2).flat_map(lend).chain(turns).chain(away).collect();
    vec![h(&one), h(&three)]
}

/// Frozen columns: the marks stay with the state, the list is of their form, and nothing past the free count is cleared. The
/// widest, its last column frozen, and without marks.
fn marked() -> Vec<Vec<Item>> {
    let three = [1.0, 2.0, 2.0, 5.0, -1.0, 3.0, 2.0, 0.0, 1.0];
    let residuals = [3.0, 1.0, -2.0];
    let of = |calls: &[Item]| marked_case(3, 3, 0x4000, &three, &residuals, calls);
    let away = [lent(0, 3), Item::Store(8, 7.0), Item::Pack(0), anew(3, 3)];
    let back = [state(3, 3, Held::Zero, 0x4000), Item::Unpack(0), Item::Zero];
    let asked = [search(&[1.0; 3], 0.5, 0.0), Item::Determined];
    let others = [0, 0x8000, 0xE000, 0x1000].map(|marks| state(3, 3, Held::Nothing, marks));
    let by_others = others.map(|state| [state, Item::Unpack(0), Item::Pack(1)]);
    let mut jacobian = [0.0; 256];
    (0..16).for_each(|k| jacobian[17 * k] = 1.0);
    let widest = |marks: u16| {
        let calls = [lent(0, 16), Item::Pack(0), Item::Unpack(0), Item::Zero];
        marked_case(16, 16, marks, &jacobian, &[1.0; 16], &calls)
    };
    vec![
        of(&[&away[..], &back, &asked].concat()),
        of(&[&away[..], &[lent(1, 3)], &by_others.concat()].concat()),
        widest(0),
        widest(1),
    ]
}

pub fn cases() -> Vec<Vec<Item>> {
    let fixed = [
        over_what_stands(),
        while_held(),
        not_finite(),
        refused(),
        of_few_rows(),
        in_turn(),
        marked(),
    ]
    .concat();
    let drawn = drawn(make_away::alone, DRAWN, 107);
    let drawn = first_shown(drawn, &wanted_away(), &fixed, MOST);
    [fixed, drawn].concat()
}
