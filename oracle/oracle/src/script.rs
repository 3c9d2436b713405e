//! Call scripts: one item a line, read; `script_lines.rs` writes them.

pub use crate::script_lines::{text, write};
use crate::text::Tokens;
use api::{Held, Mode, State};

#[derive(Clone, Debug)]
pub enum Item {
    /// New lent rooms of these lengths, filled with junk from the seed; the state becomes the empty one.
    Rooms {
        store: usize,
        order: usize,
        bench: usize,
        out: usize,
        seed: u64,
    },
    Factor {
        m: usize,
        n: usize,
        marks: u16,
        jacobian: Vec<f64>,
        residuals: Vec<f64>,
    },
    State(State),
    Order(usize, usize),
    Store(usize, f64),
    Zero,
    Damped(Vec<f64>),
    Solve(Vec<f64>),
    Mul,
    Gradient(f64),
    /// Whether the gradient is above a limit (02, #105).
    Above {
        b_norm: f64,
        limit: f64,
    },
    Norm(Vec<f64>),
    Scale {
        mode: Mode,
        diag: Vec<f64>,
        x: Vec<f64>,
        step_bound: f64,
    },
    Search {
        diag: Vec<f64>,
        radius: f64,
        lambda: f64,
    },
    Determined,
    NonSingular,
    /// Exchanges the lent problem, its store, order list and state, with one of two that are put aside (02, #107).
    Exchange(usize),
    /// One of three packed rooms gets these lengths, filled with junk from the seed.
    Lend {
        packed: usize,
        room: usize,
        places: usize,
        seed: u64,
    },
    /// Into one of the packed rooms, and out of it.
    Pack(usize),
    Unpack(usize),
    /// Spoils a packed room: which one, the place, what is put there.
    Packed(usize, usize, f64),
    Place(usize, usize, usize),
    End,
}

/// How many problems are put aside, and how many packed rooms there are.
pub const ASIDE: usize = 2;
pub const PACKED: usize = 3;

const MODES: [Mode; 4] = [
    Mode::FirstScaled,
    Mode::FirstUnscaled,
    Mode::LaterScaled,
    Mode::LaterUnscaled,
];
const HELD: [Held; 4] = [Held::Empty, Held::Nothing, Held::Zero, Held::Damped];

fn choice<T: Copy>(of: [T; 4], k: usize) -> Result<T, String> {
    of.get(k)
        .copied()
        .ok_or_else(|| format!("not one of four: {k}"))
}

pub fn held_number(held: Held) -> u64 {
    HELD.iter().position(|&h| h == held).unwrap_or(0) as u64
}

pub fn mode_number(mode: Mode) -> usize {
    MODES.iter().position(|m| *m == mode).unwrap_or(0)
}

pub fn mode_of(k: usize) -> Mode {
    MODES[k % 4]
}

fn numbered(t: &mut Tokens) -> Result<Vec<f64>, String> {
    let len = t.number()?;
    t.doubles(len)
}

/// `F` has no marks, `K` has them after the sizes (02, #108).
fn factor(t: &mut Tokens, marked: bool) -> Result<Item, String> {
    let (m, n) = (t.number()?, t.number()?);
    let marks = if marked { marks(t)? } else { 0 };
    let (jlen, rlen) = (t.number()?, t.number()?);
    Ok(Item::Factor {
        m,
        n,
        marks,
        jacobian: t.doubles(jlen)?,
        residuals: t.doubles(rlen)?,
    })
}

fn marks(t: &mut Tokens) -> Result<u16, String> {
    let marks = t.bits()?;
    u16::try_from(marks).map_err(|_| format!("more than 16 marks: {marks:X}"))
}

/// The marks are left out where there are none.
fn state(t: &mut Tokens) -> Result<Item, String> {
    Ok(Item::State(State {
        m: t.number()?,
        n: t.number()?,
        held: choice(HELD, t.number()?)?,
        marks: if t.is_at_end() { 0 } else { marks(t)? },
    }))
}

fn scale(t: &mut Tokens) -> Result<Item, String> {
    let (mode, dlen, xlen) = (choice(MODES, t.number()?)?, t.number()?, t.number()?);
    Ok(Item::Scale {
        mode,
        diag: t.doubles(dlen)?,
        x: t.doubles(xlen)?,
        step_bound: t.double()?,
    })
}

fn rooms(t: &mut Tokens) -> Result<Item, String> {
    let (store, order, bench, out) = (t.number()?, t.number()?, t.number()?, t.number()?);
    Ok(Item::Rooms {
        store,
        order,
        bench,
        out,
        seed: t.bits()?,
    })
}

fn below(t: &mut Tokens, count: usize) -> Result<usize, String> {
    let k = t.number()?;
    let there = (k < count).then_some(k);
    there.ok_or_else(|| format!("not below {count}: {k}"))
}

fn lend(t: &mut Tokens) -> Result<Item, String> {
    let packed = below(t, PACKED)?;
    let (room, places) = (t.number()?, t.number()?);
    Ok(Item::Lend {
        packed,
        room,
        places,
        seed: t.bits()?,
    })
}

pub fn read(line: &str) -> Result<Item, String> {
    let mut t = Tokens::of(line);
    let item = match t.word()? {
        "R" => rooms(&mut t)?,
        "F" => factor(&mut t, false)?,
        "K" => factor(&mut t, true)?,
        "T" => state(&mut t)?,
        "O" => Item::Order(t.number()?, t.number()?),
        "W" => Item::Store(t.number()?, t.double()?),
        "Z" => Item::Zero,
        "D" => Item::Damped(numbered(&mut t)?),
        "S" => Item::Solve(numbered(&mut t)?),
        "M" => Item::Mul,
        "G" => Item::Gradient(t.double()?),
        "A" => Item::Above {
            b_norm: t.double()?,
            limit: t.double()?,
        },
        "N" => Item::Norm(numbered(&mut t)?),
        "U" => scale(&mut t)?,
        "L" => Item::Search {
            diag: numbered(&mut t)?,
            radius: t.double()?,
            lambda: t.double()?,
        },
        "P" => Item::Determined,
        "Q" => Item::NonSingular,
        "X" => Item::Exchange(below(&mut t, ASIDE)?),
        "J" => lend(&mut t)?,
        "B" => Item::Pack(below(&mut t, PACKED)?),
        "E" => Item::Unpack(below(&mut t, PACKED)?),
        "V" => Item::Packed(below(&mut t, PACKED)?, t.number()?, t.double()?),
        "Y" => Item::Place(below(&mut t, PACKED)?, t.number()?, t.number()?),
        "." => Item::End,
        other => return Err(format!("no such item: {other}")),
    };
    t.end()?;
    Ok(item)
}
