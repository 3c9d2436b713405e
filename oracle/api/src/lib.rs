//! What both workings of document 01 are asked: the calls in plain slices, their answers, and the state.
//!
//! A refusal is `Err(number)`. Lent slices may be longer than needed; the surplus is not touched. Every call that
//! takes a state hands one back. Each call answers as on the problem without the frozen columns (02, #108): its
//! vectors of n entries have one for each column, frozen ones too.

/// What a store holds below its diagonal and in l_diag.
#[derive(Clone, Copy, PartialEq, Eq, Debug)]
pub enum Held {
    Empty,
    Nothing,
    Zero,
    Damped,
}

#[derive(Clone, Copy, PartialEq, Eq, Debug)]
pub struct State {
    pub m: usize,
    pub n: usize,
    pub held: Held,
    /// "One mark for each column, given at factoring" (02, #108): column 0 is the most significant bit, set for frozen.
    pub marks: u16,
}

/// "An empty state has no marks" (02, #108).
pub const EMPTY: State = State {
    m: 0,
    n: 0,
    held: Held::Empty,
    marks: 0,
};

/// Whether marks have column k frozen. No column from 16 on has a mark.
pub fn frozen(marks: u16, k: usize) -> bool {
    k < 16 && marks & (0x8000 >> k) != 0
}

/// How many of n columns are free.
pub fn free(marks: u16, n: usize) -> usize {
    (0..n).filter(|k| !frozen(marks, *k)).count()
}

/// "A mark past n": what refusal 2 is given for too (02, #108).
pub fn mark_past(marks: u16, n: usize) -> bool {
    (n..16).any(|k| frozen(marks, k))
}

/// Which scaling call is meant: the first alone reads `x` and the step bound, and gives xnorm and radius.
#[derive(Clone, Copy, PartialEq, Eq, Debug)]
pub enum Mode {
    FirstScaled,
    FirstUnscaled,
    LaterScaled,
    LaterUnscaled,
}

/// Which ranges of the norm took part (02, #106): an entry that is small, not zero; an entry that is large. A call's are
/// those of every norm worked out for it. A refusal has none.
#[derive(Clone, Copy, PartialEq, Eq, Debug)]
pub struct Ranges {
    pub small: bool,
    pub large: bool,
}

impl Ranges {
    pub const NEITHER: Ranges = Ranges {
        small: false,
        large: false,
    };

    /// What is seen in one or in the other.
    pub fn either(self, other: Ranges) -> Ranges {
        Ranges {
            small: self.small || other.small,
            large: self.large || other.large,
        }
    }
}

/// The answer of a first scaling.
#[derive(Clone, Copy, PartialEq, Debug)]
pub struct Start {
    pub xnorm: f64,
    pub radius: f64,
}

/// The answer of a search; the step goes to the lent output.
#[derive(Clone, Copy, PartialEq, Debug)]
pub struct Found {
    pub lambda: f64,
    pub norm: f64,
    pub trials: usize,
}

/// The leaves of document 01, each alone.
pub trait Leaves {
    fn abs(&self, x: f64) -> f64;
    fn is_negative(&self, x: f64) -> bool;
    fn is_finite(&self, x: f64) -> bool;
    fn max(&self, a: f64, b: f64) -> f64;
    fn min(&self, a: f64, b: f64) -> f64;
    fn square(&self, x: f64) -> f64;
    fn sqrt(&self, x: f64) -> f64;
    /// 3 where the lengths differ.
    fn dot(&self, a: &[f64], b: &[f64]) -> Result<f64, u8>;
    /// a*x + y, into y; 3 where the lengths differ, y unwritten.
    fn axpy(&self, a: f64, x: &[f64], y: &mut [f64]) -> Result<(), u8>;
    /// a*x, into y (last factor 0); 3 where the lengths differ, y unwritten.
    fn axpy_zero(&self, a: f64, x: &[f64], y: &mut [f64]) -> Result<(), u8>;
    /// 3 for none.
    fn imax(&self, v: &[f64]) -> Result<usize, u8>;
    /// 2 over 128 numbers.
    fn enorm(&self, v: &[f64]) -> Result<(f64, Ranges), u8>;
    /// The first `n` of `x` become the solution of the upper triangle of a square of columns `apart` places apart;
    /// 3 where n is over `apart`, `x` is shorter than n, or the square is shorter than n columns. Otherwise the
    /// surplus of `x` is not touched.
    fn solve_upper(&self, r: &[f64], apart: usize, n: usize, x: &mut [f64]) -> Result<(), u8>;
}

/// The calls of document 01 over lent rooms.
#[allow(clippy::too_many_arguments)]
pub trait Engine {
    fn factor(
        &self,
        m: usize,
        n: usize,
        marks: u16,
        jacobian: &[f64],
        residuals: &[f64],
        store: &mut [f64],
        order: &mut [usize],
        bench: &mut [f64],
    ) -> (Result<Ranges, u8>, State);
    fn solve_with_zero_diagonal(
        &self,
        state: State,
        store: &mut [f64],
        order: &[usize],
        out: &mut [f64],
    ) -> (Result<(), u8>, State);
    fn solve_with_diagonal(
        &self,
        state: State,
        store: &mut [f64],
        order: &[usize],
        diag: &[f64],
        out: &mut [f64],
    ) -> (Result<(), u8>, State);
    /// The held call `solve` of `CholeskyFactor`.
    fn solve(
        &self,
        state: State,
        store: &mut [f64],
        order: &[usize],
        rhs: &[f64],
        out: &mut [f64],
    ) -> (Result<(), u8>, State);
    /// The held call `mul_qt_b` of `CholeskyFactor`. It takes no order list.
    fn mul_qt_b(&self, state: State, store: &mut [f64], out: &mut [f64])
    -> (Result<(), u8>, State);
    fn max_a_t_b_scaled(
        &self,
        state: State,
        store: &mut [f64],
        order: &[usize],
        b_norm: f64,
    ) -> (Result<f64, u8>, State);
    /// Whether the gradient is above a limit (02, #105): the columns are asked in pivot order, and the first whose measure
    /// is above the limit, or not finite, ends it.
    fn above_limit(
        &self,
        state: State,
        store: &mut [f64],
        order: &[usize],
        b_norm: f64,
        limit: f64,
    ) -> (Result<bool, u8>, State);
    fn a_x_norm(
        &self,
        state: State,
        store: &mut [f64],
        order: &[usize],
        x: &[f64],
    ) -> (Result<(f64, Ranges), u8>, State);
    /// The scaling part of `update_diag`. `Some` from a first call alone; a later one works out no norm. Short `diag` is 3
    /// in every mode, short `x` in the first modes alone.
    fn update_diag(
        &self,
        state: State,
        store: &mut [f64],
        mode: Mode,
        diag: &mut [f64],
        x: &[f64],
        step_bound: f64,
    ) -> (Result<(Option<Start>, Ranges), u8>, State);
    fn search(
        &self,
        state: State,
        store: &mut [f64],
        order: &[usize],
        diag: &[f64],
        radius: f64,
        lambda: f64,
        out: &mut [f64],
    ) -> (Result<(Found, Ranges), u8>, State);
    fn determined(&self, state: State, store: &mut [f64]) -> (Result<usize, u8>, State);
    fn is_non_singular(&self, state: State, store: &mut [f64]) -> (Result<bool, u8>, State);
    /// Puts a factored problem away (02, #107): "the upper triangle, qt_b and column norms go into n(n+1)/2 + 2n doubles, the
    /// order into n places". Store and order list are only read.
    fn pack(
        &self,
        state: State,
        store: &[f64],
        order: &[usize],
        room: &mut [f64],
        places: &mut [usize],
    ) -> (Result<(), u8>, State);
    /// Brings it back as after factoring. Neither store nor order list is read.
    fn unpack(
        &self,
        state: State,
        room: &[f64],
        places: &[usize],
        store: &mut [f64],
        order: &mut [usize],
    ) -> (Result<(), u8>, State);
    /// What `fitstep` prints for a sheet.
    fn sheet(&self, bytes: &[u8]) -> String;
}

/// What a norm of a factoring or of a search is of.
#[derive(Clone, Copy, PartialEq, Eq, Debug)]
pub enum Of {
    Column,
    /// The pivot column from this row on.
    Pivot(usize),
    /// What is left of a later column, worked out anew.
    Anew,
    Undamped,
    /// The held solve for the lower bound.
    LowerBound,
    Gnorm,
    Trial,
    /// The held solve for a correction.
    Correction,
}

/// One norm that was worked out.
#[derive(Clone, Copy, PartialEq, Eq, Debug)]
pub struct Measured {
    pub of: Of,
    pub ranges: Ranges,
}

/// One trial of a search: a damped solve and what follows from it.
#[derive(Clone, Copy, Debug)]
pub struct Trial {
    pub lambda: f64,
    pub norm: f64,
    /// Not worked out in trial ten.
    pub fp: Option<f64>,
    /// The bounds in force while the trial ran.
    pub lower: f64,
    pub upper: f64,
    /// Scaling times the root of lambda held a number that is not finite.
    pub infinite_damping: bool,
    /// The held solve for the correction gave a number that is not finite.
    pub infinite_solve: bool,
}

/// The rule that ended an answered search, in document 01's order.
#[derive(Clone, Copy, PartialEq, Eq, Debug)]
pub enum Stop {
    Undamped,
    Ten,
    Within,
    Falling,
}

/// Where a search was refused 8, in document 01's order.
#[derive(Clone, Copy, PartialEq, Eq, Debug)]
pub enum Place {
    UndampedNorm,
    LowerBound,
    Gnorm,
    Lambda,
    TrialNorm,
    Correction,
}

#[derive(Clone, Copy, PartialEq, Eq, Debug)]
pub enum End {
    Stopped(Stop),
    Refused(Place),
}

/// A whole search that got past its input checks.
#[derive(Clone, Debug)]
pub struct Run {
    pub undamped_norm: f64,
    /// The held solve for the lower bound gave a number that is not finite.
    pub infinite_first_solve: bool,
    pub trials: Vec<Trial>,
    /// In their order, as far as the run is looked at.
    pub norms: Vec<Measured>,
    pub end: End,
}

pub trait Traced {
    /// `None` where the search is refused 2 to 7 or 9.
    fn run(
        &self,
        state: State,
        store: &[f64],
        order: &[usize],
        diag: &[f64],
        radius: f64,
        lambda: f64,
    ) -> Option<Run>;
    /// The norms that a factoring works out, in their order; `None` where it is refused 2, 3 or 6 for the Jacobian, or 9.
    fn norms(&self, m: usize, n: usize, marks: u16, jacobian: &[f64]) -> Option<Vec<Measured>>;
}
