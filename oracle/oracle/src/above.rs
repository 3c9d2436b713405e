//! What the question of 02, #105, meets: the columns' measures, read a third time off the lent store, and the gradient.

use crate::engines::Working;
use crate::replies::{Reply, Told};
use crate::rooms::Rooms;
use crate::script::Item;

/// One column, and its part of the gradient before the norm divides it.
pub struct Column {
    pub sum: f64,
    norm: f64,
    /// Its number, counted among the free columns.
    own: usize,
}

impl Column {
    /// None for a column of norm zero, which is skipped.
    pub fn measure(&self) -> Option<f64> {
        (self.norm != 0.0).then(|| (self.sum / self.norm).abs())
    }

    pub fn is_above(&self, limit: f64) -> bool {
        self.measure().is_some_and(|x| x.is_finite() && x > limit)
    }

    fn ends(&self, limit: f64) -> bool {
        let finite = self.measure().is_none_or(f64::is_finite);
        !finite || self.is_above(limit)
    }
}

/// What stands in a store that passes the gradient's tests.
pub struct Met {
    /// In pivot order.
    pub columns: Vec<Column>,
    pub gradient: Result<f64, u8>,
}

/// What the first of some columns to end the question says, "the first non-finite one" or one above the limit.
fn answer<'a>(mut columns: impl Iterator<Item = &'a Column>, limit: f64) -> Result<bool, u8> {
    match columns.find(|column| column.ends(limit)) {
        Some(column) if column.is_above(limit) => Ok(true),
        Some(_) => Err(8),
        None => Ok(false),
    }
}

impl Met {
    /// The place of the column that ends the question.
    pub fn end(&self, limit: f64) -> Option<usize> {
        self.columns.iter().position(|column| column.ends(limit))
    }

    pub fn answer(&self, limit: f64) -> Result<bool, u8> {
        answer(self.columns.iter(), limit)
    }

    /// What the question would say of the columns in their own order.
    pub fn unordered(&self, limit: f64) -> Result<bool, u8> {
        let mut columns: Vec<&Column> = self.columns.iter().collect();
        columns.sort_by_key(|column| column.own);
        answer(columns.into_iter(), limit)
    }
}

fn gradient(engine: &dyn Working, rooms: &Rooms, b_norm: f64) -> Result<f64, u8> {
    let mut store = rooms.store.clone();
    let (answer, _) = engine.max_a_t_b_scaled(rooms.state, &mut store, &rooms.order, b_norm);
    answer
}

/// None where the gradient is refused before 8.
pub fn met(engine: &dyn Working, rooms: &Rooms, b_norm: f64) -> Option<Met> {
    let gradient = gradient(engine, rooms, b_norm);
    if !matches!(gradient, Ok(_) | Err(8)) {
        return None;
    }
    let (n, store) = (rooms.state.n, &rooms.store);
    let free = api::free(rooms.state.marks, n);
    let qt_b = store[n * n..][..free].iter();
    let b: Vec<f64> = qt_b.map(|x| x / b_norm).collect();
    let column = |j: usize| {
        let own = rooms.order[j];
        Column {
            sum: engine
                .dot(&store[j * n..=j * n + j], &b[..=j])
                .expect("of one length"),
            norm: store[n * n + n + own],
            own,
        }
    };
    let columns = (0..free).map(column).collect();
    Some(Met { columns, gradient })
}

/// What a reply to a question says.
pub fn said(reply: &Reply) -> Result<bool, u8> {
    let answer = reply.answer.as_ref().map_err(|number| *number)?;
    Ok(matches!(answer.told, Told::Count(1)))
}

/// Whether a question is answered as the same working's gradient says, that of the rooms before it: "wherever the full
/// gradient is answered, the two agree exactly". None where there is no such answer, or the limit is refused.
pub fn as_the_gradient(
    engine: &dyn Working,
    rooms: &Rooms,
    item: &Item,
    reply: &Reply,
) -> Option<bool> {
    let Item::Above { b_norm, limit } = item else {
        return None;
    };
    let passes = limit.is_finite() && *limit >= 0.0;
    let gradient = gradient(engine, rooms, *b_norm).ok().filter(|_| passes)?;
    Some(said(reply) == Ok(*limit < gradient))
}
