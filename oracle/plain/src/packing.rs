//! 02, #107: a factored problem put away in a small room, and brought back. A store is n + 4 rows of n numbers, the square's
//! columns and the four vectors: of the columns the part to the diagonal is packed, of the vectors the first two.

use crate::frozen::Columns;
use crate::leaves::all_finite;
use crate::room::{admit, holding, needed};
use api::{Held, State};

/// How many numbers of row k of a store are packed.
fn width(n: usize, k: usize) -> usize {
    match k {
        _ if k < n => k + 1,
        _ if k < n + 2 => n,
        _ => 0,
    }
}

fn packed_need(n: usize) -> usize {
    (0..n + 4).map(|k| width(n, k)).sum()
}

/// Tests 5, 2, 3 and 4 of either call; `list` is the one that is read, `other` the length of the one that is written.
fn admitted(
    state: State,
    store: &[f64],
    list: &[usize],
    other: usize,
    room: usize,
) -> Result<Columns, u8> {
    let columns = admit(state, store, None, &[list.len(), other], false)?;
    if room < packed_need(state.n) {
        return Err(3);
    }
    if !columns.ordered_by(list) {
        return Err(4);
    }
    Ok(columns)
}

/// "Packing only reads the store"; no test 6 is made of one.
pub fn pack(
    state: State,
    store: &[f64],
    order: &[usize],
    room: &mut [f64],
    places: &mut [usize],
) -> (Result<(), u8>, State) {
    let admitted = admitted(state, store, order, places.len(), room.len());
    let columns = match admitted.and_then(Columns::some_free) {
        Ok(columns) => columns,
        Err(number) => return (Err(number), state),
    };
    let n = columns.n;
    let rows = store[..needed(n)].chunks(n).enumerate();
    let taken = rows.flat_map(|(k, row)| &row[..width(n, k)]);
    taken.zip(room).for_each(|(x, to)| *to = *x);
    places[..n].copy_from_slice(&order[..n]);
    (Ok(()), state)
}

/// "Leaves the store as after factoring": what is not packed is +0.
pub fn unpack(
    state: State,
    room: &[f64],
    places: &[usize],
    store: &mut [f64],
    order: &mut [usize],
) -> (Result<(), u8>, State) {
    let admitted = admitted(state, store, places, order.len(), room.len());
    let finite = admitted.and_then(|columns| {
        let read = &room[..packed_need(columns.n)];
        if all_finite(read) {
            Ok(columns)
        } else {
            Err(6)
        }
    });
    let n = match finite.and_then(Columns::some_free) {
        Ok(columns) => columns.n,
        Err(number) => return (Err(number), state),
    };
    let mut rest = room;
    for (k, row) in store[..needed(n)].chunks_mut(n).enumerate() {
        let (own, later) = rest.split_at(width(n, k));
        row.fill(0.0);
        row[..own.len()].copy_from_slice(own);
        rest = later;
    }
    order[..n].copy_from_slice(&places[..n]);
    (Ok(()), holding(state, Held::Nothing))
}
