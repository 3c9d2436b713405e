//! A factored problem put away in a small room (02, #107). The Rust has no such calls: its problem is opened from the store
//! and read off, or built from the room and laid into the store as factoring lays its own.

use crate::qr::doors::Problem;
use crate::room::{Room, finite};
use api::State;

/// Tests 5, 2, 3 and 4: `list` is the one of the two that is read.
fn check(
    state: State,
    store: &[f64],
    list: &[usize],
    other: &[usize],
    room: &[f64],
) -> Result<Room, u8> {
    let own = Room::of_state(state)?;
    let n = own.n;
    let others = [
        (list.len(), n),
        (other.len(), n),
        (room.len(), own.packed()),
    ];
    own.lengths(store, &others)?;
    own.order(list)?;
    Ok(own)
}

/// Every column is packed, frozen ones too: past the free count "the room's bits are what comes back", of a store that
/// nobody factored as well. So the problem is that of all n columns.
fn whole(room: Room) -> Room {
    Room { marks: 0, ..room }
}

pub fn pack(
    state: State,
    store: &[f64],
    order: &[usize],
    room: &mut [f64],
    places: &mut [usize],
) -> Result<(), u8> {
    let own = check(state, store, order, places, room)?.some_free()?;
    let problem = Problem::open(&whole(own), store, order);
    room[..own.packed()].copy_from_slice(&problem.packed());
    places[..own.n].copy_from_slice(problem.order());
    Ok(())
}

pub fn unpack(
    state: State,
    room: &[f64],
    places: &[usize],
    store: &mut [f64],
    order: &mut [usize],
) -> Result<(), u8> {
    let own = check(state, store, places, order, room)?;
    let packed = &room[..own.packed()];
    finite(packed)?;
    let own = whole(own.some_free()?);
    let problem = Problem::unpacked(&own, packed, &places[..own.n]);
    problem.keep_factored(&own, store);
    order[..own.n].copy_from_slice(problem.order());
    Ok(())
}
