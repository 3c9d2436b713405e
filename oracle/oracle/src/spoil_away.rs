//! What a careless caller does to packed rooms (02, #107), and to the lent ones around them.

use crate::away::needed;
use crate::frozen_apart::{other_marks, spoilt_list};
use crate::make_away::{KEPT, Station};
use crate::make_frozen::{all_marks, list};
use crate::random::Random;
use crate::script::{Item, PACKED};
use api::{EMPTY, Held, State};

const NUMBERS: [f64; 7] = [
    f64::NAN,
    f64::INFINITY,
    f64::NEG_INFINITY,
    0.0,
    -0.0,
    7.0,
    1e300,
];

/// Another state than the one given: the empty one, of other sizes, in range or out of it; where there are marks, of others.
pub fn state(rng: &mut Random, station: &Station, own: State) -> State {
    let marked = station.problems.iter().any(|(_, marks)| *marks != 0);
    let held = rng.pick(&KEPT);
    let marks = other_marks(rng, &station.scene());
    match rng.below(6) {
        0 => EMPTY,
        1 => State {
            held: Held::Empty,
            ..own
        },
        2 => State {
            m: rng.pick(&[0, 1, 128, 129, usize::MAX]),
            held,
            ..own
        },
        3 => State {
            n: rng.pick(&[0, 1, 2, 16, 17, usize::MAX]),
            held,
            ..own
        },
        _ if marked => State { marks, held, ..own },
        _ => State {
            m: own.m % 128 + 1,
            held,
            ..own
        },
    }
}

/// Junk in the lent order list, which unpacking does not read.
pub fn lent_list(rng: &mut Random, station: &mut Station) {
    for place in 0..station.rooms.order.len() {
        if rng.percent(60) {
            station.put(Item::Order(place, rng.below(32)));
        }
    }
}

/// Behind the last double that is read.
pub fn surplus(rng: &mut Random, station: &mut Station, k: usize) {
    let len = station.rooms.packed[k].room.len();
    let read = needed(station.beside[k].0.n.min(16));
    if read < len {
        let place = read + rng.below(len - read);
        station.put(Item::Packed(k, place, rng.pick(&NUMBERS[..3])));
    }
}

fn room_number(rng: &mut Random, station: &mut Station, k: usize) {
    let len = station.rooms.packed[k].room.len();
    if len > 0 {
        let place = rng.below(len);
        station.put(Item::Packed(k, place, rng.pick(&NUMBERS)));
    }
}

/// The items of a list, put into the places of a packed room as far as there are any.
fn put_places(station: &mut Station, k: usize, list: Vec<Item>) {
    let len = station.rooms.packed[k].places.len();
    for item in list {
        if let Item::Order(place, value) = item
            && place < len
        {
            station.put(Item::Place(k, place, value));
        }
    }
}

fn places(rng: &mut Random, station: &mut Station, k: usize) {
    let list = spoilt_list(rng, &station.scene());
    put_places(station, k, list);
}

/// A room that packing did not write, mostly with a list that passes; and a state beside it, now and then of no free column.
fn foreign(rng: &mut Random, station: &mut Station, k: usize, none_free: bool) {
    let mut scene = station.scene();
    let (m, n) = (scene.example.problem.m, scene.example.problem.n);
    if none_free {
        scene.marks = all_marks(n);
    }
    scene.order = n;
    station.lend_packed(rng, k, n);
    let passing = list(rng, &scene);
    put_places(station, k, passing);
    if rng.percent(20) {
        let list = spoilt_list(rng, &scene);
        put_places(station, k, list);
    }
    if rng.percent(20) {
        room_number(rng, station, k);
    }
    let held = rng.pick(&KEPT);
    let marks = scene.marks;
    station.beside[k] = (State { m, n, held, marks }, station.at[0]);
}

/// No column is free: packing is refused 9 where the list counts on from 0.
fn none_free(rng: &mut Random, station: &mut Station) {
    let k = rng.below(PACKED);
    foreign(rng, station, k, true);
    let mut scene = station.scene();
    let (m, n) = (scene.example.problem.m, scene.example.problem.n);
    scene.marks = all_marks(n);
    if rng.percent(70) {
        for item in list(rng, &scene) {
            station.put(item);
        }
    }
    let held = rng.pick(&KEPT);
    let marks = scene.marks;
    station.put(Item::State(State { m, n, held, marks }));
    station.put(Item::Pack(rng.below(PACKED)));
    station.put(Item::Unpack(k));
}

/// Numbers of the lent store: in what is packed, and in work, which packing leaves.
fn store(rng: &mut Random, station: &mut Station) {
    let (n, len) = (station.rooms.state.n.min(16), station.rooms.store.len());
    let place = match rng.below(2) {
        0 if n > 0 => n * n + 3 * n + rng.below(n),
        _ if len > 0 => rng.below(len),
        _ => return,
    };
    if place < len {
        station.put(Item::Store(place, rng.pick(&NUMBERS)));
        station.put(Item::Pack(rng.below(PACKED)));
    }
}

fn order(rng: &mut Random, station: &mut Station) {
    let list = spoilt_list(rng, &station.scene());
    list.into_iter().for_each(|item| {
        station.put(item);
    });
}

/// What was done to a packed room is mostly tried at once.
pub fn any(rng: &mut Random, station: &mut Station) {
    let marked = station.problems.iter().any(|(_, marks)| *marks != 0);
    let k = rng.below(PACKED);
    match rng.below(100) {
        0..30 => room_number(rng, station, k),
        30..45 => places(rng, station, k),
        45..65 => foreign(rng, station, k, false),
        65..85 => return store(rng, station),
        85..95 if marked => return none_free(rng, station),
        _ => return order(rng, station),
    }
    if rng.percent(60) {
        station.unpack(rng, k);
    }
}
