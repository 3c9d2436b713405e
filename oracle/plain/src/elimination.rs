//! Module 5 of document 01: a diagonal is rotated into R, which leaves L below R's diagonal and in l_diag.

use crate::leaves::abs;
use crate::room::Room;
use crate::root::sqrt;

/// Sine and cosine, by |r| < |l|.
fn rotation(r: f64, l: f64) -> (f64, f64) {
    if abs(r) < abs(l) {
        let cot = r / l;
        let sin = 0.5 / sqrt(0.25 + 0.25 * (cot * cot));
        (sin, sin * cot)
    } else {
        let tan = l / r;
        let cos = 0.5 / sqrt(0.25 + 0.25 * (tan * tan));
        (cos * tan, cos)
    }
}

fn copy_upper_to_lower(room: &mut Room) {
    for j in 0..room.n {
        for i in j + 1..room.n {
            let x = room.cell(j, i);
            room.put(i, j, x);
        }
    }
}

/// The row that began with `entry` at place j is rotated away, place by place.
fn rotate_row(room: &mut Room, j: usize, entry: f64, rhs: &mut [f64]) {
    let n = room.n;
    room.l_diag[j] = entry;
    room.l_diag[j + 1..].fill(0.0);
    let mut beyond = 0.0;
    for k in j..n {
        let l = room.l_diag[k];
        if l == 0.0 {
            continue;
        }
        let r = room.cell(k, k);
        let (sin, cos) = rotation(r, l);
        room.put(k, k, cos * r + sin * l);
        let old = rhs[k];
        rhs[k] = cos * old + sin * beyond;
        beyond = -sin * old + cos * beyond;
        for i in k + 1..n {
            let r = room.cell(i, k);
            let l = room.l_diag[i];
            room.put(i, k, cos * r + sin * l);
            room.l_diag[i] = -sin * r + cos * l;
        }
    }
}

/// `rhs` comes as Q^T b and leaves rotated. Work keeps R's diagonal meanwhile; "R's diagonal is put back".
pub fn eliminate(room: &mut Room, order: &[usize], diag: &[f64], rhs: &mut [f64]) {
    copy_upper_to_lower(room);
    for j in 0..room.n {
        room.work[j] = room.cell(j, j);
    }
    for j in 0..room.n {
        let entry = diag[order[j]];
        if entry != 0.0 {
            rotate_row(room, j, entry, rhs);
        }
        room.l_diag[j] = room.cell(j, j);
        let kept = room.work[j];
        room.put(j, j, kept);
    }
}
