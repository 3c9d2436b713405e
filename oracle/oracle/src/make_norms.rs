//! Norms at the limits of their ranges.

use crate::leaf::Leaf;
use crate::make_leaves::{RDWARF, RGIANT, TINY, around};

/// The limits of the norm for its length, alone and beside numbers of the other two kinds.
pub fn norms(out: &mut Vec<Leaf>) {
    out.push(Leaf::Enorm(vec![3.0, 4.0]));
    for len in [0, 1, 2, 3, 16, 127, 128, 129, 1000] {
        let agiant = RGIANT / len as f64;
        let firsts = [
            around(RDWARF),
            around(agiant),
            [0.0, 1.0, f64::NAN],
            [f64::INFINITY, TINY, f64::MAX],
        ]
        .concat();
        for first in firsts {
            let others = [0.0, -1.0, 1e-30, RDWARF, agiant, 1e300];
            for rest in others.into_iter().chain([f64::INFINITY, f64::NAN]) {
                let mut v = vec![rest; len];
                if len > 0 {
                    v[0] = first;
                }
                out.push(Leaf::Enorm(v.clone()));
                v.reverse();
                out.push(Leaf::Enorm(v));
            }
        }
    }
    for v in [
        [1e-25, 1e-30, 5e-324],
        [1e-30, 1e-25, 1e-21],
        [1e-19, 1e-20, 3e-20],
        [1e19, 1e25, 1e-25],
        [1e30, 1e20, 1.0],
    ] {
        out.push(Leaf::Enorm(v.to_vec()));
    }
}

/// One number among zeros of either sign: each limit and its neighbours, by the norm's own length; what is smallest,
/// largest and not a number; 4e18, which is large among four and is not by itself (02, #106).
fn single(out: &mut Vec<Leaf>) {
    for len in [1, 2, 4, 5, 13, 64] {
        let numbers = [
            around(RDWARF),
            around(RGIANT / len as f64),
            [TINY, f64::MIN_POSITIVE.next_down(), 4e18],
            [0.0, f64::INFINITY, f64::NAN],
        ]
        .concat();
        for (k, x) in numbers.into_iter().enumerate() {
            let (zero, x) = if k % 2 == 0 { (0.0, -x) } else { (-0.0, x) };
            let mut v = vec![zero; len];
            v[k % len] = x;
            out.push(Leaf::Enorm(v));
        }
    }
}

/// Two ranges or three in one norm, in each order: the number comes from one of them, the flags from all.
pub fn ranges(out: &mut Vec<Leaf>) {
    single(out);
    let several: [&[f64]; 8] = [
        &[1e20, 1e-25],
        &[1e20, 1.0],
        &[1e-25, 1.0],
        &[TINY, f64::INFINITY],
        &[1e-25, f64::NAN],
        &[f64::INFINITY, f64::NAN],
        &[1e20, -1.0, -1e-25],
        &[-0.0, RDWARF, RDWARF.next_up(), 4e18],
    ];
    for v in several {
        let mut v = v.to_vec();
        out.push(Leaf::Enorm(v.clone()));
        v.reverse();
        out.push(Leaf::Enorm(v));
    }
}
