//! Where the published norm and the leaf rule give different bits: the smallest inputs of a fixed list.
//!
//! The list goes by whole numbers times a power of ten, small numbers first, powers near zero first. A line gives the
//! input and both answers. What it prints is in docs/DIFFERENCES.md.

use api::{Engine, Leaves};
use shown::{Shown, published};

const SMALL: [u32; 5] = [1, 2, 3, 4, 5];

fn double(digit: u32, power: i32) -> f64 {
    format!("{digit}e{power}").parse().expect("a number")
}

fn powers() -> impl Iterator<Item = i32> {
    (0..160).flat_map(|power| [power, -power])
}

fn differ(v: &[f64]) -> Option<(f64, f64)> {
    let (leaf, published) = (Shown.enorm(v).expect("short").0, published::norm(v));
    let same = leaf.to_bits() == published.to_bits() || leaf.is_nan() && published.is_nan();
    (!same).then_some((leaf, published))
}

fn show(v: &[f64], (leaf, published): (f64, f64)) {
    let bits: Vec<String> = v.iter().map(|x| format!("{:016X}", x.to_bits())).collect();
    println!("norm of {v:?} = ({})", bits.join(" "));
    println!("  leaf rule {:016X} {leaf:e}", leaf.to_bits());
    println!("  published {:016X} {published:e}", published.to_bits());
}

/// One number: every double is its own norm under both, as far as `count` of them can show.
fn single(count: u64) {
    let mut bits = 1u64;
    let mut differing = 0;
    for _ in 0..count {
        bits = bits
            .wrapping_mul(6364136223846793005)
            .wrapping_add(1442695040888963407);
        let mixed = f64::from_bits(bits ^ bits >> 29);
        differing += u64::from(differ(&[mixed]).is_some());
    }
    println!("single numbers: {count} compared, {differing} differ");
}

/// The first vector of this length, all of one power, for large and for small powers.
fn first_of(length: u32, large: bool) -> Option<(Vec<f64>, (f64, f64))> {
    let count = SMALL.len().pow(length);
    let digits =
        |k: usize| (0..length).map(move |place| SMALL[k / SMALL.len().pow(place) % SMALL.len()]);
    let mut wanted = powers().filter(|power| (*power > 0) == large);
    wanted.find_map(|power| {
        (0..count).find_map(|k| {
            let v: Vec<f64> = digits(k).map(|digit| double(digit, power)).collect();
            differ(&v).map(|answers| (v, answers))
        })
    })
}

fn sheet(m: u8, doubles: &[f64]) -> Vec<u8> {
    let mut bytes = vec![0x11, m >> 2, m << 6 | 1];
    for double in doubles {
        bytes.extend(double.to_bits().to_be_bytes());
    }
    bytes
}

/// Two rows and one column, scaling 1, radius 1, lambda 0.
fn first_sheet(large: bool) -> Option<(Vec<f64>, String, String)> {
    let mut wanted = powers().filter(|power| (*power > 0) == large);
    wanted.find_map(|power| {
        (0..625usize).find_map(|k| {
            let digit = |place: u32| double(SMALL[k / 5usize.pow(place) % 5], power);
            let doubles = vec![digit(0), digit(1), digit(2), digit(3), 1.0, 1.0, 0.0];
            let bytes = sheet(2, &doubles);
            let leaf = Shown.sheet(&bytes);
            let published = published::in_place(|| Shown.sheet(&bytes));
            (leaf != published).then_some((doubles, leaf, published))
        })
    })
}

fn main() {
    single(20_000_000);
    for (length, large) in [(2, true), (2, false), (3, true), (3, false)] {
        match first_of(length, large) {
            Some((v, answers)) => show(&v, answers),
            None => println!("none of length {length}, large: {large}"),
        }
    }
    for (doubles, leaf, published) in [true, false].into_iter().filter_map(first_sheet) {
        let hex: String = sheet(2, &doubles)
            .iter()
            .map(|byte| format!("{byte:02X}"))
            .collect();
        println!("sheet {hex} = {doubles:?}\nleaf rule:\n{leaf}published:\n{published}");
    }
}
