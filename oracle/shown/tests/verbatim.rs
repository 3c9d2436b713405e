//! The shown files are the crate's own, byte for byte: each is held to the SHA-256 of what levenberg-marquardt 0.15.0
//! published.

use std::{fs, path::Path};

const QR: &str = "d30b75c35b9331ef52994f75e57989a9c1a4a05793bc70f0c1b2835a718ce935";
const TRUST_REGION: &str = "7571bb22ada12ff4752a120957d4bc40831444038c84e59a5166984b767ccef2";
/// `update_diag` of lm.rs, from `if self.first_update {` to `Ok(())`.
const UPDATE_DIAG: &str = "ecaa51731712e1bcc6e8de58af1520d2d0862b8d326cef1d5c481964e3329a81";
/// `enorm` of utils.rs, from its attribute to its last brace.
const ENORM: &str = "172a5bdeb662e64fd63f5066c50e7ca5233444f6e786d94e8c7c68712d738010";

const MARK: &str = " // traced";

fn source(name: &str) -> String {
    let path = Path::new(env!("CARGO_MANIFEST_DIR")).join("src").join(name);
    fs::read_to_string(path).expect("a source file")
}

fn between(text: &str, from: &str, to: &str) -> String {
    let lines = text
        .split_inclusive('\n')
        .skip_while(|line| line.trim() != from);
    let lines = lines.skip(1).take_while(|line| line.trim() != to);
    lines.collect()
}

#[test]
fn qr_is_unchanged() {
    assert_eq!(sha256(source("qr.rs").as_bytes()), QR);
}

#[test]
fn what_is_compiled_begins_with_qr() {
    let compiled = fs::read_to_string(concat!(env!("OUT_DIR"), "/qr.rs")).expect("built");
    let added = compiled
        .strip_prefix(&source("qr.rs"))
        .expect("qr.rs first");
    assert_eq!(added.lines().filter(|line| !line.is_empty()).count(), 2);
    assert!(added.ends_with("pub mod doors;\n"));
}

#[test]
fn trust_region_is_unchanged() {
    assert_eq!(sha256(source("trust_region.rs").as_bytes()), TRUST_REGION);
}

#[test]
fn update_diag_has_the_lines_of_lm() {
    let lines = between(
        &source("update_diag.rs"),
        "// lm.rs from here",
        "// lm.rs to here",
    );
    assert_eq!(sha256(lines.as_bytes()), UPDATE_DIAG);
}

#[test]
fn the_published_norm_has_the_lines_of_utils() {
    let text = source("published.rs");
    let lines = between(&text, "// utils.rs from here", "// utils.rs to here");
    assert_eq!(sha256(lines.as_bytes()), ENORM);
}

#[test]
fn the_traced_copy_without_its_marked_lines_is_trust_region() {
    let traced = source("traced.rs");
    let is_marked = |line: &&str| line.trim_end_matches('\n').ends_with(MARK);
    let (marked, kept): (Vec<&str>, Vec<&str>) = traced.split_inclusive('\n').partition(is_marked);
    assert_eq!(kept.concat(), source("trust_region.rs"));
    assert_eq!(marked.len(), 14);
}

#[test]
fn the_digest_is_sha256() {
    let abc = "ba7816bf8f01cfea414140de5dae2223b00361a396177a9cb410ff61f20015ad";
    let none = "e3b0c44298fc1c149afbf4c8996fb92427ae41e4649b934ca495991b7852b855";
    assert_eq!(sha256(b"abc"), abc);
    assert_eq!(sha256(b""), none);
}

/// The first 32 bits behind the point of `root` of the first 64 primes.
fn fractions(root: impl Fn(u128) -> u128) -> impl Iterator<Item = u32> {
    let primes = (2u128..).filter(|p| (2..*p).all(|d| p % d != 0));
    primes.take(64).map(move |prime| root(prime) as u32)
}

/// The largest whole number with `fits`, which holds up to it.
fn largest(fits: impl Fn(u128) -> bool) -> u128 {
    (0..40).rev().fold(0, |found, bit| {
        let tried = found | 1 << bit;
        if fits(tried) { tried } else { found }
    })
}

/// FIPS 180-4.
fn sha256(message: &[u8]) -> String {
    let constants: Vec<u32> = fractions(|p| largest(|r| r * r * r <= p << 96)).collect();
    let mut hash: Vec<u32> = fractions(|p| largest(|r| r * r <= p << 64))
        .take(8)
        .collect();
    let mut padded = message.to_vec();
    padded.push(0x80);
    while padded.len() % 64 != 56 {
        padded.push(0);
    }
    padded.extend((message.len() as u64 * 8).to_be_bytes());
    for block in padded.chunks(64) {
        compress(&mut hash, block, &constants);
    }
    hash.iter().map(|word| format!("{word:08x}")).collect()
}

fn compress(hash: &mut [u32], block: &[u8], constants: &[u32]) {
    let mut w: Vec<u32> = block
        .chunks(4)
        .map(|word| {
            word.iter()
                .fold(0, |bits, byte| bits << 8 | u32::from(*byte))
        })
        .collect();
    for t in 16..64 {
        let (a, b) = (w[t - 15], w[t - 2]);
        let s0 = a.rotate_right(7) ^ a.rotate_right(18) ^ a >> 3;
        let s1 = b.rotate_right(17) ^ b.rotate_right(19) ^ b >> 10;
        w.push(
            w[t - 16]
                .wrapping_add(s0)
                .wrapping_add(w[t - 7])
                .wrapping_add(s1),
        );
    }
    let mut v: Vec<u32> = hash.to_vec();
    for t in 0..64 {
        let (a, e) = (v[0], v[4]);
        let s1 = e.rotate_right(6) ^ e.rotate_right(11) ^ e.rotate_right(25);
        let s0 = a.rotate_right(2) ^ a.rotate_right(13) ^ a.rotate_right(22);
        let choice = e & v[5] ^ !e & v[6];
        let majority = a & v[1] ^ a & v[2] ^ v[1] & v[2];
        let sums = [v[7], s1, choice, constants[t], w[t]];
        let first = sums
            .iter()
            .fold(0, |sum: u32, term| sum.wrapping_add(*term));
        v.rotate_right(1);
        v[4] = v[4].wrapping_add(first);
        v[0] = first.wrapping_add(s0).wrapping_add(majority);
    }
    for (word, added) in hash.iter_mut().zip(v) {
        *word = word.wrapping_add(added);
    }
}
