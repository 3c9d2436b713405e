//! The program as the tools and their users meet it: its verdict line, its help and its exit status.

use std::process::{Command, Output};

fn oracle(words: &[&str]) -> Output {
    Command::new(env!("CARGO_BIN_EXE_oracle"))
        .args(words)
        .output()
        .unwrap()
}

fn text(bytes: &[u8]) -> String {
    String::from_utf8(bytes.to_vec()).unwrap()
}

/// The last line has the sums of the three before the list of what was covered.
#[test]
fn compare_ends_in_a_verdict() {
    let out = oracle(&["compare", "20", "1"]);
    let printed = text(&out.stdout);
    assert_eq!(out.status.code(), Some(0), "{}", text(&out.stderr));
    let compared: u64 = printed
        .lines()
        .filter_map(|line| line.split_once(" compared, "))
        .filter_map(|(what, _)| what.split_once(' '))
        .map(|(count, _)| count.parse::<u64>().unwrap())
        .sum();
    let verdict = format!("{compared} compared, 0 differ");
    assert_eq!(printed.lines().last(), Some(verdict.as_str()));
    assert!(compared > 15_000);
}

/// What is not covered is no trouble: it is the verdict, on standard output, and the status is 1.
#[test]
fn cover_ends_in_a_verdict() {
    let out = oracle(&["cover", "sheets", "1", "1"]);
    let printed = text(&out.stdout);
    assert!(printed.trim_end().ends_with(" at zero"));
    assert_eq!((out.status.code(), out.stderr.is_empty()), (Some(1), true));
}

#[test]
fn help_and_wrong_words() {
    let out = oracle(&["--help"]);
    assert_eq!((out.status.code(), out.stderr.is_empty()), (Some(0), true));
    assert!(text(&out.stdout).starts_with("usage:\n  oracle make "));
    for words in [
        &[][..],
        &["compare", "10"],
        &["compare", "ten", "1"],
        &["cover", "others", "1", "1"],
        &["speed", "0", "1", "1", "0"],
        &["minpack", "make", "x", "1"],
        &["minpack"],
    ] {
        let out = oracle(words);
        assert_eq!(
            (out.status.code(), out.stdout.is_empty()),
            (Some(2), true),
            "{words:?}"
        );
        assert!(!out.stderr.is_empty(), "{words:?}");
    }
}
