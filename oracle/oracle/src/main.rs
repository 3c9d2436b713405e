//! The oracle's program: cases in, answers out; or both workings against each other.

use oracle::cases::{self, Kind};
use oracle::coverage::Coverage;
use oracle::engines::{PLAIN, SHOWN, Working};
use oracle::random::Random;
use oracle::rooms::Rooms;
use oracle::script::{self, Item};
use oracle::{compare, make_leaves, minpack, sample, speed, text, trace};
use std::io::{self, BufRead, BufWriter, Write};
use std::process::ExitCode;

const USAGE: &str = "usage:
  oracle make sheets|calls|factorings|frozen COUNT SEED
  oracle make sample
  oracle cover sheets|calls|factorings|frozen COUNT SEED [--plain]
  oracle leaves COUNT SEED [--plain]
  oracle sheets|calls|trace [--plain]    cases on standard input
  oracle compare COUNT SEED
  oracle minpack ...                     for tools/compare-minpack
  oracle speed M N CALLS MODE [--plain]  what the program `speed` prints
  oracle --help
Exit status: 0; 1 where a comparison, a coverage or a judgement found what should not be, as its last line says; 2 for trouble";

/// What the tools take as trouble; a verdict that is not good is no trouble, and has its own line.
const TROUBLE: u8 = 2;

type Outcome = Result<(), String>;

/// A verdict that was printed, and whether it is good.
type Verdict = Result<bool, String>;

fn say(out: &mut impl Write, text: &str) -> Outcome {
    out.write_all(text.as_bytes()).map_err(|e| e.to_string())
}

fn each_line(mut act: impl FnMut(&str, &mut dyn FnMut(&str) -> Outcome) -> Outcome) -> Outcome {
    let mut out = BufWriter::new(io::stdout().lock());
    for line in io::stdin().lock().lines() {
        let line = line.map_err(|e| e.to_string())?;
        act(&line, &mut |text| say(&mut out, text))?;
    }
    out.flush().map_err(|e| e.to_string())
}

fn sheets(engine: &dyn Working) -> Outcome {
    each_line(|line, say| {
        say(&engine.sheet(&text::bytes_of_hex(line)?))?;
        say(".\n")
    })
}

fn traces(engine: &dyn Working) -> Outcome {
    each_line(|line, say| {
        say(&trace::of_sheet(engine, &text::bytes_of_hex(line)?))?;
        say(".\n")
    })
}

fn calls(engine: &dyn Working) -> Outcome {
    let mut rooms = Rooms::none();
    each_line(|line, say| say(&rooms.printed(engine, &script::read(line)?)))
}

fn make_sheets(count: u64, seed: u64) -> Outcome {
    let mut coverage = Coverage::default();
    let mut out = BufWriter::new(io::stdout().lock());
    for bytes in cases::sheets(count, seed) {
        coverage.sheet(PLAIN, &bytes, &PLAIN.sheet(&bytes));
        say(&mut out, &(text::hex_of_bytes(&bytes) + "\n"))?;
    }
    eprint!("{}", coverage.text());
    out.flush().map_err(|e| e.to_string())
}

fn make_scripts(scripts: impl Iterator<Item = Vec<Item>>) -> Outcome {
    let mut coverage = Coverage::default();
    let mut out = BufWriter::new(io::stdout().lock());
    for items in scripts {
        coverage.sequence(PLAIN, &items);
        say(&mut out, &script::text(&items))?;
    }
    eprint!("{}", coverage.text());
    out.flush().map_err(|e| e.to_string())
}

fn cover((coverage, wanted): (Coverage, Vec<String>)) -> Verdict {
    print!("{}", coverage.table(&wanted));
    Ok(coverage.missing(&wanted).is_empty())
}

fn leaves(engine: &dyn Working, count: u64, seed: u64) -> Outcome {
    let mut rng = Random::new(seed ^ 0x6C65_6166);
    let mut out = BufWriter::new(io::stdout().lock());
    for leaf in make_leaves::edges() {
        say(&mut out, &(leaf.line(engine) + "\n"))?;
    }
    for _ in 0..count {
        say(
            &mut out,
            &(make_leaves::random(&mut rng).line(engine) + "\n"),
        )?;
    }
    out.flush().map_err(|e| e.to_string())
}

fn compare(count: u64, seed: u64) -> Verdict {
    let leaves = compare::leaves(count, seed);
    println!(
        "{} leaf vectors compared, {} differ",
        leaves.compared, leaves.differ
    );
    let (sheets, sequences, mut coverage) = compare::sheets_and_sequences(count, count / 2, seed);
    println!(
        "{} sheets compared, {} differ",
        sheets.compared, sheets.differ
    );
    let (n, m) = (sequences.compared, sequences.calls);
    println!(
        "{n} sequences ({m} calls) compared, {} differ",
        sequences.differ
    );
    let frozen = compare::frozen(count / 2, seed, &mut coverage);
    let (n, m) = (frozen.compared, frozen.calls);
    println!(
        "{n} sequences with frozen columns ({m} calls) compared, {} differ",
        frozen.differ
    );
    let questions = sequences.questions + frozen.questions;
    let against = sequences.against + frozen.against;
    println!("{questions} questions held against the same working's gradient, {against} differ");
    let unpacked = sequences.unpacked + frozen.unpacked;
    let other = sequences.other + frozen.other;
    let in_turn = sequences.in_turn + frozen.in_turn;
    println!(
        "{unpacked} unpackings, in {in_turn} sequences over three problems, held against what was packed, {other} differ"
    );
    print!("{}", coverage.text());
    let differ = leaves.differ + sheets.differ + sequences.differ + frozen.differ;
    let compared = leaves.compared + sheets.compared + sequences.compared + frozen.compared;
    println!("{compared} compared, {differ} differ");
    Ok(differ == 0)
}

fn checksum(engine: &dyn Working, task: &speed::Task) -> Outcome {
    if !(1..=128).contains(&task.m) || !(1..=16).contains(&task.n) || task.mode > 8 {
        return Err("m is 1 to 128, n 1 to 16, the mode 0 to 8".into());
    }
    let mut text = String::new();
    text::push_double(&mut text, speed::sum(engine, task));
    println!("{text}");
    Ok(())
}

fn number(word: &str) -> Result<u64, String> {
    word.parse().map_err(|_| format!("not a number: {word}"))
}

fn scripted(kind: &str) -> Result<Kind, String> {
    match kind {
        "calls" => Ok(Kind::Calls),
        "factorings" => Ok(Kind::Factorings),
        "frozen" => Ok(Kind::Frozen),
        _ => Err(USAGE.to_string()),
    }
}

fn command(words: &[&str], engine: &dyn Working) -> Outcome {
    match *words {
        ["make", "sheets", count, seed] => make_sheets(number(count)?, number(seed)?),
        ["make", "sample"] => make_scripts(sample::cases().into_iter()),
        ["make", kind, count, seed] => make_scripts(cases::scripts(
            scripted(kind)?,
            number(count)?,
            number(seed)?,
        )),
        ["leaves", count, seed] => leaves(engine, number(count)?, number(seed)?),
        ["speed", m, n, calls, mode] => checksum(
            engine,
            &speed::Task {
                m: number(m)? as usize,
                n: number(n)? as usize,
                calls: number(calls)?,
                mode: number(mode)?,
            },
        ),
        ["sheets"] => sheets(engine),
        ["calls"] => calls(engine),
        ["trace"] => traces(engine),
        ["--help" | "-h"] => {
            println!("{USAGE}");
            Ok(())
        }
        _ => Err(USAGE.to_string()),
    }
}

fn judged(words: &[&str], engine: &dyn Working) -> Verdict {
    match *words {
        ["cover", "sheets", count, seed] => cover(cases::covered_by_sheets(
            engine,
            number(count)?,
            number(seed)?,
        )),
        ["cover", kind, count, seed] => cover(cases::covered_by_scripts(
            engine,
            scripted(kind)?,
            number(count)?,
            number(seed)?,
        )),
        ["compare", count, seed] => compare(number(count)?, number(seed)?),
        ["minpack", ref rest @ ..] => minpack::command(rest),
        _ => command(words, engine).map(|()| true),
    }
}

fn main() -> ExitCode {
    let words: Vec<String> = std::env::args().skip(1).collect();
    let engine: &dyn Working = if words.iter().any(|w| w == "--plain") {
        PLAIN
    } else {
        SHOWN
    };
    let rest: Vec<&str> = words
        .iter()
        .map(String::as_str)
        .filter(|w| *w != "--plain")
        .collect();
    match judged(&rest, engine) {
        Ok(true) => ExitCode::SUCCESS,
        Ok(false) => ExitCode::FAILURE,
        Err(text) => {
            eprintln!("{text}");
            ExitCode::from(TROUBLE)
        }
    }
}
