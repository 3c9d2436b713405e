//! Runs against MINPACK-1 (`tools/compare-minpack`): problems, the questions that `tools/minpack/driver.c` puts to it, and
//! what its answers differ in. Nothing of MINPACK is here: `reading.rs` and `path.rs` are document 01's steps with each
//! place where MINPACK reads them otherwise as a switch, and every use of them is held against MINPACK's own numbers.

pub mod ask;
pub mod case;
pub mod judge;
mod judge_factoring;
mod judge_search;
mod judge_solve;
pub mod make;
pub mod path;
pub mod reading;
pub mod scene;
mod show;
pub mod tally;
pub mod tiny;

use std::fs;
use std::io::{self, BufWriter, Write};

const USAGE: &str = "usage:
  oracle minpack make COUNT SEED              problems, as scripts for `oracle calls`
  oracle minpack norms COUNT SEED             norms, as lines of `oracle leaves`
  oracle minpack tiny                         small problems in order of size
  oracle minpack ask SCRIPT NORMS OURS        questions for MINPACK
  oracle minpack judge SCRIPT NORMS OURS SEARCHES THEIRS [show]
OURS: what plays the script, printed as by `oracle calls`; SEARCHES: the same, where OURS has no search; THEIRS: MINPACK's answers";

fn text_of(path: &str) -> Result<String, String> {
    fs::read_to_string(path).map_err(|e| format!("{path}: {e}"))
}

fn number(word: &str) -> Result<u64, String> {
    word.parse().map_err(|_| format!("not a number: {word}"))
}

fn printed(write: impl FnOnce(&mut dyn Write) -> io::Result<()>) -> Result<bool, String> {
    let mut out = BufWriter::new(io::stdout().lock());
    write(&mut out)
        .and_then(|()| out.flush())
        .map(|()| true)
        .map_err(|e| e.to_string())
}

/// Whether nothing was left unexplained, where that is asked.
pub fn command(words: &[&str]) -> Result<bool, String> {
    match *words {
        ["make", count, seed] => {
            let (count, seed) = (number(count)?, number(seed)?);
            printed(|out| make::problems(count, seed, out))
        }
        ["norms", count, seed] => {
            let (count, seed) = (number(count)?, number(seed)?);
            printed(|out| make::norms(count, seed, out))
        }
        ["tiny"] => printed(tiny::problems),
        ["ask", script, norms, ours] => {
            let texts = [text_of(script)?, text_of(norms)?, text_of(ours)?];
            let events = case::events(&texts[0], &texts[1], &texts[2], &texts[2])?;
            printed(|out| ask::questions(&events, out))
        }
        [
            "judge",
            script,
            norms,
            ours,
            searches,
            theirs,
            ref rest @ ..,
        ] => {
            let (script, norms) = (text_of(script)?, text_of(norms)?);
            let (ours, searches) = (text_of(ours)?, text_of(searches)?);
            let events = case::events(&script, &norms, &ours, &searches)?;
            judge::all(&events, &text_of(theirs)?, rest.contains(&"show"))
        }
        _ => Err(USAGE.to_string()),
    }
}
