//! A search's run as text, for a reader who looks for the trial in which two answers part.

use crate::engines::Working;
use crate::sheets;
use crate::text::push_double;
use api::{End, Run, Trial};

fn field(out: &mut String, label: &str, x: f64) {
    out.push_str(label);
    out.push(' ');
    push_double(out, x);
}

fn trial(out: &mut String, t: usize, trial: &Trial) {
    out.push_str(&format!("trial {t}"));
    field(out, " lambda", trial.lambda);
    field(out, " norm", trial.norm);
    if let Some(fp) = trial.fp {
        field(out, " fp", fp);
    }
    field(out, " lower", trial.lower);
    field(out, " upper", trial.upper);
    for (flag, text) in [
        (trial.infinite_damping, " infinite-damping"),
        (trial.infinite_solve, " infinite-solve"),
    ] {
        if flag {
            out.push_str(text);
        }
    }
    out.push('\n');
}

fn text(run: &Run) -> String {
    let mut out = String::new();
    field(&mut out, "undamped norm", run.undamped_norm);
    if run.infinite_first_solve {
        out.push_str(" infinite-solve");
    }
    out.push('\n');
    for (k, one) in run.trials.iter().enumerate() {
        trial(&mut out, k + 1, one);
    }
    match run.end {
        End::Stopped(rule) => out.push_str(&format!("stopped {rule:?}\n")),
        End::Refused(place) => out.push_str(&format!("refused 8 {place:?}\n")),
    }
    out
}

/// What the sheet prints where it is refused before its search.
pub fn of_sheet(engine: &dyn Working, bytes: &[u8]) -> String {
    match sheets::trace(engine, bytes) {
        Some(run) => text(&run),
        None => engine.sheet(bytes),
    }
}
