//! What a search's run shows: the stop rules, the trial counts, the places of refusal 8, and the answered searches
//! that went on past an infinite inner number.

use crate::engines::Working;
use api::{End, Place, Ranges, Run, State, Stop};

pub const CLASSES: [&str; 28] = [
    "search stopped: undamped",
    "search stopped: ten",
    "search stopped: within",
    "search stopped: falling",
    "search refused 8: undamped norm",
    "search refused 8: lower bound",
    "search refused 8: gnorm",
    "search refused 8: trial lambda",
    "search refused 8: trial norm",
    "search refused 8: correction",
    "search answered, trials 0",
    "search answered, trials 1",
    "search answered, trials 2",
    "search answered, trials 3",
    "search answered, trials 4",
    "search answered, trials 5",
    "search answered, trials 6",
    "search answered, trials 7",
    "search answered, trials 8",
    "search answered, trials 9",
    "search answered, trials 10",
    "search answered past an infinite first held solve",
    "search answered past an infinite held solve in a trial",
    "search answered past an infinite damping",
    "search answered under an infinite upper bound",
    "search answered in trial ten, where a correction would be refused 8",
    "search stopped: undamped at exactly a tenth over the radius",
    "search stopped: within at exactly a tenth of the radius",
];

fn stop(stop: Stop) -> usize {
    match stop {
        Stop::Undamped => 0,
        Stop::Ten => 1,
        Stop::Within => 2,
        Stop::Falling => 3,
    }
}

fn place(place: Place) -> usize {
    match place {
        Place::UndampedNorm => 4,
        Place::LowerBound => 5,
        Place::Gnorm => 6,
        Place::Lambda => 7,
        Place::TrialNorm => 8,
        Place::Correction => 9,
    }
}

/// A search to make on a factored store.
pub struct Asked<'a> {
    pub state: State,
    pub store: &'a [f64],
    pub order: &'a [usize],
    pub diag: &'a [f64],
    pub radius: f64,
    pub lambda: f64,
}

impl Asked<'_> {
    pub fn run(&self, engine: &dyn Working) -> Option<Run> {
        engine.run(
            self.state,
            self.store,
            self.order,
            self.diag,
            self.radius,
            self.lambda,
        )
    }

    /// The correction that would follow a trial of this lambda in a search without marks, with what its norm sees, found by
    /// calls; none where these refuse on the way. A step of zero is divided by its norm, so that all is NaN from there on.
    pub fn correction(&self, engine: &dyn Working, lambda: f64) -> Option<(f64, Ranges)> {
        let n = self.state.n;
        let diag = &self.diag[..n];
        let mut store = self.store.to_vec();
        let (mut p, mut x) = (vec![0.0; n], vec![0.0; n]);
        let damping: Vec<f64> = diag.iter().map(|d| engine.sqrt(lambda) * d).collect();
        let (solved, state) =
            engine.solve_with_diagonal(self.state, &mut store, self.order, &damping, &mut p);
        solved.ok()?;
        let scaled: Vec<f64> = p.iter().zip(diag).map(|(p, d)| p * d).collect();
        let (norm, _) = engine.enorm(&scaled).ok()?;
        if norm == 0.0 {
            let (length, seen) = engine.enorm(&vec![f64::NAN; n]).ok()?;
            return Some((length, seen));
        }
        let rhs: Vec<f64> = scaled.iter().zip(diag).map(|(s, d)| s / norm * d).collect();
        let (held, _) = engine.solve(state, &mut store, self.order, &rhs, &mut x);
        held.ok()?;
        let (length, seen) = engine.enorm(&x).ok()?;
        let correction = (((norm - self.radius) / self.radius) / length) / length;
        Some((correction, seen))
    }

    /// The trap "working out a correction after trial ten": whether that one would not be finite. Where the calls refuse
    /// on the way the answer is no, which may miss a case and never makes one up.
    fn correction_refuses(&self, engine: &dyn Working, lambda: f64) -> bool {
        let correction = self.correction(engine, lambda);
        correction.is_some_and(|(correction, _)| !correction.is_finite())
    }

    /// The places in `CLASSES` that the search belongs to; none where it is refused 2 to 7.
    pub fn classes(&self, engine: &dyn Working) -> Vec<usize> {
        let Some(run) = self.run(engine) else {
            return Vec::new();
        };
        let mut found = of(&run);
        if run.end == End::Stopped(Stop::Ten)
            && self.correction_refuses(engine, run.trials[9].lambda)
        {
            found.push(25);
        }
        let tenth = self.radius * 0.1;
        if run.end == End::Stopped(Stop::Undamped) && run.undamped_norm - self.radius == tenth {
            found.push(26);
        }
        let last = run.trials.last().and_then(|t| t.fp);
        if run.end == End::Stopped(Stop::Within) && last.is_some_and(|fp| fp.abs() == tenth) {
            found.push(27);
        }
        found
    }
}

fn of(run: &Run) -> Vec<usize> {
    let rule = match run.end {
        End::Refused(at) => return vec![place(at)],
        End::Stopped(rule) => rule,
    };
    let mut found = vec![stop(rule), 10 + run.trials.len()];
    let marks = [
        run.infinite_first_solve && rule != Stop::Undamped,
        run.trials.iter().any(|t| t.infinite_solve),
        run.trials.iter().any(|t| t.infinite_damping),
        run.trials.iter().any(|t| t.upper.is_infinite()),
    ];
    found.extend((0..4).filter(|&k| marks[k]).map(|k| 21 + k));
    found
}
