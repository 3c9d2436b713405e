//! The numbers of a search that document 01's refusal 8 looks at, worked out again from the norms that LMPAR itself asked
//! ENORM for. Each lambda is held against the diagonal that LMPAR then gave to QRSOLV.

use super::case::same;
use crate::engines::PLAIN;
use api::Place;

/// One run of LMPAR, as the driver saw it.
#[derive(Clone, Debug)]
pub struct Ran {
    pub par: f64,
    pub x: Vec<f64>,
    pub calls: usize,
    pub norms: Vec<f64>,
    /// The diagonals given to QRSOLV, one after another.
    pub damping: Vec<f64>,
}

pub struct Asked<'a> {
    pub diag: &'a [f64],
    pub radius: f64,
    pub lambda: f64,
    /// R's diagonal has no zero.
    pub regular: bool,
    pub dwarf: f64,
}

/// Why the run is not followed further.
enum End {
    NotFinite(Place),
    /// It stopped, with every number finite.
    Stopped,
    /// It is not LMPAR's.
    Astray,
}

/// What the next trial starts from.
struct Stand {
    lambda: f64,
    lower: f64,
    upper: f64,
    fp: f64,
}

fn finite(x: f64, place: Place) -> Result<f64, End> {
    if x.is_finite() {
        Ok(x)
    } else {
        Err(End::NotFinite(place))
    }
}

struct Walk<'a> {
    asked: &'a Asked<'a>,
    ran: &'a Ran,
    used: usize,
}

impl Walk<'_> {
    fn norm(&mut self) -> Result<f64, End> {
        self.used += 1;
        let norm = self.ran.norms.get(self.used - 1);
        norm.copied().ok_or(End::Astray)
    }

    fn newton(&mut self, fp: f64) -> Result<f64, End> {
        let norm = self.norm()?;
        Ok(((fp / self.asked.radius) / norm) / norm)
    }

    fn given_to_qrsolv(&self, t: usize, lambda: f64) -> bool {
        let n = self.asked.diag.len();
        let root = PLAIN.sqrt(lambda);
        let damping: Vec<f64> = self.asked.diag.iter().map(|d| root * d).collect();
        let given = self.ran.damping.get((t - 1) * n..t * n);
        given.is_some_and(|d| same(d, &damping))
    }

    fn opening(&mut self) -> Result<Stand, End> {
        let radius = self.asked.radius;
        let norm = finite(self.norm()?, Place::UndampedNorm)?;
        let fp = norm - radius;
        if fp <= 0.1 * radius {
            return Err(End::Stopped);
        }
        let mut lower = 0.0;
        if self.asked.regular {
            lower = finite(self.newton(fp)?, Place::LowerBound)?;
        }
        let gnorm = finite(self.norm()?, Place::Gnorm)?;
        let mut upper = gnorm / radius;
        if upper == 0.0 {
            upper = self.asked.dwarf / PLAIN.min(radius, 0.1);
        }
        let mut lambda = PLAIN.min(PLAIN.max(self.asked.lambda, lower), upper);
        if lambda == 0.0 {
            lambda = gnorm / norm;
        }
        Ok(Stand {
            lambda,
            lower,
            upper,
            fp,
        })
    }

    fn trial(&mut self, t: usize, s: &mut Stand) -> Result<(), End> {
        let radius = self.asked.radius;
        if s.lambda == 0.0 {
            s.lambda = PLAIN.max(self.asked.dwarf, 0.001 * s.upper);
        }
        finite(s.lambda, Place::Lambda)?;
        if !self.given_to_qrsolv(t, s.lambda) {
            return Err(End::Astray);
        }
        let norm = finite(self.norm()?, Place::TrialNorm)?;
        let old = s.fp;
        s.fp = norm - radius;
        let falling = s.lower == 0.0 && s.fp <= old && old < 0.0;
        if t == 10 || s.fp.abs() <= 0.1 * radius || falling {
            return Err(End::Stopped);
        }
        let correction = finite(self.newton(s.fp)?, Place::Correction)?;
        if s.fp > 0.0 {
            s.lower = PLAIN.max(s.lower, s.lambda);
        } else {
            s.upper = PLAIN.min(s.upper, s.lambda);
        }
        s.lambda = PLAIN.max(s.lower, s.lambda + correction);
        Ok(())
    }

    fn end(&mut self) -> Result<(), End> {
        let mut stand = self.opening()?;
        (1..=10).try_for_each(|t| self.trial(t, &mut stand))
    }
}

/// The first number of document 01's list that is not finite in LMPAR's run; none where all are finite, and none where
/// the run cannot be followed.
pub fn not_finite(asked: &Asked, ran: &Ran) -> Option<Place> {
    let mut walk = Walk {
        asked,
        ran,
        used: 0,
    };
    match walk.end() {
        Err(End::NotFinite(place)) => Some(place),
        Err(End::Stopped | End::Astray) | Ok(()) => None,
    }
}
