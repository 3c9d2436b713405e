//! The job sheet of a decay fit's first step, as text: examples/decay.hex is what this prints.
//!
//! Chlorine c(t) = c0·exp(−k·t), in mg/l at t hours. The parameters are c0 and k. A residual is the model less the sample, so that the new
//! parameters are the old ones less the step. The Jacobian's columns are the model's derivatives: by c0 exp(−k·t), by k
//! −c0·t·exp(−k·t).

const HOURS: [f64; 6] = [0.0, 1.0, 2.0, 4.0, 8.0, 12.0];
const SAMPLES: [f64; 6] = [0.82, 0.71, 0.63, 0.49, 0.30, 0.18];
const C0: f64 = 1.0;
const K: f64 = 0.2;
const STEP_BOUND: f64 = 100.0;

fn line(what: &str, numbers: &[f64]) {
    println!("# {what}");
    for x in numbers {
        println!("{:016X} # {x}", x.to_bits());
    }
}

fn main() {
    let (m, n) = (HOURS.len() as u32, 2);
    let head = 1 << 20 | 2 << 16 | m << 6 | n;
    let left = HOURS.map(|t| (-K * t).exp());
    let by_k = HOURS.map(|t| -C0 * t * (-K * t).exp());
    let mut residuals = left.map(|e| C0 * e);
    for (r, sample) in residuals.iter_mut().zip(SAMPLES) {
        *r -= sample;
    }
    println!(
        "# The first step of a decay fit c(t) = c0 exp(-k t), worked out by oracle/oracle/examples/decay.rs"
    );
    println!("# version 1, call 2, m {m}, n {n}");
    println!("{head:06X}");
    line("Jacobian, first column: by c0", &left);
    line("Jacobian, second column: by k", &by_k);
    line("residuals: model less sample", &residuals);
    line("parameters: c0, k", &[C0, K]);
    line("step bound", &[STEP_BOUND]);
}
