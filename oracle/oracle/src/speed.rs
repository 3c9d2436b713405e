//! What the program `speed` prints: the same problems, the same calls, the same sum. As there, a refused solve leaves the step as it was.

use crate::away::needed;
use crate::engines::Working;
use api::State;

/// Park and Miller's congruence: numbers from -1 to 1.
struct Numbers(u64);

impl Numbers {
    fn fill(&mut self, room: &mut [f64]) {
        for x in room {
            self.0 = self.0 * 16807 % 2_147_483_647;
            *x = self.0 as f64 / 2_147_483_647.0 * 2.0 - 1.0;
        }
    }
}

pub struct Task {
    pub m: usize,
    pub n: usize,
    pub calls: u64,
    pub mode: u64,
}

struct Rooms {
    store: Vec<f64>,
    order: Vec<usize>,
    diag: Vec<f64>,
    step: Vec<f64>,
    room: Vec<f64>,
    places: Vec<usize>,
}

impl Rooms {
    /// A tenth of the undamped scaled norm.
    fn radius(&mut self, engine: &dyn Working, state: State) -> f64 {
        let (_, _) =
            engine.solve_with_zero_diagonal(state, &mut self.store, &self.order, &mut self.step);
        for (x, d) in self.step.iter_mut().zip(&self.diag) {
            *x *= d;
        }
        engine.enorm(&self.step).map_or(0.0, |(x, _)| x * 0.1)
    }

    /// The gradient, or 1 where the question says yes; 0 where they are refused (02, #105).
    fn asked(&mut self, engine: &dyn Working, state: State, mode: u64) -> f64 {
        let Rooms { store, order, .. } = self;
        if mode == 5 {
            let (measure, _) = engine.max_a_t_b_scaled(state, store, order, 1.0);
            return measure.unwrap_or(0.0);
        }
        let (yes, _) = engine.above_limit(state, store, order, 1.0, 0.0);
        f64::from(u8::from(yes == Ok(true)))
    }

    /// Packed into a room of its own, and in mode 8 unpacked: R's second column's first entry, or qt_b where there is one
    /// column (02, #107).
    fn put_away(&mut self, engine: &dyn Working, state: State, mode: u64) -> f64 {
        let n = state.n;
        let Rooms {
            store,
            order,
            room,
            places,
            ..
        } = self;
        let (_, state) = engine.pack(state, store, order, room, places);
        if mode == 7 {
            return room[1];
        }
        let (_, _) = engine.unpack(state, room, places, store, order);
        store[n]
    }

    fn further(&mut self, engine: &dyn Working, state: State, mode: u64) -> f64 {
        let n = state.n;
        if mode == 1 {
            return 0.0;
        }
        if mode > 6 {
            return self.put_away(engine, state, mode);
        }
        if mode > 4 {
            return self.asked(engine, state, mode);
        }
        for (d, x) in self.diag.iter_mut().zip(&self.store[n * n + n..]) {
            *d = if *x == 0.0 { 1.0 } else { *x };
        }
        if mode == 4 {
            let (_, _) = engine.solve_with_diagonal(
                state,
                &mut self.store,
                &self.order,
                &self.diag,
                &mut self.step,
            );
            return self.step[0];
        }
        let radius = self.radius(engine, state);
        if mode == 3 {
            return radius;
        }
        let (found, _) = engine.search(
            state,
            &mut self.store,
            &self.order,
            &self.diag,
            radius,
            0.0,
            &mut self.step,
        );
        found.map_or(0.0, |(f, _)| f.lambda + self.step[0])
    }
}

/// The sum over all problems; the sizes are in range.
pub fn sum(engine: &dyn Working, task: &Task) -> f64 {
    let &Task { m, n, calls, mode } = task;
    let mut numbers = Numbers(20_261_115);
    let (mut jacobian, mut residuals) = (vec![0.0; m * n], vec![0.0; m]);
    let mut bench = vec![0.0; m * n + m];
    let mut rooms = Rooms {
        store: vec![0.0; n * n + 4 * n],
        order: vec![0; n],
        diag: vec![0.0; n],
        step: vec![0.0; n],
        room: vec![0.0; needed(n)],
        places: vec![0; n],
    };
    let mut sum = 0.0;
    for _ in 0..calls {
        numbers.fill(&mut jacobian);
        numbers.fill(&mut residuals);
        if mode == 0 {
            sum += jacobian[0];
            continue;
        }
        let Rooms { store, order, .. } = &mut rooms;
        let (_, state) = engine.factor(m, n, 0, &jacobian, &residuals, store, order, &mut bench);
        let corner = store[n * n - 1] + store[n * n];
        sum += corner + rooms.further(engine, state, mode);
    }
    sum
}
