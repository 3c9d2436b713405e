//! 02, #108: the problem without its frozen columns, copied out of the lent rooms and back into them. A store is n + 4
//! rows of n numbers, the square's columns and the four vectors; the reduced one has of each part the first places.

use crate::room::needed;

/// The columns of a problem, some of them frozen.
pub struct Columns {
    pub n: usize,
    /// How many are free.
    pub free: usize,
    marks: u16,
}

impl Columns {
    /// Refusal 2 "also for a mark past n".
    pub fn of(n: usize, marks: u16) -> Result<Columns, u8> {
        let past = (u32::from(marks) << n) as u16;
        if past != 0 {
            return Err(2);
        }
        let free = n - marks.count_ones() as usize;
        Ok(Columns { n, free, marks })
    }

    /// "A new number 9, no column free, tested after 7 and before 8."
    pub fn some_free(self) -> Result<Columns, u8> {
        if self.free > 0 { Ok(self) } else { Err(9) }
    }

    /// What is left of n parts of `size` numbers each when those of the frozen columns are taken out.
    pub fn taken_out(&self, v: &[f64], size: usize) -> Vec<f64> {
        let mut left = Vec::new();
        let mut marks = self.marks;
        for part in v[..self.n * size].chunks(size) {
            if marks & 0x8000 == 0 {
                left.extend_from_slice(part);
            }
            marks <<= 1;
        }
        left
    }

    /// One number for each column: the free ones' in turn, and what `frozen` gives for each of the others.
    pub fn put_in(&self, free: &[f64], frozen: impl Fn(usize) -> f64) -> Vec<f64> {
        let mut all = Vec::new();
        let mut next = free.iter();
        let mut marks = self.marks;
        for k in 0..self.n {
            let own = if marks & 0x8000 == 0 {
                next.next()
            } else {
                None
            };
            all.push(own.copied().unwrap_or_else(|| frozen(k)));
            marks <<= 1;
        }
        all
    }

    /// "+0 in the places past the free count."
    pub fn filled_up(&self, free: &[f64]) -> Vec<f64> {
        let mut all = free.to_vec();
        all.resize(self.n, 0.0);
        all
    }

    /// "The remaining places continue the count."
    pub fn continue_count(&self, order: &mut [usize]) {
        for k in self.free..self.n {
            order[k] = k;
        }
    }

    /// Whether an order list "holds a permutation of the free columns' numbers, counted from 0 among the free ones, in
    /// its first places; the remaining places continue the count".
    pub fn ordered_by(&self, order: &[usize]) -> bool {
        let (first, rest) = order[..self.n].split_at(self.free);
        (0..self.free).all(|k| first.contains(&k))
            && rest.iter().zip(self.free..).all(|(p, k)| *p == k)
    }

    /// The reduced problem's own store, its columns next to one another.
    pub fn narrow(&self, store: &[f64]) -> Vec<f64> {
        let mut small = Vec::with_capacity(needed(self.free));
        for (k, row) in store[..needed(self.n)].chunks(self.n).enumerate() {
            if k < self.free || k >= self.n {
                small.extend_from_slice(&row[..self.free]);
            }
        }
        small
    }

    /// Lays a factored problem out: "its columns still n apart, +0 past the free count".
    pub fn lay(&self, small: &[f64], store: &mut [f64]) {
        let mut parts = small.chunks(self.free);
        for (k, row) in store[..needed(self.n)].chunks_mut(self.n).enumerate() {
            row.fill(0.0);
            if k < self.free || k >= self.n {
                row[..self.free].copy_from_slice(parts.next().expect("n + 4 parts"));
            }
        }
    }

    /// What a solve or a search leaves: the lower part, l_diag and work are set as a whole. "Past the free count" R, qt_b
    /// and norms stay as they are in the lent store.
    pub fn widen(&self, small: &[f64], store: &mut [f64]) {
        let (n, free) = (self.n, self.free);
        for j in 0..n {
            for i in 0..n {
                if i < free && j < free {
                    store[j * n + i] = small[j * free + i];
                } else if i > j {
                    store[j * n + i] = 0.0;
                }
            }
        }
        let l_diag = &small[free * free + 2 * free..][..free];
        store[n * n + 2 * n..][..n].copy_from_slice(&self.filled_up(l_diag));
        self.clear_work(store);
    }

    /// "Work [is] all +0 after every call that passes all checks before 8": n places of it.
    pub fn clear_work(&self, store: &mut [f64]) {
        store[self.n * self.n + 3 * self.n..needed(self.n)].fill(0.0);
    }
}
