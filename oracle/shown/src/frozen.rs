//! Frozen columns (02, #108): what the shown Rust is given instead of them, which is nothing. It knows no marks; here
//! the numbers of the free columns are listed, and by that list arguments are gathered and answers scattered.

use crate::room::Room;

impl Room {
    /// The free columns, by their own numbers.
    fn columns(&self) -> impl Iterator<Item = usize> + '_ {
        (0..self.n).filter(|column| !api::frozen(self.marks, *column))
    }

    /// How many columns the reduced problem has.
    pub fn free(&self) -> usize {
        self.columns().count()
    }

    /// Refusal 9, "no column free, tested after 7 and before 8" (02, #108).
    pub fn some_free(self) -> Result<Room, u8> {
        if self.free() == 0 { Err(9) } else { Ok(self) }
    }

    /// The Jacobian without its frozen columns.
    pub fn reduced(&self, jacobian: &[f64]) -> Vec<f64> {
        let column = |column: usize| &jacobian[column * self.m..(column + 1) * self.m];
        self.columns().flat_map(column).copied().collect()
    }

    /// What stands at the free columns.
    pub fn gather(&self, numbers: &[f64]) -> Vec<f64> {
        self.columns().map(|column| numbers[column]).collect()
    }

    /// Writes the free columns' entries and no others.
    pub fn scatter(&self, entries: &[f64], lent: &mut [f64]) {
        assert_eq!(entries.len(), self.free());
        for (column, entry) in self.columns().zip(entries) {
            lent[column] = *entry;
        }
    }

    /// A step: "a frozen column's step is +0" (02, #108).
    pub fn spread(&self, entries: &[f64]) -> Vec<f64> {
        let mut step = vec![0.0; self.n];
        self.scatter(entries, &mut step);
        step
    }

    /// The answer of a held call: "+0 in the places past the free count" (02, #108).
    pub fn padded(&self, entries: &[f64]) -> Vec<f64> {
        assert_eq!(entries.len(), self.free());
        let past = core::iter::repeat_n(0.0, self.n - entries.len());
        entries.iter().copied().chain(past).collect()
    }

    /// The order list: that of the reduced problem, "the remaining places continue the count" (02, #108).
    pub fn continued(&self, order: &[usize]) -> Vec<usize> {
        let remaining = order.len()..self.n;
        order.iter().copied().chain(remaining).collect()
    }
}
