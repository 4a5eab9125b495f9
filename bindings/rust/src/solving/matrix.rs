//! A sparse symmetric matrix, and what a solver asks of it.

/// A matrix by rows, each with its columns rising.
#[derive(Clone, Debug)]
pub(super) struct Matrix {
    /// Where each row starts in `entries`, and where the last one ends.
    starts: Vec<usize>,
    entries: Vec<(usize, f64)>,
}

/// Row, column, value.
pub(super) type Entry = (usize, usize, f64);

impl Matrix {
    /// The sum of all entries, in so many rows.
    pub fn of_entries(rows: usize, mut all: Vec<Entry>) -> Self {
        all.sort_by_key(|&(row, column, _)| (row, column));
        let mut starts = vec![0; rows + 1];
        let mut entries: Vec<(usize, f64)> = Vec::new();
        let mut last = None;
        for (row, column, value) in all {
            match entries.last_mut() {
                Some(entry) if last == Some((row, column)) => entry.1 += value,
                _ => entries.push((column, value)),
            }
            last = Some((row, column));
            starts[row + 1] = entries.len();
        }
        for row in 0..rows {
            starts[row + 1] = starts[row + 1].max(starts[row]);
        }
        Matrix { starts, entries }
    }

    /// Columns and values of a row.
    pub fn row(&self, row: usize) -> &[(usize, f64)] {
        &self.entries[self.starts[row]..self.starts[row + 1]]
    }

    fn diagonal(&self) -> Vec<f64> {
        let rows = self.starts.len() - 1;
        let own = |row: usize| self.row(row).iter().find(|&&(column, _)| column == row);
        (0..rows)
            .map(|row| own(row).map_or(0.0, |&(_, value)| value))
            .collect()
    }

    /// The largest entry of the diagonal.
    pub fn largest(&self) -> f64 {
        self.diagonal().into_iter().fold(0.0, f64::max)
    }

    /// The matrix times a column.
    pub fn times(&self, column: &[f64]) -> Vec<f64> {
        let value = |&(at, value): &(usize, f64)| value * column[at];
        (0..column.len())
            .map(|row| self.row(row).iter().map(value).sum())
            .collect()
    }
}

fn dot(a: &[f64], b: &[f64]) -> f64 {
    a.iter().zip(b).map(|(a, b)| a * b).sum()
}

fn add(to: &mut [f64], share: f64, what: &[f64]) {
    to.iter_mut().zip(what).for_each(|(a, b)| *a += share * b);
}

/// The iteration ends where the residual has fallen to this share of its start.
const SHARE: f64 = 1e-12;

/// The column that a positive matrix takes to `right`, by conjugate gradients whose steps the diagonal weighs; a row of
/// none stays 0. Where it comes to no end, the share that the residual fell to.
pub(super) fn conjugate_gradients(matrix: &Matrix, right: Vec<f64>) -> Result<Vec<f64>, f64> {
    // At its own size, so that no square is too large or too small for a number.
    let size = right.iter().fold(0.0, |most: f64, one| most.max(one.abs()));
    if size == 0.0 {
        return Ok(right);
    }
    let unit = right.iter().map(|one| one / size).collect();
    let found = of_unit_size(matrix, unit)?;
    Ok(found.iter().map(|one| one * size).collect())
}

fn of_unit_size(matrix: &Matrix, right: Vec<f64>) -> Result<Vec<f64>, f64> {
    let diagonal = matrix.diagonal();
    let weight = |(&rest, &own): (&f64, &f64)| if own > 0.0 { rest / own } else { 0.0 };
    let scaled = |rest: &[f64]| -> Vec<f64> { rest.iter().zip(&diagonal).map(weight).collect() };
    let mut found = vec![0.0; right.len()];
    let mut rest = right;
    let mut way = scaled(&rest);
    let mut size = dot(&rest, &way);
    let start = size;
    for _ in 0..20 * found.len() + 100 {
        if size <= SHARE * SHARE * start {
            return Ok(found);
        }
        let pull = matrix.times(&way);
        let step = size / dot(&way, &pull);
        if !step.is_finite() {
            break;
        }
        add(&mut found, step, &way);
        add(&mut rest, -step, &pull);
        let next = scaled(&rest);
        let grown = dot(&rest, &next);
        let turn = grown / size;
        way = next.iter().zip(&way).map(|(a, b)| a + turn * b).collect();
        size = grown;
    }
    Err((size / start).sqrt())
}
