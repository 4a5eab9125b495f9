//! What several tests begin with: chance, rows of roots, and the sample boards.

use leafmesh::{columns, Head, Rect, Table, NO_CELL, SLOT};
use std::fs;
use std::path::{Path, PathBuf};

/// Numbers that look like chance, the same in every run.
pub struct Dice(pub u64);

impl Dice {
    pub fn below(&mut self, most: u64) -> u64 {
        self.0 = self
            .0
            .wrapping_mul(6_364_136_223_846_793_005)
            .wrapping_add(1_442_695_040_888_963_407);
        (self.0 >> 33) % most
    }

    /// From `least` to `most`.
    pub fn between(&mut self, least: i64, most: i64) -> i64 {
        least + self.below((most - least + 1) as u64) as i64
    }

    /// Up to a dozen roots for a table of three levels, beside and over each other, some at the same place.
    pub fn roots(&mut self) -> Vec<Rect> {
        let mut roots: Vec<Rect> = Vec::new();
        for _ in 0..self.between(1, 12) {
            let again = roots.get(self.below(16) as usize).copied();
            let [x0, y0] = [0, 0].map(|_| self.between(-20, 20));
            let [w, h] = [0, 0].map(|_| 16 * self.between(1, 2));
            roots.push(again.unwrap_or([x0, y0, x0 + w, y0 + h]));
        }
        roots
    }

    /// Splits so many cells of a table, and passes over what is split already or at the deepest level.
    pub fn split(&mut self, table: &mut Table, cells: u64) {
        for _ in 0..cells {
            let id = self.below(table.head().count as u64) as usize;
            let _ = table.refine(id);
        }
    }
}

/// Where a cell of a row lies.
pub fn rect_of(row: &[i64], id: usize) -> Rect {
    let slot = &row[SLOT * id..];
    [columns::X0, columns::Y0, columns::X1, columns::Y1].map(|column| slot[column])
}

/// A row with these roots.
pub fn rooted(roots: &[Rect], max_level: u64, slots: usize) -> (Vec<i64>, Head) {
    let mut row = vec![0; SLOT * slots];
    for (slot, root) in row.chunks_exact_mut(SLOT).zip(roots) {
        slot[..4].copy_from_slice(root);
        slot[columns::PARENT] = NO_CELL;
        slot[columns::FIRST_CHILD] = NO_CELL;
    }
    let (count, leaves) = (roots.len(), roots.len());
    (
        row,
        Head {
            count,
            leaves,
            max_level,
        },
    )
}

/// The text of a sample board.
pub fn sample(name: &str) -> String {
    fs::read_to_string(samples().join(name)).expect("a sample")
}

/// The folder of the sample boards.
pub fn samples() -> PathBuf {
    Path::new(env!("CARGO_MANIFEST_DIR")).join("../../boards")
}
