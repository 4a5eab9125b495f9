//! Regions that make one mesh of another.

use crate::columns::LEVEL;
use crate::{Mesh, Rect, Region};
use std::collections::{BTreeMap, HashMap, HashSet};

/// A cell by what its place says: layer, component, where it lies and its level.
type Place = (u16, u32, Rect, u64);

impl Mesh {
    /// Regions that, refined one after another and balanced, give this mesh the leaves of a finer one of the same
    /// board, place by place; ids may be others. They are few where cells of one level lie together. None where no
    /// regions do: where this mesh has splits that the other one lacks, or where coppers of one layer lie over each
    /// other and aren't alike.
    ///
    /// ```
    /// use leafmesh::{text, Mesh};
    ///
    /// let board = text::parse("target 8\nlevel 2\npolygon 1 0 1\n0 0\n16 0\n16 8\n0 8\n")?;
    /// let coarse = Mesh::of_board(&board)?;
    /// let mut fine = coarse.clone();
    /// fine.refine_many([0, 1, 2, 3])?;
    /// let regions = coarse.regions_to(&fine).expect("regions");
    /// let rects: Vec<_> = regions.iter().map(|region| (region.rect, region.level)).collect();
    /// // The cell beside them is split by balance.
    /// assert_eq!(rects, [([0, 0, 8, 4], 2)]);
    /// # Ok::<(), Box<dyn std::error::Error>>(())
    /// ```
    pub fn regions_to(&self, finer: &Mesh) -> Option<Vec<Region>> {
        let wanted = finer.split_places();
        let mut by_level: BTreeMap<u64, Vec<Place>> = BTreeMap::new();
        for place in wanted.iter().copied() {
            by_level.entry(place.3).or_default().push(place);
        }
        let mut made = self.clone();
        let mut regions = Vec::new();
        // The finest first: they split the coarser ones round them, and balance what lies beside these.
        for (level, mut places) in by_level.into_iter().rev() {
            let so_far = made.split_places();
            places.sort_unstable_by_key(|&(layer, _, [x0, y0, ..], _)| (layer, y0, x0));
            let own = cover(&places, |place| !so_far.contains(place));
            let own = own.into_iter().map(|(layer, rect)| Region {
                rect,
                level: level + 1,
                layer: Some(layer),
            });
            for region in own {
                made.refine_region(region).ok()?;
                regions.push(region);
            }
            made.balance().ok()?;
        }
        (made.split_places() == wanted).then_some(regions)
    }

    /// The cells that are split.
    fn split_places(&self) -> HashSet<Place> {
        let polygons = self.polygons();
        let place = |id: usize| {
            let polygon = self.polygon(id);
            let (layer, component) = (polygons.layers[polygon], polygons.components[polygon]);
            (layer, component, self.rect(id), self.slot(id)[LEVEL] as u64)
        };
        let all = (0..self.head().count).filter(|&id| !self.is_leaf(id));
        all.map(place).collect()
    }
}

/// Rectangles of whole cells that cover those that are missing: each as long as cells of its size lie side by side, and
/// as high as rows of them lie over each other, or the other way round.
fn cover(cells: &[Place], is_missing: impl Fn(&Place) -> bool) -> Vec<(u16, Rect)> {
    let by_corner: HashMap<(u16, [i64; 2]), Rect> = cells
        .iter()
        .map(|&(layer, _, rect, _)| ((layer, [rect[0], rect[1]]), rect))
        .collect();
    let missing: HashSet<(u16, [i64; 2])> = cells
        .iter()
        .filter(|place| is_missing(place))
        .map(|&(layer, _, [x0, y0, ..], _)| (layer, [x0, y0]))
        .collect();
    let mut open = missing.clone();
    let mut found = Vec::new();
    for &(layer, _, rect, _) in cells {
        if !open.contains(&(layer, [rect[0], rect[1]])) {
            continue;
        }
        let block = |axes: [usize; 2]| Block::grown(&by_corner, layer, rect, axes);
        let count = |block: &Block| {
            let own = block
                .corners
                .iter()
                .filter(|&&at| open.contains(&(layer, at)));
            own.count()
        };
        let (along, up) = (block([0, 1]), block([1, 0]));
        let best = if count(&up) > count(&along) {
            up
        } else {
            along
        };
        for at in best.corners {
            open.remove(&(layer, at));
        }
        found.push((layer, best.rect));
    }
    found
}

/// Cells that fill a rectangle.
struct Block {
    rect: Rect,
    /// Their lower left corners.
    corners: Vec<[i64; 2]>,
}

impl Block {
    /// From one cell along the first axis as far as cells of its height lie, and then along the second as far as rows
    /// of the same cells do.
    fn grown(
        cells: &HashMap<(u16, [i64; 2]), Rect>,
        layer: u16,
        first: Rect,
        [along, up]: [usize; 2],
    ) -> Self {
        let behind = |rect: Rect, axis: usize| {
            let mut corner = [rect[0], rect[1]];
            corner[axis] = rect[2 + axis];
            let next = cells.get(&(layer, corner)).copied();
            // Of the same size the other way.
            let other = 1 - axis;
            next.filter(|next| next[2 + other] == rect[2 + other])
        };
        let mut row = vec![first];
        while let Some(next) = behind(row[row.len() - 1], along) {
            row.push(next);
        }
        let mut corners: Vec<[i64; 2]> = Vec::new();
        let mut last = row.clone();
        loop {
            corners.extend(last.iter().map(|rect| [rect[0], rect[1]]));
            let next: Option<Vec<Rect>> = last.iter().map(|&rect| behind(rect, up)).collect();
            // All of one height.
            match next {
                Some(next) if next.iter().all(|rect| rect[2 + up] == next[0][2 + up]) => {
                    last = next
                }
                _ => break,
            }
        }
        let end = last[last.len() - 1];
        Block {
            rect: [first[0], first[1], end[2], end[3]],
            corners,
        }
    }
}
