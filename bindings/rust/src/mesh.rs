//! A board's mesh and net with rooms of their own: the calls of [`Table`], one after another.

use crate::astray::Coppers;
use crate::columns::{LEVEL, PARENT, POLYGON};
use crate::lent::Lent;
use crate::merging::first_overlap;
use crate::sides::has_side;
use crate::unmeshed::{refused, Idle, Loose, TooLong, Unmeshed};
use crate::{
    contact, power, Board, Border, CellName, Hanging, Head, Leaf, LeafBorder, Link, Links, Net,
    NetRows, Point, Polygons, Reason, Rect, Refusal, Region, Settings, Table, MAX_LEVEL, NO_CELL,
    SLOT, SLOTS,
};
use std::collections::BTreeSet;

/// A table in the largest room, and the board that it was made of. Only the library writes the table, so it is always
/// well formed.
#[derive(Clone, Debug, PartialEq)]
pub struct Mesh {
    table: Vec<i64>,
    head: Head,
    settings: Settings,
    list: Vec<[u64; 2]>,
    polygons: Polygons,
}

/// Of calls that refuse a table only where it isn't well formed.
const WELL_FORMED: &str = "the library made the table";

impl Mesh {
    /// The base cells of a board. `list` gives some layers a cell size of their own, as in [`Table::build`].
    ///
    /// # Errors
    ///
    /// Those of [`Table::build`]. Where a base cell is uneven since its strip is too long, [`Unmeshed::TooLong`].
    pub fn new(
        settings: Settings,
        list: &[[u64; 2]],
        polygons: Polygons,
    ) -> Result<Self, Unmeshed> {
        let mut table = vec![0; SLOT * SLOTS];
        let outlines = polygons.outlines();
        let head = Table::build(settings, list, outlines, &mut table)
            .map_err(|refusal| refused(refusal, settings, list, outlines))?
            .head();
        Ok(Mesh {
            table,
            head,
            settings,
            list: list.to_vec(),
            polygons,
        })
    }

    /// The mesh of a board: its base cells, split as it says, balanced. It has a net.
    ///
    /// # Errors
    ///
    /// Those of [`Mesh::new`], [`Table::refine`], [`Table::balance`], [`Board::polygons`] and [`Mesh::net`].
    pub fn of_board(board: &Board) -> Result<Self, Unmeshed> {
        let mesh = Mesh::unjudged(board)?;
        mesh.net()?;
        Ok(mesh)
    }

    /// The same, also where [`Mesh::net`] would refuse.
    ///
    /// # Errors
    ///
    /// Those of [`Mesh::new`], [`Table::refine`], [`Table::balance`] and [`Board::polygons`].
    pub fn unjudged(board: &Board) -> Result<Self, Unmeshed> {
        let mut mesh = Mesh::new(board.settings(), &board.layers, board.polygons()?)?;
        for &id in &board.splits {
            mesh.refine(id as usize)?;
        }
        mesh.balance()?;
        Ok(mesh)
    }

    fn lent(&self) -> Lent<'_> {
        Lent {
            row: &self.table,
            head: self.head,
        }
    }

    /// How many cells there are, how many of them are leaves, and the deepest level.
    pub fn head(&self) -> Head {
        self.head
    }

    /// Eight numbers a slot; [`columns`](crate::columns) names them. Those behind the last cell are 0.
    pub fn row(&self) -> &[i64] {
        &self.table
    }

    /// What the board was cut by.
    pub fn settings(&self) -> Settings {
        self.settings
    }

    /// Layers with a cell size of their own.
    pub fn list(&self) -> &[[u64; 2]] {
        &self.list
    }

    /// What the board was cut from.
    pub fn polygons(&self) -> &Polygons {
        &self.polygons
    }

    /// Splits one leaf.
    ///
    /// # Errors
    ///
    /// Those of [`Table::refine`].
    pub fn refine(&mut self, id: usize) -> Result<(), Refusal> {
        self.change(|table| table.refine(id))
    }

    /// Splits leaves, in this order, or none of them.
    ///
    /// # Errors
    ///
    /// Those of [`Table::refine`]; the mesh is as it was before.
    ///
    /// ```
    /// use leafmesh::{text, Mesh, Reason};
    ///
    /// let board = text::parse("target 8\nlevel 2\npolygon 1 0 1\n0 0\n8 0\n8 8\n0 8\n")?;
    /// let mut mesh = Mesh::of_board(&board)?;
    /// mesh.refine_many([0, 2, 3])?;
    /// assert_eq!(mesh.splits().collect::<Vec<_>>(), [0, 2, 3]);
    ///
    /// let before = mesh.clone();
    /// let why = mesh.refine_many([1, 99]).unwrap_err();
    /// assert_eq!((why.reason, why.place), (Reason::NoSuchCell, 99));
    /// assert_eq!(mesh, before);
    /// # Ok::<(), Box<dyn std::error::Error>>(())
    /// ```
    pub fn refine_many(&mut self, ids: impl IntoIterator<Item = usize>) -> Result<(), Refusal> {
        self.all_or_nothing(|mesh| ids.into_iter().try_for_each(|id| mesh.refine(id)))
    }

    /// Splits the leaves of a region until none of them is coarser than its level. Answers how many splits that took: 0
    /// where no leaf has an area in common with it, or all are as fine. Balance comes afterwards.
    ///
    /// # Errors
    ///
    /// [`Reason::FinestLevel`] where a leaf in it is at the mesh's deepest level and the region asks for a deeper one,
    /// [`Reason::NoRoom`]; the mesh is as it was before.
    pub fn refine_region(&mut self, region: Region) -> Result<usize, Refusal> {
        self.all_or_nothing(|mesh| {
            let before = mesh.head.count;
            for level in 0..region.level.min(MAX_LEVEL + 1) {
                let is_coarse = |leaf: &Leaf| leaf.level == level && region.covers(leaf);
                let ids: Vec<usize> = mesh
                    .leaves()
                    .filter(is_coarse)
                    .map(|leaf| leaf.id)
                    .collect();
                ids.into_iter().try_for_each(|id| mesh.refine(id))?;
            }
            Ok((mesh.head.count - before) / 4)
        })
    }

    /// Splits the hottest leaves and balances: one round of refining where a current crowds. `watts` has the power of
    /// each cell of the mesh's net, and `share` says how many are split of the leaves that can be, from 0 to 1: those
    /// that aren't at the finest level. Answers how many splits the round made, balance's among them.
    ///
    /// # Errors
    ///
    /// [`Reason::OutOfRange`] where there aren't as many powers as leaves, [`Reason::NoRoom`]; the mesh is as it was
    /// before.
    pub fn refine_hottest(&mut self, watts: &[f64], share: f64) -> Result<usize, Refusal> {
        if watts.len() != self.head.leaves {
            let reason = Reason::OutOfRange;
            return Err(Refusal { reason, place: 0 });
        }
        let mut by_heat: Vec<(f64, Leaf)> = watts.iter().copied().zip(self.leaves()).collect();
        by_heat.retain(|(_, leaf)| leaf.level < self.head.max_level);
        by_heat.sort_by(|a, b| b.0.total_cmp(&a.0));
        by_heat.truncate((by_heat.len() as f64 * share) as usize);
        self.all_or_nothing(|mesh| {
            by_heat
                .iter()
                .try_for_each(|(_, leaf)| mesh.refine(leaf.id))?;
            Ok(by_heat.len() + mesh.balance()?)
        })
    }

    /// Balances the table: the number of splits.
    ///
    /// # Errors
    ///
    /// Those of [`Table::balance`].
    pub fn balance(&mut self) -> Result<usize, Refusal> {
        self.change(|table| table.balance())
    }

    /// Splits leaves until no two that share an edge differ in level: the number of splits.
    ///
    /// # Errors
    ///
    /// Those of [`Table::conform`].
    pub fn conform(&mut self) -> Result<usize, Refusal> {
        self.change(|table| table.conform())
    }

    fn change<T>(
        &mut self,
        call: impl FnOnce(&mut Table) -> Result<T, Refusal>,
    ) -> Result<T, Refusal> {
        let mut table = Table::unjudged(&mut self.table, self.head);
        let answer = call(&mut table)?;
        self.head = table.head();
        Ok(answer)
    }

    /// Several changes, of which a refusal leaves none.
    fn all_or_nothing<T>(
        &mut self,
        changes: impl FnOnce(&mut Self) -> Result<T, Refusal>,
    ) -> Result<T, Refusal> {
        let (head, cells) = (self.head, self.table[..SLOT * self.head.count].to_vec());
        changes(self).map_err(|why| {
            self.table[..cells.len()].copy_from_slice(&cells);
            self.table[cells.len()..SLOT * self.head.count].fill(0);
            self.head = head;
            why
        })
    }

    /// The cells that were split, in the order in which they were, those of balance among them. A new mesh of the same
    /// polygons and settings that splits them has the same table, number by number.
    pub fn splits(&self) -> impl Iterator<Item = usize> + '_ {
        // Quarters have ids in fours, in the order of the splits, behind the base cells.
        let is_base = |id: &usize| self.slot(*id)[PARENT] == NO_CELL;
        let first = (0..self.head.count).take_while(is_base).count();
        let quarters = (first..self.head.count).step_by(4);
        quarters.map(|id| self.slot(id)[PARENT] as usize)
    }

    /// The board as it is split now: [`text::show`](crate::text::show) and [`write`](crate::write) keep it, and
    /// [`Mesh::of_board`] makes the same mesh of it, if this one is balanced.
    ///
    /// ```
    /// use leafmesh::{text, Mesh};
    ///
    /// let board = text::parse("target 8\nlevel 2\npolygon 1 0 1\n0 0\n8 0\n8 8\n0 8\n")?;
    /// let mut mesh = Mesh::of_board(&board)?;
    /// mesh.refine(0)?;
    /// mesh.balance()?;
    /// let kept = text::show(&mesh.board());
    /// assert_eq!(Mesh::of_board(&text::parse(&kept)?)?, mesh);
    /// # Ok::<(), Box<dyn std::error::Error>>(())
    /// ```
    pub fn board(&self) -> Board {
        let rows = &self.polygons;
        let polygon = |at: usize| {
            let (layer, component) = (rows.layers[at].into(), rows.components[at].into());
            [layer, component, rows.counts[at]]
        };
        Board {
            max_level: self.settings.max_level,
            cap: self.settings.cap,
            target: self.settings.target,
            layers: self.list.clone(),
            polygons: (0..rows.layers.len()).map(polygon).collect(),
            sheets: rows.sheets.clone(),
            points: rows.points.clone(),
            splits: self.splits().map(|id| id as u64).collect(),
        }
    }

    /// The leaves' ids in [`Table::leaf_order`]: cell i of the net is the i-th of them.
    pub fn order(&self) -> Vec<usize> {
        let mut ids = vec![0; self.lent().leaf_count()];
        self.lent().leaf_order(&mut ids).expect(WELL_FORMED);
        ids.into_iter().map(|id| id as usize).collect()
    }

    /// The leaves in this order.
    pub fn leaves(&self) -> impl Iterator<Item = Leaf> + '_ {
        self.order().into_iter().map(|id| self.leaf_of(id))
    }

    /// The leaf with this id. None where there is no such cell, or it is split.
    pub fn leaf(&self, id: usize) -> Option<Leaf> {
        (id < self.head.count && self.is_leaf(id)).then(|| self.leaf_of(id))
    }

    fn leaf_of(&self, id: usize) -> Leaf {
        let polygon = self.polygon(id);
        Leaf {
            id,
            polygon,
            layer: self.polygons.layers[polygon],
            component: self.polygons.components[polygon],
            level: self.level(id),
            rect: self.rect(id),
            sheet: self.polygons.sheets[polygon],
        }
    }

    /// The leaf of a layer at a place. On a side that leaves share, and where polygons lie over each other, it is the
    /// first of them in the order of the leaves.
    pub fn leaf_at(&self, layer: u16, place: Point) -> Option<Leaf> {
        let is_it = |leaf: &Leaf| leaf.layer == layer && leaf.has(place);
        self.leaves().find(is_it)
    }

    /// The leaves that share a border with this one, of any layer, in the order of their ids, each with the border as
    /// this leaf sees it. None where it is no leaf.
    pub fn neighbours(&self, id: usize) -> Vec<(Leaf, Border)> {
        let Some(own) = self.leaf(id) else {
            return Vec::new();
        };
        let shared = |other: Leaf| {
            let border = contact(own.rect, other.rect).expect("a leaf lies in range");
            border.map(|border| (other, border))
        };
        let leaves = (0..self.head.count).filter_map(|id| self.leaf(id));
        leaves.filter_map(shared).collect()
    }

    /// Every pair of leaves that share a border, as in [`Table::borders`].
    pub fn borders(&self) -> Vec<LeafBorder> {
        self.lent().borders().expect(WELL_FORMED)
    }

    /// The power of each cell of the mesh's net, from the potential of each node: [`power`], with rows from the heap.
    ///
    /// # Errors
    ///
    /// Those of [`power`].
    pub fn power(&self, net: NetRows, potentials: &[f64]) -> Result<Vec<f64>, Refusal> {
        let mut watts = vec![0.0; net.cells.len()];
        power(net, potentials, &mut watts)?;
        Ok(watts)
    }

    /// The net of the leaves, without links.
    ///
    /// # Errors
    ///
    /// Those of [`Table::network`]; where the net would be wrong [`Unmeshed::Overlap`], since polygons of one layer and
    /// component have an area in common, or [`Unmeshed::TooLong`] or [`Unmeshed::Loose`], since
    /// [`Mesh::check_by_layer`] names a node inside a leaf's side.
    pub fn net(&self) -> Result<Net, Unmeshed> {
        self.linked_net(Links::default())
    }

    /// The net of the leaves and of links between them.
    ///
    /// # Errors
    ///
    /// Those of [`Table::linked_network`] and of [`Mesh::net`]; for the first link that joins nothing [`Unmeshed::Idle`],
    /// that ends on no copper [`Unmeshed::Astray`], or that is a via from a layer to itself [`Unmeshed::SameLayer`].
    pub fn linked_net(&self, links: Links) -> Result<Net, Unmeshed> {
        if let Some(overlap) = first_overlap(self.polygons.outlines()) {
            return Err(Unmeshed::Overlap(overlap));
        }
        let net = self.unjudged_linked_net(links)?;
        if let Some(hanging) = self.check_by_layer(net.rows())? {
            return Err(self.why_loose(&net, hanging));
        }
        let made: BTreeSet<Link> = net.joints.iter().map(|joint| joint.link).collect();
        let coppers = self.coppers();
        for (link, one) in links.each() {
            if !made.contains(&link) {
                return Err(Unmeshed::Idle(Idle { link }));
            }
            coppers.judge(link, one, &net.pads)?;
        }
        Ok(net)
    }

    /// What is copper: the base cells.
    fn coppers(&self) -> Coppers {
        let rows = &self.polygons;
        let base_cells = (0..self.head.count).filter(|&id| self.slot(id)[PARENT] == NO_CELL);
        Coppers::of(base_cells.map(|id| {
            let polygon = self.polygon(id);
            (
                rows.layers[polygon],
                rows.components[polygon],
                self.rect(id),
            )
        }))
    }

    /// The net of the leaves, without links, whatever stands inside their sides: as [`Table::network`] makes it.
    ///
    /// # Errors
    ///
    /// Those of [`Table::network`].
    pub fn unjudged_net(&self) -> Result<Net, Refusal> {
        self.unjudged_linked_net(Links::default())
    }

    /// The net of leaves and links, whatever stands inside the leaves' sides, and whether the links join anything: as
    /// [`Table::linked_network`] makes it.
    ///
    /// # Errors
    ///
    /// Those of [`Table::linked_network`].
    pub fn unjudged_linked_net(&self, links: Links) -> Result<Net, Refusal> {
        self.lent().linked_network(self.polygons.outlines(), links)
    }

    /// How many edges each link makes, in the order of [`Links::each`]: that of the net's links.
    ///
    /// # Errors
    ///
    /// Those of [`Table::edge_rows`].
    pub fn edges_of_links(&self, links: Links) -> Result<Vec<usize>, Refusal> {
        self.lent().edges_of_links(self.polygons.outlines(), links)
    }

    /// The first node between the ends of a leaf's side that lacks an edge to the point before or after it, among nodes
    /// of the leaf's own layer and component, of this mesh's net.
    ///
    /// # Errors
    ///
    /// Those of [`Table::check_by_layer`].
    pub fn check_by_layer(&self, net: NetRows) -> Result<Option<Hanging>, Refusal> {
        let work = &mut net.check_work();
        self.lent()
            .check_by_layer(net, self.polygons.outlines(), work)
    }

    /// The first leaf edge whose middle node lacks a half, nodes being found by their place alone.
    ///
    /// # Errors
    ///
    /// Those of [`Table::check_network_conforming`].
    pub fn check_network_conforming(&self, net: NetRows) -> Result<Option<Hanging>, Refusal> {
        let work = &mut net.check_work();
        self.lent().check_network_conforming(net, work)
    }

    /// Why a node inside a side isn't joined along it: a strip of the same copper that is too long, or the place
    /// itself.
    fn why_loose(&self, net: &Net, hanging: Hanging) -> Unmeshed {
        let Hanging { node, from, to } = hanging;
        let (on, rows) = (net.nodes[node], &self.polygons);
        let same = |polygon: usize| {
            (rows.layers[polygon], rows.components[polygon]) == (on.layer, on.component)
        };
        let outlines = rows.outlines();
        if let Some(long) = TooLong::first(self.settings, &self.list, outlines, same) {
            return Unmeshed::TooLong(long);
        }
        let place = |node: usize| [net.nodes[node].x, net.nodes[node].y];
        let side = [from, to].map(place);
        // The check goes by id, so that the first leaf with this side is the one that it stopped at.
        let is_it =
            |id: usize| self.is_leaf(id) && same(self.polygon(id)) && has_side(self.rect(id), side);
        let leaf = (0..self.head.count).find(|&id| is_it(id));
        let leaf = leaf.expect("the check names a side of a leaf");
        Unmeshed::Loose(Loose {
            polygon: self.polygon(leaf),
            leaf,
            place: place(node),
            side,
        })
    }

    /// The eight numbers of a cell; [`columns`](crate::columns) names them.
    ///
    /// # Panics
    ///
    /// Where the table has no such slot.
    pub fn slot(&self, id: usize) -> &[i64] {
        self.lent().slot(id)
    }

    /// Where a cell lies, in ticks.
    ///
    /// # Panics
    ///
    /// As [`Mesh::slot`].
    pub fn rect(&self, id: usize) -> Rect {
        self.lent().rect(id)
    }

    /// The level of a cell: 0 of a base cell.
    ///
    /// # Panics
    ///
    /// As [`Mesh::slot`].
    pub fn level(&self, id: usize) -> u64 {
        self.slot(id)[LEVEL] as u64
    }

    /// The index of its polygon.
    ///
    /// # Panics
    ///
    /// As [`Mesh::slot`].
    pub fn polygon(&self, id: usize) -> usize {
        self.slot(id)[POLYGON] as usize
    }

    /// Whether it isn't split.
    ///
    /// # Panics
    ///
    /// As [`Mesh::slot`].
    pub fn is_leaf(&self, id: usize) -> bool {
        self.lent().first_child(id).is_none()
    }

    /// The name of a cell, as in [`Table::name`].
    pub fn name(&self, id: usize) -> Option<CellName> {
        self.lent().name(id)
    }

    /// The id of a cell, as in [`Table::id_of`].
    pub fn id_of(&self, name: &CellName) -> Option<usize> {
        self.lent().id_of(name)
    }
}
