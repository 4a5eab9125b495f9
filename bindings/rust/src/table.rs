//! A table in a lent row.

use crate::lent::Lent;
use crate::refusal::judged_table;
use crate::{
    ffi, CellName, Counts, Hanging, Head, LeafBorder, Links, Net, NetRoom, NetRows, Outlines,
    Refusal, Settings,
};

/// A table in a lent row, and its head, which every call keeps: so none can be asked with another table's. No call but
/// [`Table::borders`], [`Table::name`], [`Table::network`], [`Table::linked_network`] and the two checks without a work
/// room takes anything from the heap.
#[derive(Debug)]
pub struct Table<'a> {
    row: &'a mut [i64],
    head: Head,
}

// SAFETY, of every call below: each pointer comes with the length of the slice that it was taken from;
// the slices outlive the call, and those that are written are borrowed mutably, so none overlaps another.

impl<'a> Table<'a> {
    /// The level-0 table of a board, all of whose cells are leaves. `list` gives some layers a cell size of their own
    /// (0: the target), with rising layers. All slots of the row that are not filled become zero.
    ///
    /// # Errors
    ///
    /// [`Reason::BadTable`](crate::Reason::BadTable) for rows that don't fit together,
    /// [`Reason::OutOfRange`](crate::Reason::OutOfRange), [`Reason::Slanted`](crate::Reason::Slanted),
    /// [`Reason::UnevenCell`](crate::Reason::UnevenCell) and [`Reason::NoRoom`](crate::Reason::NoRoom), in that order.
    pub fn build(
        settings: Settings,
        list: &[[u64; 2]],
        outlines: Outlines,
        row: &'a mut [i64],
    ) -> Result<Self, Refusal> {
        let outcome = unsafe {
            ffi::leafmesh_build(
                settings.max_level,
                settings.cap,
                settings.target,
                list.as_ptr(),
                list.len(),
                outlines.layers.as_ptr(),
                outlines.layers.len(),
                outlines.components.as_ptr(),
                outlines.components.len(),
                outlines.sheets.as_ptr(),
                outlines.sheets.len(),
                outlines.counts.as_ptr(),
                outlines.counts.len(),
                outlines.points.as_ptr(),
                outlines.points.len(),
                row.as_mut_ptr(),
                row.len(),
            )
        };
        let (_, head) = judged_table(outcome)?;
        Ok(Table { row, head })
    }

    /// A row that holds a table already.
    ///
    /// # Errors
    ///
    /// [`Reason::BadTable`](crate::Reason::BadTable), also where the head has another number of leaves than the row.
    pub fn of(row: &'a mut [i64], head: Head) -> Result<Self, Refusal> {
        Lent { row, head }.judge()?;
        Ok(Table { row, head })
    }

    /// The same without a look at it.
    pub(crate) fn unjudged(row: &'a mut [i64], head: Head) -> Self {
        Table { row, head }
    }

    /// How many cells and leaves the table has, and its deepest level.
    pub fn head(&self) -> Head {
        self.head
    }

    /// Eight numbers a slot; [`columns`](crate::columns) names them.
    pub fn row(&self) -> &[i64] {
        self.row
    }

    fn lent(&self) -> Lent<'_> {
        Lent {
            row: self.row,
            head: self.head,
        }
    }

    /// How many leaves the table has. It is kept in the head, so nothing is counted.
    pub fn leaf_count(&self) -> usize {
        self.lent().leaf_count()
    }

    /// The ids of the leaves, rising, into the front of `out`. Answers how many.
    ///
    /// # Errors
    ///
    /// [`Reason::NoRoom`](crate::Reason::NoRoom).
    pub fn leaves(&self, out: &mut [u64]) -> Result<usize, Refusal> {
        self.lent().leaves(out)
    }

    /// The ids of the leaves by polygon, then id, into the front of `out`. Answers how many. Cell i of the net is the
    /// i-th of these leaves.
    ///
    /// # Errors
    ///
    /// [`Reason::NoRoom`](crate::Reason::NoRoom).
    pub fn leaf_order(&self, out: &mut [u64]) -> Result<usize, Refusal> {
        self.lent().leaf_order(out)
    }

    /// The name of the cell with this id. None where the table has no such cell.
    pub fn name(&self, id: usize) -> Option<CellName> {
        self.lent().name(id)
    }

    /// The id of the cell with this name. None where no such cell stands: the root is none, or a cell on the way down
    /// isn't split.
    ///
    /// ```
    /// use leafmesh::{CellName, Outlines, Quadrant, Settings, Table};
    ///
    /// // One square of 8 by 8 ticks, split once.
    /// let outlines = Outlines {
    ///     layers: &[1],
    ///     components: &[0],
    ///     sheets: &[1.0],
    ///     counts: &[4],
    ///     points: &[[0, 0], [8, 0], [8, 8], [0, 8]],
    /// };
    /// let settings = Settings { max_level: 2, cap: 256, target: 8 };
    /// let mut row = vec![0; 8 * 64];
    /// let mut table = Table::build(settings, &[], outlines, &mut row)?;
    /// table.refine(0)?;
    ///
    /// let name = CellName { root: 0, route: vec![Quadrant::NorthEast] };
    /// assert_eq!(table.id_of(&name), Some(4));
    /// assert_eq!(table.name(4), Some(name));
    /// let below = CellName { root: 0, route: vec![Quadrant::NorthEast, Quadrant::SouthWest] };
    /// assert_eq!(table.id_of(&below), None);
    /// # Ok::<(), leafmesh::Refusal>(())
    /// ```
    pub fn id_of(&self, name: &CellName) -> Option<usize> {
        self.lent().id_of(name)
    }

    /// Every pair of leaves that share a border, once: `first` is below `second`, the pairs are in their order, and
    /// each has the border as the first sees it, which is what [`contact`](crate::contact) says of the two. Layers and
    /// polygons play no part, as in [`Table::balance`]. It takes n log n steps for n leaves, and m log m for m pairs:
    /// some two a leaf on a board, but up to a quarter of n squared, 32 bytes each, where many leaves lie over each
    /// other.
    ///
    /// A plot of power density draws each border over the two cells, with its length, and so does
    /// [`Picture::with_borders`](crate::drawing::Picture::with_borders):
    ///
    /// ```
    /// use leafmesh::{Border, LeafBorder, Outlines, Settings, Side, Table};
    ///
    /// // Cells 0 and 1 of 8 by 8 ticks side by side, the first split into cells 2, 3, 4 and 5.
    /// let outlines = Outlines {
    ///     layers: &[1],
    ///     components: &[0],
    ///     sheets: &[1.0],
    ///     counts: &[4],
    ///     points: &[[0, 0], [16, 0], [16, 8], [0, 8]],
    /// };
    /// let settings = Settings { max_level: 2, cap: 256, target: 8 };
    /// let mut row = vec![0; 8 * 64];
    /// let mut table = Table::build(settings, &[], outlines, &mut row)?;
    /// table.refine(0)?;
    ///
    /// let mut plot = Vec::new();
    /// for LeafBorder { first, second, border: Border { side, length } } in table.borders()? {
    ///     plot.push(format!("{first} has {second} on its {side:?} side along {length} ticks"));
    /// }
    /// assert_eq!(plot, [
    ///     "1 has 3 on its West side along 4 ticks",
    ///     "1 has 5 on its West side along 4 ticks",
    ///     "2 has 3 on its East side along 4 ticks",
    ///     "2 has 4 on its North side along 4 ticks",
    ///     "3 has 5 on its North side along 4 ticks",
    ///     "4 has 5 on its East side along 4 ticks",
    /// ]);
    /// # Ok::<(), leafmesh::Refusal>(())
    /// ```
    ///
    /// # Errors
    ///
    /// [`Reason::BadTable`](crate::Reason::BadTable), of a table that isn't well formed.
    pub fn borders(&self) -> Result<Vec<LeafBorder>, Refusal> {
        self.lent().borders()
    }

    /// Splits the leaf with this id into four: four cells more, and three leaves.
    ///
    /// # Errors
    ///
    /// [`Reason::NoSuchCell`](crate::Reason::NoSuchCell), [`Reason::AlreadySplit`](crate::Reason::AlreadySplit),
    /// [`Reason::FinestLevel`](crate::Reason::FinestLevel), [`Reason::NoRoom`](crate::Reason::NoRoom).
    pub fn refine(&mut self, id: usize) -> Result<(), Refusal> {
        self.change(|row, length, head| unsafe {
            ffi::leafmesh_refine(row, length, head.count, head.leaves, head.max_level, id)
        })?;
        Ok(())
    }

    /// Splits leaves until no two that share an edge differ by more than one level, and no more than that needs.
    /// Answers the number of splits. Layers play no part: what is split on one splits what lies on its sides on the
    /// others.
    ///
    /// # Errors
    ///
    /// [`Reason::NoRoom`](crate::Reason::NoRoom).
    pub fn balance(&mut self) -> Result<usize, Refusal> {
        self.even_out(ffi::leafmesh_balance)
    }

    /// The same until no two leaves that share an edge differ in level.
    ///
    /// # Errors
    ///
    /// [`Reason::NoRoom`](crate::Reason::NoRoom).
    pub fn conform(&mut self) -> Result<usize, Refusal> {
        self.even_out(ffi::leafmesh_conform)
    }

    fn even_out(&mut self, call: ffi::Evening) -> Result<usize, Refusal> {
        self.change(|row, length, head| unsafe {
            call(row, length, head.count, head.leaves, head.max_level)
        })
    }

    /// The new head is kept where the call was accepted. Answers how many splits balance or conform made.
    fn change(
        &mut self,
        call: impl FnOnce(*mut i64, usize, Head) -> ffi::TableOutcome,
    ) -> Result<usize, Refusal> {
        let outcome = call(self.row.as_mut_ptr(), self.row.len(), self.head);
        let splits;
        (splits, self.head) = judged_table(outcome)?;
        Ok(splits)
    }

    /// The net of the leaves, without links, in rows from the heap. Of the outlines layers, components and sheets are
    /// read. Cell i is [`Table::leaf_order`]'s i-th leaf.
    ///
    /// # Errors
    ///
    /// [`Reason::BadTable`](crate::Reason::BadTable) for a cell of a polygon that isn't there, and for polygons' rows
    /// of unequal length; [`Reason::OutOfRange`](crate::Reason::OutOfRange) for a sheet resistance or more than 256
    /// polygons.
    pub fn network(&self, outlines: Outlines) -> Result<Net, Refusal> {
        self.linked_network(outlines, Links::default())
    }

    /// The same with links behind the leaves' edges: those of the contacts, then those of the vias, then those of the
    /// channels. What finds no node on one side makes no link.
    ///
    /// ```
    /// use leafmesh::{Footprint, Links, Outlines, Settings, Table, Via};
    ///
    /// // The same square of 4 by 4 ticks on two layers.
    /// let square = [[0, 0], [4, 0], [4, 4], [0, 4]];
    /// let outlines = Outlines {
    ///     layers: &[1, 2],
    ///     components: &[0, 0],
    ///     sheets: &[1.0, 1.0],
    ///     counts: &[4, 4],
    ///     points: &[square, square].concat(),
    /// };
    /// let mut row = vec![0; 8 * 2];
    /// let settings = Settings { max_level: 1, cap: 256, target: 4 };
    /// let table = Table::build(settings, &[], outlines, &mut row)?;
    ///
    /// // A via of 1 ohm over the east side: two nodes on each layer, four pairs.
    /// let footprint = Footprint { x: 4, y: 2, half_width: 1, half_height: 2 };
    /// let vias = [Via { bottom: 1, top: 2, component: 0, footprint, resistance: 1.0 }];
    /// let net = table.linked_network(outlines, Links { vias: &vias, ..Links::default() })?;
    /// assert_eq!((net.edges.len(), net.links), (8 + 4, 4));
    /// assert!(net.links().iter().all(|link| link.conductance == 0.25));
    /// # Ok::<(), leafmesh::Refusal>(())
    /// ```
    ///
    /// # Errors
    ///
    /// Those of [`Table::network`]; [`Reason::OutOfRange`](crate::Reason::OutOfRange) for a resistance, a half size or
    /// a place of a link too, also of one that would join nothing; [`Reason::NoRoom`](crate::Reason::NoRoom) where the
    /// heap has too little, since a via of large footprint can make billions of edges.
    pub fn linked_network(&self, outlines: Outlines, links: Links) -> Result<Net, Refusal> {
        self.lent().linked_network(outlines, links)
    }

    /// The same into the front of lent rows; the work room is zero afterwards.
    ///
    /// # Errors
    ///
    /// Those of [`Table::linked_network`], then [`Reason::NoRoom`](crate::Reason::NoRoom).
    pub fn network_with(
        &self,
        outlines: Outlines,
        links: Links,
        room: NetRoom,
    ) -> Result<Counts, Refusal> {
        self.lent().network_with(outlines, links, room)
    }

    /// How many edge rows [`Table::network_with`] asks for: [`EDGES_A_LEAF`](crate::limits::EDGES_A_LEAF) for each
    /// leaf, and one for each link. `usize::MAX` also stands for more than that.
    ///
    /// # Errors
    ///
    /// Those of [`Table::linked_network`].
    pub fn edge_rows(&self, outlines: Outlines, links: Links) -> Result<usize, Refusal> {
        self.lent().edge_rows(outlines, links)
    }

    /// The first leaf edge whose middle node lacks a half, nodes being found by their place alone. Its work room comes
    /// from the heap, so that it takes n log n steps.
    ///
    /// # Errors
    ///
    /// [`Reason::BadTable`](crate::Reason::BadTable) for a bad net.
    pub fn check_network_conforming(&self, net: NetRows) -> Result<Option<Hanging>, Refusal> {
        self.check_network_conforming_with(net, &mut net.check_work())
    }

    /// The same in a lent work room, which may be empty. With [`check_work`](crate::limits::check_work) numbers and at
    /// most [`CHECK_NODES`](crate::limits::CHECK_NODES) nodes the check takes n log n steps, and the room is zero after
    /// an accepted call; with less it walks over all nodes for each side, and the room keeps what it held.
    ///
    /// # Errors
    ///
    /// [`Reason::BadTable`](crate::Reason::BadTable) for a bad net.
    pub fn check_network_conforming_with(
        &self,
        net: NetRows,
        work: &mut [u64],
    ) -> Result<Option<Hanging>, Refusal> {
        self.lent().check_network_conforming(net, work)
    }

    /// The first node between the ends of a leaf edge that lacks an edge to the point before or after it: the points
    /// are the ends and every node between them, of the leaf's own layer and component. It takes its work room as
    /// [`Table::check_network_conforming`] does, n log n steps, and log n for each node inside each leaf edge.
    ///
    /// # Errors
    ///
    /// [`Reason::BadTable`](crate::Reason::BadTable) for a bad net, a cell of a polygon that isn't there, and polygons'
    /// rows of unequal length.
    pub fn check_by_layer(
        &self,
        net: NetRows,
        outlines: Outlines,
    ) -> Result<Option<Hanging>, Refusal> {
        self.check_by_layer_with(net, outlines, &mut net.check_work())
    }

    /// The same in a lent work room, as in [`Table::check_network_conforming_with`].
    ///
    /// # Errors
    ///
    /// Those of [`Table::check_by_layer`].
    pub fn check_by_layer_with(
        &self,
        net: NetRows,
        outlines: Outlines,
        work: &mut [u64],
    ) -> Result<Option<Hanging>, Refusal> {
        self.lent().check_by_layer(net, outlines, work)
    }
}
