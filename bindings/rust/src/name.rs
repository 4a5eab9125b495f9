//! Cells by name: a root, and the quadrants on the way down from it.

use std::error::Error;
use std::fmt;
use std::str::FromStr;

/// A quarter of a cell, in the order of the children's ids; corners of a net's cell have another order, in
/// [`columns`](crate::columns).
#[derive(Clone, Copy, Debug, PartialEq, Eq, PartialOrd, Ord, Hash)]
pub enum Quadrant {
    /// The first child.
    SouthWest,
    /// The second.
    SouthEast,
    /// The third.
    NorthWest,
    /// The fourth.
    NorthEast,
}

impl Quadrant {
    /// In the order of the children's ids.
    pub const ALL: [Quadrant; 4] = [
        Quadrant::SouthWest,
        Quadrant::SouthEast,
        Quadrant::NorthWest,
        Quadrant::NorthEast,
    ];

    /// How a name's text has it.
    fn letters(self) -> &'static str {
        match self {
            Quadrant::SouthWest => "SW",
            Quadrant::SouthEast => "SE",
            Quadrant::NorthWest => "NW",
            Quadrant::NorthEast => "NE",
        }
    }
}

/// The name of a cell: the id of its root, and the quadrants on the way down to it. The id of a quarter says when it
/// was made, so the same cell has another id where other cells were split before; its name stays. As text it is the
/// root's id and the quadrants' letters: `3`, or `3 SE NW`.
///
/// Names are in order by root, then from the root down: a cell comes before the cells in it.
///
/// # Two maps by their names
///
/// Names are for tables that began with the same roots, as those of one board with the same settings do. Of such
/// tables two things are proved, for [`Table::balance`](crate::Table::balance) and
/// [`Table::conform`](crate::Table::conform) alike (docs/RULES.md has the names and the splitting that both end in):
///
/// - **More marks, finer map.** If one table has every split of another, it still does when both are balanced.
/// - **Weekly or at once, the same map.** Let a list of names be split in turn, and those that are split already be
///   passed over. To balance before it and after it ends in the same leaves, and the same head, as to balance after it
///   alone.
///
/// So marks are kept by name. A cell that balance made way for doesn't stand in a fresh table: its list has to name
/// what lies above it first, which is passed over where it is split.
///
/// ```
/// use leafmesh::{CellName, Mesh, Polygons, Reason, Refusal, Settings};
/// use std::collections::BTreeSet;
///
/// /// Splits cells by name, and passes over those that are split already.
/// fn split(mesh: &mut Mesh, marks: &[CellName]) -> Result<(), Refusal> {
///     for name in marks {
///         let id = mesh.id_of(name).unwrap_or_else(|| panic!("there is no cell {name}"));
///         match mesh.refine(id) {
///             Err(why) if why.reason == Reason::AlreadySplit => {}
///             outcome => outcome?,
///         }
///     }
///     Ok(())
/// }
///
/// fn leaves(mesh: &Mesh) -> BTreeSet<CellName> {
///     mesh.order().into_iter().filter_map(|id| mesh.name(id)).collect()
/// }
///
/// // Four cells in a row, and the marks of two weeks.
/// let mut polygons = Polygons::default();
/// polygons.push(1, 0, 1.0, &[[0, 0], [32, 0], [32, 8], [0, 8]]);
/// let settings = Settings { max_level: 2, cap: 256, target: 8 };
/// let bare = Mesh::new(settings, &[], polygons)?;
/// let last_marks = ["0".parse()?, "0 SE".parse()?];
/// let new_marks = ["3".parse()?, "1".parse()?, "1 SE".parse()?];
///
/// // Balance splits cell 1, so that it is passed over in the second week.
/// let mut weekly = bare.clone();
/// split(&mut weekly, &last_marks)?;
/// assert_eq!(weekly.balance()?, 1);
/// let last_leaves = leaves(&weekly);
/// split(&mut weekly, &new_marks)?;
/// weekly.balance()?;
///
/// let mut fresh = bare.clone();
/// split(&mut fresh, &last_marks)?;
/// split(&mut fresh, &new_marks)?;
/// fresh.balance()?;
///
/// // The same map, though its cells have other ids.
/// assert_eq!(leaves(&weekly), leaves(&fresh));
/// assert_eq!(weekly.head(), fresh.head());
/// let name = "3 SW".parse()?;
/// assert_eq!((weekly.id_of(&name), fresh.id_of(&name)), (Some(16), Some(12)));
///
/// // Every leaf of last week's map is a leaf of this one, or is split in it.
/// assert!(last_leaves.iter().all(|name| weekly.id_of(name).is_some()));
/// # Ok::<(), Box<dyn std::error::Error>>(())
/// ```
#[derive(Clone, Debug, PartialEq, Eq, PartialOrd, Ord, Hash)]
pub struct CellName {
    /// The root's id.
    pub root: usize,
    /// From the root down; empty for the root itself.
    pub route: Vec<Quadrant>,
}

impl fmt::Display for CellName {
    fn fmt(&self, f: &mut fmt::Formatter<'_>) -> fmt::Result {
        write!(f, "{}", self.root)?;
        for quadrant in &self.route {
            write!(f, " {}", quadrant.letters())?;
        }
        Ok(())
    }
}

/// Any white space may stand between the words.
impl FromStr for CellName {
    type Err = NoName;

    fn from_str(text: &str) -> Result<Self, NoName> {
        let mut words = text.split_whitespace();
        let root = words.next().and_then(|word| word.parse().ok());
        let route = words.map(quadrant).collect::<Option<_>>();
        match (root, route) {
            (Some(root), Some(route)) => Ok(CellName { root, route }),
            _ => Err(NoName {
                text: text.to_string(),
            }),
        }
    }
}

fn quadrant(letters: &str) -> Option<Quadrant> {
    let mut all = Quadrant::ALL.into_iter();
    all.find(|quadrant| quadrant.letters() == letters)
}

/// A text that is no name of a cell.
#[derive(Clone, Debug, PartialEq, Eq)]
pub struct NoName {
    /// The whole text.
    pub text: String,
}

impl fmt::Display for NoName {
    fn fmt(&self, f: &mut fmt::Formatter<'_>) -> fmt::Result {
        write!(f, "no name of a cell: {:?}", self.text)
    }
}

impl Error for NoName {}
