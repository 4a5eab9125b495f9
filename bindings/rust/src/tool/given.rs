//! A board as the tools are given it.

use super::{board_file, say, End, Stop, Terminals, Words};
use crate::sides::inside;
use crate::solving::{Across, Unsolved};
use crate::text::{self, Lines, Unclear, Whole};
use crate::{Board, Link, Mesh, Net, OwnedLinks, Pitch, Point, Refusal, Sheets, Unmeshed};
use std::borrow::Cow;
use std::fmt;

/// The most edges of a board's links: the solver takes some 200 bytes for each.
const LINK_EDGES: usize = 4_000_000;

/// A board by its record or its text. Only a text has links, and terminals of its own.
pub struct Given {
    pub board: Board,
    pub links: OwnedLinks,
    pub terminals: Terminals,
    /// Where sheet resistances differ from those of the polygons.
    pub sheets: Sheets,
    /// Lines across copper, which a record has none of.
    pub across: Vec<Across>,
    from: End,
    /// None of a record.
    text: Option<Text>,
}

/// A text, and the lines of its board's parts.
struct Text {
    words: String,
    lines: Lines,
}

impl Given {
    /// Reads a board, and says what is odd about it on standard error. What is said of it goes with the name of its
    /// file.
    ///
    /// # Errors
    ///
    /// In words: it can't be read, or is no board. Those of [`board_file`].
    pub fn read(words: &Words, from: &End) -> Result<Self, Stop> {
        let bytes = board_file(words, from)?;
        let given = Given::of_bytes(&bytes, from);
        Ok(given.map_err(|why| from.said(&why.to_string()))?)
    }

    fn of_bytes(bytes: &[u8], from: &End) -> Result<Self, Unclear> {
        if text::is_record(bytes) {
            return Ok(Given {
                board: text::read_record(bytes)?,
                links: OwnedLinks::default(),
                terminals: Terminals::default(),
                sheets: Sheets::default(),
                across: Vec::new(),
                from: from.clone(),
                text: None,
            });
        }
        if bytes.starts_with(b"cells ") || bytes.starts_with(b"refused ") {
            return Err(Unclear {
                line: None,
                words: "this is what leafnet printed, not a board".to_string(),
            });
        }
        let whole = text::parse_bytes(bytes)?;
        let words = String::from_utf8_lossy(bytes).into_owned();
        Given::of_text(words, whole, from)
    }

    fn of_text(words: String, whole: Whole, from: &End) -> Result<Self, Unclear> {
        for warning in &whole.warnings {
            say(&from.said(&format!("warning: {warning}")));
        }
        let Whole { board, lines, .. } = whole;
        // The board is what its record would say.
        let record = text::pack_board(&board, &lines)?;
        Ok(Given {
            board: text::read_record(&record)?,
            links: whole.links,
            terminals: Terminals::of_text(whole.terminals, &lines.terminals),
            sheets: whole.sheets,
            across: whole.across,
            from: from.clone(),
            text: Some(Text { words, lines }),
        })
    }

    /// The same with more terminals: [`Terminals::take`].
    ///
    /// # Errors
    ///
    /// Those of [`Terminals::take`].
    pub fn with_terminals(mut self, all: &[Cow<str>]) -> Result<Self, String> {
        let pitch = self.pitch();
        self.terminals.take(all, pitch)?;
        Ok(self)
    }

    /// Its mesh and its net with links, or why there is none, with the line of a text.
    ///
    /// # Errors
    ///
    /// In words: the mesh or the net is refused.
    pub fn mesh(&self) -> Result<(Mesh, Net), String> {
        let mesh = Mesh::unjudged(&self.board).map_err(|why| self.blame(&why))?;
        let net = self.net(&mesh)?;
        Ok((mesh, net))
    }

    /// The net of its mesh, split further or not, with its links.
    ///
    /// # Errors
    ///
    /// In words: the net is refused.
    pub fn net(&self, mesh: &Mesh) -> Result<Net, String> {
        let past = self.past_room(mesh, LINK_EDGES);
        if let Some(link) = past.map_err(|why| self.blame(&why.into()))? {
            return Err(self.said(&self.crowded(link)));
        }
        let net = mesh.linked_net(self.links.rows());
        let mut net = net.map_err(|why| self.blame(&why))?;
        self.put_sheets(mesh, &mut net)?;
        Ok(net)
    }

    /// The link with which there are more edges of links than so many.
    fn past_room(&self, mesh: &Mesh, most: usize) -> Result<Option<Link>, Refusal> {
        let links = self.links.rows();
        let mut all: usize = 0;
        let mut each = links.each().zip(mesh.edges_of_links(links)?);
        let past = each.find(|&(_, edges)| {
            all = all.saturating_add(edges);
            all > most
        });
        Ok(past.map(|((link, _), _)| link))
    }

    fn crowded(&self, link: Link) -> String {
        let words = format!(
            "the links make more than {LINK_EDGES} edges: a via joins each node in its footprint on one layer to each \
             on the other"
        );
        match self.lines().and_then(|lines| lines.of_link(link)) {
            Some(line) => format!("line {line}: {words}"),
            None => words,
        }
    }

    /// The text, if it was given as one.
    pub fn text(&self) -> Option<&str> {
        self.text.as_ref().map(|text| text.words.as_str())
    }

    pub(super) fn lines(&self) -> Option<&Lines> {
        self.text.as_ref().map(|text| &text.lines)
    }

    /// Of a text in millimetres.
    pub fn pitch(&self) -> Option<Pitch> {
        self.lines()?.pitch
    }

    /// A place in the text's unit; of a record in ticks.
    pub fn place(&self, [x, y]: Point) -> String {
        match self.pitch() {
            Some(pitch) => format!("({} mm, {} mm)", pitch.short(x), pitch.short(y)),
            None => format!("({x}, {y})"),
        }
    }

    /// A length in the text's unit, without it.
    pub fn length(&self, ticks: i64) -> String {
        match self.pitch() {
            Some(pitch) => pitch.short(ticks).to_string(),
            None => ticks.to_string(),
        }
    }

    /// Why one of its lines across copper is refused, behind the line of its text.
    pub fn refused_across(&self, at: usize, why: &str) -> String {
        self.from.said(&self.of_across(at, why))
    }

    /// What is odd about one.
    pub fn warned_of_across(&self, at: usize, what: &str) -> String {
        self.from
            .said(&format!("warning: {}", self.of_across(at, what)))
    }

    fn of_across(&self, at: usize, what: &str) -> String {
        let words = format!("across {}: {what}", self.across[at].name);
        match self.lines().and_then(|lines| lines.across.get(at)) {
            Some(line) => format!("line {line}: {words}"),
            None => words,
        }
    }

    /// What is to be said of it, behind the name of its file.
    pub fn said(&self, why: &dyn fmt::Display) -> String {
        self.from.said(&why.to_string())
    }

    /// Why it has no mesh or no net.
    pub fn blame(&self, why: &Unmeshed) -> String {
        let words = match self.lines() {
            Some(lines) => lines.blame(&self.board, why),
            None => text::blame_record(&self.board, why),
        };
        self.from.said(&words)
    }

    /// Why its net, of this mesh, has no solution.
    pub fn blame_unsolved(&self, mesh: &Mesh, net: &Net, why: &Unsolved) -> String {
        let words = match why {
            Unsolved::NoFit { node } => self.no_fit(mesh, net, *node, why),
            _ => self.terminals.blame(why),
        };
        self.from.said(&words)
    }

    /// Behind the line of the polygon whose leaf has the node inside a side.
    fn no_fit(&self, mesh: &Mesh, net: &Net, node: usize, why: &Unsolved) -> String {
        let place = self.place([net.nodes[node].x, net.nodes[node].y]);
        let words = format!("at {place}: {why}");
        let all = inside(net.rows()).unwrap_or_default();
        let cell = all.iter().find(|one| one.node == node).map(|one| one.cell);
        let leaf = cell.and_then(|cell| mesh.leaves().nth(cell));
        let line = |lines: &Lines| lines.polygons.get(leaf?.polygon).copied();
        match self.lines().and_then(line) {
            Some(line) => format!("line {line}: {words}"),
            None => words,
        }
    }
}

#[cfg(test)]
mod tests {
    use super::{End, Given};
    use crate::{Link, Mesh};

    /// Two vias of four edges each.
    #[test]
    fn the_link_that_passes_the_room_is_named() {
        let layers = [1, 2].map(|layer| format!("polygon {layer} 0 1\n0 0\n8 0\n8 8\n0 8\n"));
        let via = "via 1 2 0 0 4 1 4 1\n";
        let text = format!("level 1\ntarget 8\n{}{via}{via}", layers.concat());
        let given = Given::of_bytes(text.as_bytes(), &End::default()).expect("a board");
        let mesh = Mesh::unjudged(&given.board).expect("a mesh");
        let past = |most| given.past_room(&mesh, most).expect("counts");
        assert_eq!(past(8), None);
        assert_eq!(past(7), Some(Link::Via(1)));
        assert_eq!(past(3), Some(Link::Via(0)));
    }
}
