//! What is said of links of one node.

use super::{say, Given, Solved};
use crate::{Link, Lone};
use std::collections::BTreeSet;

/// Why there is no figure to hold another one to.
pub const ONE_NODE: &str = "one node: no value as the mesh gets finer";

/// Past so many links the rest is counted.
const SAID: usize = 20;

impl Solved {
    /// Whether one of a link's ends is one node.
    pub fn is_lone(&self, link: Link) -> bool {
        self.lone.iter().any(|one| one.end.0 == link)
    }

    /// How many leaves stand at links of one node, and are left out where the hottest is sought.
    pub fn left_out(&self) -> usize {
        let left_out = self.solution.left_out(&self.mesh);
        left_out.into_iter().filter(|&is_out| is_out).count()
    }
}

impl Given {
    /// Tells of each link with an end of one node, by its line.
    pub(super) fn say_of_lone(&self, solved: &Solved) {
        let all = solved.lone.iter().map(|one: &Lone| one.end.0);
        let links: BTreeSet<Link> = all.collect();
        for &link in links.iter().take(SAID) {
            let line = self.lines().and_then(|lines| lines.of_link(link));
            let words = match line {
                Some(line) => format!("warning: line {line}: {ONE_NODE}"),
                None => format!("warning: {link}: {ONE_NODE}"),
            };
            say(&self.said(&words));
        }
        match links.len().saturating_sub(SAID) {
            0 => {}
            more => say(&self.said(&format!("warning: {more} more links of one node"))),
        }
    }
}
