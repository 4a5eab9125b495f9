//! Terminals on copper that isn't there.

use crate::solving::{Spot, Terminal};
use crate::Board;
use std::collections::BTreeMap;

/// What is missing where a terminal's layer has no copper of its component, and where copper lies.
pub(super) fn missing_copper(board: &Board, terminal: &Terminal) -> Option<String> {
    let (layer, component) = match terminal.spot {
        Spot::End {
            layer, component, ..
        }
        | Spot::Rect {
            layer, component, ..
        } => (layer, component),
        Spot::Pad { .. } => return None,
    };
    let is_it = |&[on, of, _]: &[u64; 3]| (on, of) == (layer.into(), component.into());
    if board.polygons.iter().any(is_it) {
        return None;
    }
    let name = &terminal.name;
    Some(format!(
        "terminal {name}: layer {layer} has no copper of component {component}; {}",
        coppers(board)
    ))
}

/// The most layers and components that are listed.
const LISTED: usize = 6;

fn coppers(board: &Board) -> String {
    let mut all: BTreeMap<u64, Vec<u64>> = BTreeMap::new();
    for &[layer, component, _] in &board.polygons {
        all.entry(layer).or_default().push(component);
    }
    let mut layers: Vec<String> = Vec::new();
    for (layer, components) in all.iter_mut().take(LISTED) {
        components.sort_unstable();
        components.dedup();
        let more = if components.len() > LISTED {
            ", .."
        } else {
            ""
        };
        let shown: Vec<String> = components.iter().take(LISTED).map(u64::to_string).collect();
        layers.push(format!("layer {layer} has {}{more}", shown.join(", ")));
    }
    let more = if all.len() > LISTED { "; .." } else { "" };
    format!("{}{more}", layers.join("; "))
}
