//! The net that the original makes of some roots, in the form of crates/net/specs/Boards.antt.
//!
//! Arguments: a name, the polygons (LAYER,COMPONENT,R_SHEET), `--`, the roots in the order of their
//! ids (X0,Y0,X1,Y1,POLYGON), all at max_level 0:
//!
//! ```text
//! cargo run --offline --example board -- worked 1,0,1.0 -- 0,0,4,4,0
//! ```

use calls::net::{Cell, Edge, Node};
use calls::network::{network, NetRoom};
use calls::sheets::Sheets;
use calls::table::{Head, Slot, WIDTH};
use std::fmt::Debug;
use std::str::FromStr;

/// How far the specs' coordinates are moved up.
const MOVED: i64 = 1 << 36;

fn main() {
    let arguments: Vec<String> = std::env::args().skip(1).collect();
    let (name, lists) = arguments.split_first().expect("a name");
    let split = lists.iter().position(|text| text == "--").expect("polygons, --, roots");
    let (polygons, roots) = (&lists[..split], &lists[split + 1..]);

    let layer: Vec<u16> = polygons.iter().map(|text| number(text, 0)).collect();
    let component: Vec<u32> = polygons.iter().map(|text| number(text, 1)).collect();
    let r_sheet: Vec<f64> = polygons.iter().map(|text| number(text, 2)).collect();
    let sheets = Sheets { layer: &layer, component: &component, r_sheet: &r_sheet };

    let mut table = vec![0; roots.len() * WIDTH];
    for (id, text) in roots.iter().enumerate() {
        let sides = [0, 1, 2, 3].map(|place| number(text, place));
        Slot::root(sides, number(text, 4)).store(&mut table, id);
    }
    let head = Head { count: roots.len(), leaves: roots.len(), max_level: 0 };
    let net = network(&table, head, &sheets, &NetRoom::for_leaves(roots.len()))
        .expect("a net and no refusal");

    println!("unfoldable pub {name} : Board");
    println!("{name} = record {{");
    let cells = table.chunks(WIDTH).map(|n| {
        let [x0, y0, x1, y1] = [n[0], n[1], n[2], n[3]].map(|coordinate| coordinate + MOVED);
        format!("cell {x0} {y0} {x1} {y1} 0 None None {}", n[7])
    });
    println!("  table =\n      {}\n      ∷ [];", Vec::from_iter(cells).join("\n      ∷ "));
    let polys = (0..sheets.len()).map(|polygon| {
        let bits = r_sheet[polygon].to_bits();
        format!("poly {} {} {bits:#018x}", layer[polygon], component[polygon])
    });
    list("polys", polys);
    let node = |Node { layer, component, x, y }: &Node| {
        format!("node {layer} {component} {} {}", x + MOVED, y + MOVED)
    };
    list("nodes", net.nodes.iter().map(node));
    let patch = |Cell { corners: [sw, se, ne, nw], r_sheet }: &Cell| {
        format!("patch {sw} {se} {ne} {nw} {:#018x}", r_sheet.to_bits())
    };
    list("cells", net.cells.iter().map(patch));
    let edge = |Edge { from, to, conductance }: &Edge| {
        format!("edge {from} {to} {:#018x}", conductance.to_bits())
    };
    list("edges", net.edges.iter().map(edge));
    println!("}}");
}

/// The number at a place of a list with commas.
fn number<T: FromStr>(text: &str, place: usize) -> T
where
    T::Err: Debug,
{
    text.split(',').nth(place).expect("one more number").parse().expect("a number")
}

fn list(field: &str, items: impl Iterator<Item = String>) {
    println!("  {field} = {} ∷ [];", Vec::from_iter(items).join(" ∷ "));
}
