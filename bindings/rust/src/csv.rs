//! The leaves of a mesh as a table of values that commas part (RFC 4180): a heading, then a line a leaf.

use crate::grid::leaves_of;
use crate::solving::Flow;
use crate::{Leaf, Mesh, NetRows, Pitch, Reason, Refusal};

/// Of every leaf.
const COLUMNS: [&str; 6] = ["id", "name", "polygon", "layer", "component", "level"];
/// Of its power and its current.
const FLOWS: [&str; 5] = [
    "power_W",
    "W_per_mm2",
    "A_per_mm",
    "jx_A_per_mm",
    "jy_A_per_mm",
];

/// The leaves in the order of the net's cells, with the cells' sheet resistances. Sides are in millimetres where there is a pitch, otherwise in ticks.
/// `flows` has one entry a leaf, or none at all: then nothing is said of power and current.
///
/// ```
/// use leafmesh::{csv, text, Mesh, Pitch};
///
/// let board = text::parse("level 1\npitch 0.5\npolygon 1 7 0.0005\n0 0\n0.5 0\n0.5 0.5\n0 0.5\nsplit 0\n")?;
/// let mesh = Mesh::of_board(&board)?;
/// let table = csv::of_mesh(&mesh, mesh.net()?.rows(), Some(Pitch::new(0.5, 1)?), &[])?;
/// let mut lines = table.split("\r\n");
/// assert_eq!(
///     lines.next(),
///     Some("id,name,polygon,layer,component,level,x0_mm,y0_mm,x1_mm,y1_mm,r_sheet_ohm")
/// );
/// assert_eq!(lines.next(), Some("1,0 SW,0,1,7,1,0,0,0.25,0.25,0.0005"));
/// # Ok::<(), Box<dyn std::error::Error>>(())
/// ```
///
/// # Errors
///
/// Those of [`NetRows::judge`]; [`Reason::BadTable`] where there are a net or flows of another mesh.
pub fn of_mesh(
    mesh: &Mesh,
    net: NetRows,
    pitch: Option<Pitch>,
    flows: &[Flow],
) -> Result<String, Refusal> {
    let leaves = leaves_of(mesh, net)?;
    if !flows.is_empty() && flows.len() != leaves.len() {
        let reason = Reason::BadTable;
        return Err(Refusal { reason, place: 0 });
    }
    let mut text = line(&heading(pitch, !flows.is_empty()));
    for (at, leaf) in leaves.iter().enumerate() {
        let mut all = own_values(mesh, pitch, leaf);
        if let Some(flow) = flows.get(at) {
            all.extend(flow_values(leaf, flow));
        }
        text += &line(&all);
    }
    Ok(text)
}

fn heading(pitch: Option<Pitch>, with_flows: bool) -> Vec<String> {
    let unit = pitch.map_or("ticks", |_| "mm");
    let sides = ["x0", "y0", "x1", "y1"].map(|side| format!("{side}_{unit}"));
    let flows: &[&str] = if with_flows { &FLOWS } else { &[] };
    let own = COLUMNS.into_iter().map(String::from);
    own.chain(sides)
        .chain(["r_sheet_ohm".to_string()])
        .chain(flows.iter().copied().map(String::from))
        .collect()
}

fn own_values(mesh: &Mesh, pitch: Option<Pitch>, leaf: &Leaf) -> Vec<String> {
    let name = mesh.name(leaf.id).map(|name| name.to_string());
    let side = |ticks: i64| match pitch {
        Some(pitch) => pitch.short(ticks).to_string(),
        None => ticks.to_string(),
    };
    let mut all = vec![
        leaf.id.to_string(),
        name.unwrap_or_default(),
        leaf.polygon.to_string(),
        leaf.layer.to_string(),
        leaf.component.to_string(),
        leaf.level.to_string(),
    ];
    all.extend(leaf.rect.map(side));
    all.push(leaf.sheet.to_string());
    all
}

/// Currents are in amperes a millimetre: what the power stands for, then along x and along y at the centre.
fn flow_values(leaf: &Leaf, flow: &Flow) -> [String; 5] {
    let [x, y] = flow.current;
    [
        flow.watts,
        flow.watts / leaf.area() * 1e-6,
        flow.sheet_current * 1e-3,
        x * 1e-3,
        y * 1e-3,
    ]
    .map(|value| format!("{value:e}"))
}

/// With the line's end. A value in which a comma or a quote stands would have to be quoted; none has.
fn line(values: &[String]) -> String {
    values.join(",") + "\r\n"
}
