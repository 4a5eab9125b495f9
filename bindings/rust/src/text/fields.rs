//! The fields of a record, for the words of one that is refused.

use crate::limits::{CAP, CELL, LAYER_ENTRIES, MEANS_DEFAULT, POLYGONS, RING_POINTS};
use crate::{Reason, Refusal, COORDINATE, MAX_LEVEL};

/// A field: where it begins, how many bytes it has, and what it is.
struct Field {
    at: usize,
    long: usize,
    name: String,
    /// What it may hold; of some any value does.
    range: Option<String>,
}

/// Why a record is refused, by the name of the field that is wrong, and its offset.
pub(super) fn why_refused(bytes: &[u8], refusal: Refusal) -> String {
    let Refusal { reason, place } = refusal;
    let words = match reason {
        Reason::WrongLength => why_short(bytes, place),
        Reason::OutOfRange => why_out_of_range(bytes, place),
        _ => None,
    };
    words.unwrap_or_else(|| refusal.to_string())
}

/// The length that the record says, or where it ends.
fn why_short(bytes: &[u8], place: usize) -> Option<String> {
    let again = "copy it again, or pack its text again";
    if bytes.is_empty() {
        return Some("the record is empty".to_string());
    }
    let behind = bytes.len().saturating_sub(LENGTH.at + LENGTH.long);
    if place == LENGTH.at && bytes.len() >= LENGTH.at + LENGTH.long {
        let said = number(bytes, LENGTH.at, LENGTH.long)?;
        return Some(format!(
            "byte 1, length of what follows: {said}, where {behind} bytes follow: {again}"
        ));
    }
    match Fields::of(bytes).find(|field| field.at >= place) {
        Some(field) if field.at == place => Some(format!(
            "byte {place}, {}: the record ends in it or before it: {again}",
            field.name
        )),
        _ => {
            let left = bytes.len().checked_sub(place).filter(|&left| left > 0)?;
            Some(format!(
                "byte {place}: {left} bytes are left over behind the splits: {again}"
            ))
        }
    }
}

fn why_out_of_range(bytes: &[u8], place: usize) -> Option<String> {
    let field = Fields::of(bytes).find(|field| field.at == place)?;
    let value = shown(bytes, &field)?;
    let range = field.range?;
    Some(format!(
        "byte {place}, {}: {value} is out of range: {range}",
        field.name
    ))
}

/// The value of a field, as a person would write it.
fn shown(bytes: &[u8], field: &Field) -> Option<String> {
    let value = number(bytes, field.at, field.long)?;
    Some(match &field.name {
        name if name.starts_with("x of") || name.starts_with("y of") => (value as i64).to_string(),
        name if name.starts_with("r_sheet") => f64::from_bits(value).to_string(),
        _ => value.to_string(),
    })
}

/// A whole number, its first byte the highest.
fn number(bytes: &[u8], at: usize, long: usize) -> Option<u64> {
    let own = bytes.get(at..at.checked_add(long)?)?;
    Some(
        own.iter()
            .fold(0, |value, &byte| value << 8 | u64::from(byte)),
    )
}

/// A field whose place doesn't hang on others.
struct Fixed {
    at: usize,
    long: usize,
}

const LENGTH: Fixed = Fixed { at: 1, long: 4 };

/// The fields of a record one after another; counts say how many follow. The last one is where a count can't be read,
/// or behind all: it ends past the record.
struct Fields<'a> {
    bytes: &'a [u8],
    part: Part,
    at: usize,
}

/// Which field comes next.
#[derive(Clone, Copy)]
enum Part {
    Head(usize),
    Layer {
        entry: u64,
        of: u64,
        field: usize,
    },
    Polygons,
    Polygon {
        polygon: u64,
        of: u64,
        field: usize,
    },
    Point {
        polygon: u64,
        of: u64,
        point: u64,
        points: u64,
        axis: usize,
    },
    Splits,
    Split {
        split: u64,
        of: u64,
    },
    End,
}

impl<'a> Fields<'a> {
    fn of(bytes: &'a [u8]) -> Self {
        Fields {
            bytes,
            part: Part::Head(0),
            at: 0,
        }
    }

    /// A field here, and the part behind it by its value. Behind one that isn't all there nothing comes.
    fn take(
        &mut self,
        long: usize,
        name: &str,
        range: Option<String>,
        next: impl FnOnce(u64) -> Part,
    ) -> Option<Field> {
        let field = Field {
            at: self.at,
            long,
            name: name.to_string(),
            range,
        };
        self.part = number(self.bytes, self.at, long).map_or(Part::End, next);
        self.at += long;
        Some(field)
    }
}

fn range(low: impl ToString, high: impl ToString) -> Option<String> {
    Some(format!("{} to {}", low.to_string(), high.to_string()))
}

fn layer_part(entry: u64, of: u64, field: usize) -> Part {
    match entry < of {
        true => Part::Layer { entry, of, field },
        false => Part::Polygons,
    }
}

fn polygon_part(polygon: u64, of: u64) -> Part {
    match polygon < of {
        true => Part::Polygon {
            polygon,
            of,
            field: 0,
        },
        false => Part::Splits,
    }
}

fn point_part(polygon: u64, of: u64, point: u64, points: u64) -> Part {
    match point < points {
        true => Part::Point {
            polygon,
            of,
            point,
            points,
            axis: 0,
        },
        false => polygon_part(polygon + 1, of),
    }
}

fn split_part(split: u64, of: u64) -> Part {
    match split < of {
        true => Part::Split { split, of },
        false => Part::End,
    }
}

impl Iterator for Fields<'_> {
    type Item = Field;

    fn next(&mut self) -> Option<Field> {
        match self.part {
            Part::Head(0) => self.take(1, "version", range(1, 1), |_| Part::Head(1)),
            Part::Head(1) => self.take(LENGTH.long, "length of what follows", None, |_| {
                Part::Head(2)
            }),
            Part::Head(2) => {
                let levels = format!("0 to {MAX_LEVEL}, or {MEANS_DEFAULT}");
                self.take(1, "max_level", Some(levels), |_| Part::Head(3))
            }
            Part::Head(3) => self.take(2, "cap", range(1, CAP), |_| Part::Head(4)),
            Part::Head(4) => self.take(8, "target", range(1, CELL), |_| Part::Head(5)),
            Part::Head(_) => self.take(
                2,
                "number of layers with a cell of their own",
                range(0, LAYER_ENTRIES),
                |of| layer_part(0, of, 0),
            ),
            Part::Layer {
                entry,
                of,
                field: 0,
            } => {
                let rising = "layers rise, each above the one before it".to_string();
                self.take(2, &format!("layer of entry {entry}"), Some(rising), |_| {
                    layer_part(entry, of, 1)
                })
            }
            Part::Layer { entry, of, .. } => {
                self.take(8, &format!("cell of entry {entry}"), range(0, CELL), |_| {
                    layer_part(entry + 1, of, 0)
                })
            }
            Part::Polygons => self.take(2, "number of polygons", range(0, POLYGONS), |of| {
                polygon_part(0, of)
            }),
            Part::Polygon { polygon, of, field } => {
                let (long, name, range) = match field {
                    0 => (2, "layer", None),
                    1 => (4, "component", None),
                    2 => (8, "r_sheet", range("2^-40", "2^40")),
                    _ => (2, "number of points", range(0, RING_POINTS)),
                };
                self.take(
                    long,
                    &format!("{name} of polygon {polygon}"),
                    range,
                    |value| match field {
                        0..=2 => Part::Polygon {
                            polygon,
                            of,
                            field: field + 1,
                        },
                        _ => point_part(polygon, of, 0, value),
                    },
                )
            }
            Part::Point {
                polygon,
                of,
                point,
                points,
                axis,
            } => {
                let name = format!("{} of point {point} of polygon {polygon}", ["x", "y"][axis]);
                self.take(8, &name, range(-COORDINATE, COORDINATE), |_| match axis {
                    0 => Part::Point {
                        polygon,
                        of,
                        point,
                        points,
                        axis: 1,
                    },
                    _ => point_part(polygon, of, point + 1, points),
                })
            }
            Part::Splits => self.take(2, "number of splits", None, |of| split_part(0, of)),
            Part::Split { split, of } => self.take(4, &format!("split {split}"), None, |_| {
                split_part(split + 1, of)
            }),
            Part::End => None,
        }
    }
}
