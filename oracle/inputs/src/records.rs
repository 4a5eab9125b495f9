//! Board records: boards whose numbers lie anywhere in range, records of a few fields with every
//! number at its borders, and damage to bytes.

use crate::random::Random;
use calls::limits::{
    CAP, CELL, COORDINATE, LAYER_ENTRIES, POLYGONS, RING_POINTS, R_SHEET, WIDEST_LEVEL,
};
use calls::record::{write_record, Board, MEANS_DEFAULT};
use calls::strips::TickPoint;

/// Where the length stands, which says how many bytes follow it.
const LENGTH_AT: usize = 1;
const LENGTH_END: usize = 5;

/// A board in range. Records know nothing of slants, so its points lie anywhere.
pub fn random_board_in_range(random: &mut Random) -> Board {
    let mut board = Board {
        max_level: random.below(WIDEST_LEVEL + 1),
        cap: 1 + random.below(CAP),
        target: in_range(random, 1, CELL),
        layers: random_layers(random),
        ..Board::default()
    };
    let (polygons, points) = match random.below(2_000) {
        0 => (POLYGONS, 3),
        1 => (2, RING_POINTS),
        _ => (random.index(4), 5),
    };
    for _ in 0..polygons {
        let ring = random_points(random, points);
        let layer = random.bits() as u16;
        board.push_polygon(layer, random.bits() as u32, random_sheet(random), &ring);
    }
    let splits = if random.one_in(2_000) { 3_000 } else { random.below(4) };
    board.splits = (0..splits).map(|_| random.bits() as u32).collect();
    board
}

/// Often a border.
fn in_range(random: &mut Random, low: i64, high: i64) -> i64 {
    let any = random.within(low, high);
    random.pick(&[low, high, low + 1, high - 1, any, any, any])
}

fn random_layers(random: &mut Random) -> Vec<(u16, i64)> {
    let most = if random.one_in(500) { LAYER_ENTRIES } else { random.index(4) };
    let mut layers: Vec<u16> = (0..most).map(|_| random.bits() as u16).collect();
    if random.one_in(4) {
        layers.extend([0, 65_535]);
        layers.truncate(LAYER_ENTRIES);
    }
    layers.sort_unstable();
    layers.dedup();
    layers.into_iter().map(|layer| (layer, in_range(random, 0, CELL))).collect()
}

fn random_points(random: &mut Random, most: usize) -> Vec<TickPoint> {
    let count = if most == RING_POINTS { most } else { random.index(most) };
    let mut number = || in_range(random, -COORDINATE, COORDINATE);
    (0..count).map(|_| [number(), number()]).collect()
}

fn random_sheet(random: &mut Random) -> f64 {
    let (least, most) = ((1.0 / R_SHEET).to_bits(), R_SHEET.to_bits());
    f64::from_bits(in_range(random, least as i64, most as i64) as u64)
}

/// Boards small enough to cut their records at every byte and to change every byte in every way.
pub fn small_boards() -> Vec<Board> {
    let bare = Board { max_level: 3, cap: 256, target: 4, ..Board::default() };
    let mut worked = Board { max_level: 1, ..bare.clone() };
    worked.push_polygon(1, 0, 1.0, &[[0, 0], [4, 0], [4, 4], [0, 4]]);
    let mut listed = Board { layers: vec![(0, 0), (3, CELL), (65_535, 1)], ..bare.clone() };
    listed.splits = vec![0, u32::MAX, 7];
    let mut full = Board { layers: vec![(3, 5), (4, 0)], ..worked.clone() };
    full.push_polygon(65_535, u32::MAX, R_SHEET, &[[-COORDINATE, COORDINATE], [-1, 1]]);
    full.push_polygon(0, 9, 1.0 / R_SHEET, &[]);
    full.splits = vec![2];
    vec![bare, worked, listed, full]
}

/// Boards with one number out of range, whose records end early before it and behind it.
pub fn unsound_boards() -> Vec<Board> {
    let full = small_boards().pop().expect("there are some");
    let change = |change: fn(&mut Board)| {
        let mut board = full.clone();
        change(&mut board);
        board
    };
    vec![
        change(|board| board.layers[1].0 = board.layers[0].0),
        change(|board| board.layers[0].1 = CELL + 1),
        change(|board| board.r_sheet[1] = 0.0),
        change(|board| board.points[4][0] = COORDINATE + 1),
        change(|board| board.points[5][1] = -COORDINATE - 1),
    ]
}

/// Boards as large as their fields allow, one kind of row at a time, and with one more, which some
/// fields can't say.
pub fn large_boards() -> Vec<Board> {
    let bare = Board { max_level: 0, cap: 1, target: 1, ..Board::default() };
    let mut list = Vec::new();
    for more in [0, 1] {
        let entries = (LAYER_ENTRIES + more) as u16;
        list.push(Board { layers: (0..entries).map(|n| (n, 0)).collect(), ..bare.clone() });
        let (mut many, mut long) = (bare.clone(), bare.clone());
        for n in 0..POLYGONS + more {
            many.push_polygon(n as u16, 0, 1.0, &[[n as i64, 0]]);
        }
        long.push_polygon(1, 0, 1.0, &vec![[5, -5]; RING_POINTS + more]);
        list.extend([many, long]);
    }
    let mut split = bare.clone();
    split.splits = (0..65_535).collect();
    let mut all = bare;
    for _ in 0..POLYGONS {
        all.push_polygon(1, 0, 1.0, &vec![[-3, 3]; RING_POINTS]);
    }
    list.extend([split, all]);
    list
}

/// Corrects the length after bytes have come or gone, so that what is behind it is looked at.
pub fn correct_length(record: &mut [u8]) {
    if record.len() >= LENGTH_END {
        let length = (record.len() - LENGTH_END) as u32;
        record[LENGTH_AT..LENGTH_END].copy_from_slice(&length.to_be_bytes());
    }
}

/// Every record that ends early, as it is and with a length that says so.
pub fn every_cut(record: &[u8]) -> impl Iterator<Item = Vec<u8>> + '_ {
    (0..record.len()).flat_map(move |end| {
        let mut corrected = record[..end].to_vec();
        correct_length(&mut corrected);
        [record[..end].to_vec(), corrected]
    })
}

/// Every record that differs in one byte.
pub fn every_byte(record: &[u8]) -> impl Iterator<Item = Vec<u8>> + '_ {
    (0..record.len() * 255).map(move |n| {
        let mut changed = record.to_vec();
        changed[n / 255] = changed[n / 255].wrapping_add(1 + (n % 255) as u8);
        changed
    })
}

/// Lengths one off and further, and bytes behind the end, as they are and with a length that says
/// so.
pub fn every_length(record: &[u8]) -> Vec<Vec<u8>> {
    let length = (record.len() - LENGTH_END) as u32;
    let wrong = [length.wrapping_sub(1), length + 1, 0, 1, u32::MAX, length + 5, length << 8];
    let mut list = Vec::new();
    for other in wrong {
        let mut changed = record.to_vec();
        changed[LENGTH_AT..LENGTH_END].copy_from_slice(&other.to_be_bytes());
        list.push(changed);
    }
    for behind in [&[0][..], &[1], &[0; 2], &[0; 4], &[255; 16]] {
        let longer = [record, behind].concat();
        let mut corrected = longer.clone();
        correct_length(&mut corrected);
        list.extend([longer, corrected]);
    }
    list
}

/// All byte strings of up to two bytes.
pub fn shortest() -> impl Iterator<Item = Vec<u8>> {
    let one = (0..=255).map(|byte| vec![byte]);
    let two = (0..=65_535u16).map(|bytes| bytes.to_be_bytes().to_vec());
    std::iter::once(Vec::new()).chain(one).chain(two)
}

/// A number and its bytes.
type Field = (u64, usize);

/// Records of settings, a layer entry or two, one polygon of one point and one split, with numbers
/// at their borders and past them: those of each two neighbouring parts in all ways together.
pub fn every_border() -> Vec<Vec<u8>> {
    let good = good_parts();
    let borders =
        [border_settings(), border_entries(), border_polygons(), border_rings(), border_splits()];
    let mut list = Vec::new();
    for part in 0..good.len() - 1 {
        let mut parts: Vec<&Vec<Field>> = good.iter().collect();
        for first in &borders[part] {
            for second in &borders[part + 1] {
                (parts[part], parts[part + 1]) = (first, second);
                list.push(joined(&parts));
            }
        }
    }
    list
}

/// Version and settings; layer list; polygon count, layer and component; r_sheet and ring; splits.
fn good_parts() -> [Vec<Field>; 5] {
    [
        vec![(1, 1), (3, 1), (256, 2), (4, 8)],
        vec![(1, 2), (3, 2), (4, 8)],
        vec![(1, 2), (1, 2), (0, 4)],
        vec![(1f64.to_bits(), 8), (1, 2), (COORDINATE as u64, 8), (0, 8)],
        vec![(1, 2), (9, 4)],
    ]
}

const CELLS: [u64; 6] = [0, 1, CELL as u64, CELL as u64 + 1, 1 << 63, u64::MAX];

fn border_settings() -> Vec<Vec<Field>> {
    let levels = [0, 1, 12, 13, 254, 255];
    product(&[(&[0, 1, 2], 1), (&levels, 1), (&[0, 1, 256, 257, 65_535], 2), (&CELLS, 8)])
}

/// One entry under different counts, and two.
fn border_entries() -> Vec<Vec<Field>> {
    let layers = [0, 2, 3, 4, 65_535];
    let mut list = product(&[(&[0, 1, 2, 65], 2), (&layers, 2), (&CELLS, 8)]);
    let past = CELL as u64 + 1;
    list.extend(product(&[(&[2], 2), (&layers, 2), (&[1, past], 8), (&layers, 2), (&CELLS, 8)]));
    list
}

fn border_polygons() -> Vec<Vec<Field>> {
    product(&[(&[0, 1, 2, 257], 2), (&[0, 65_535], 2), (&[0, 1 << 31], 4)])
}

fn border_rings() -> Vec<Vec<Field>> {
    let far = COORDINATE as u64;
    let ticks = [0, far, far + 1, far.wrapping_neg(), !far, 1 << 63, u64::MAX];
    let (least, most) = ((1.0 / R_SHEET).to_bits(), R_SHEET.to_bits());
    let nan = f64::NAN.to_bits();
    let sheets = [least - 1, least, most, most + 1, 0, nan, nan | 1 << 63, 1 << 63 | least];
    product(&[(&sheets, 8), (&[0, 1, 2, 1_025], 2), (&ticks, 8), (&ticks, 8)])
}

fn border_splits() -> Vec<Vec<Field>> {
    product(&[(&[0, 1, 2], 2), (&[0, 4_294_967_295], 4)])
}

/// All ways to choose one value for each field.
fn product(choices: &[(&[u64], usize)]) -> Vec<Vec<Field>> {
    let mut all: Vec<Vec<Field>> = vec![Vec::new()];
    for (values, size) in choices {
        let longer = |begun: &Vec<Field>| {
            let begun = begun.clone();
            values.iter().map(move |&value| [&begun[..], &[(value, *size)]].concat())
        };
        all = all.iter().flat_map(longer).collect();
    }
    all
}

/// The record of all fields; the length is put behind the first.
fn joined(parts: &[&Vec<Field>]) -> Vec<u8> {
    let mut record = Vec::new();
    for &(value, size) in parts.iter().copied().flatten() {
        record.extend_from_slice(&value.to_be_bytes()[8 - size..]);
        if record.len() == LENGTH_AT {
            record.extend([0; LENGTH_END - LENGTH_AT]);
        }
    }
    correct_length(&mut record);
    record
}

/// A random record, two in three of them damaged in one place or two.
pub fn random_record(random: &mut Random) -> Vec<u8> {
    let mut board = random_board_in_range(random);
    if random.one_in(10) {
        board.max_level = MEANS_DEFAULT;
    }
    let mut record = write_record(&board);
    for _ in 0..random.below(3) {
        damage_record(&mut record, random);
    }
    record
}

/// One byte or a few cut off, put in, taken out or changed, mostly behind the length.
pub fn damage_record(record: &mut Vec<u8>, random: &mut Random) {
    if record.is_empty() {
        return;
    }
    // Past the length mostly, since what is before it hides the rest.
    let first = if record.len() > LENGTH_END && !random.one_in(10) { LENGTH_END } else { 0 };
    let at = first + random.index(record.len() - first);
    match random.below(6) {
        0 => record.truncate(at),
        1 => drop(record.remove(at)),
        2 => record.insert(at, random.bits() as u8),
        3 => record.extend((0..1 + random.below(20)).map(|n| n as u8)),
        _ => record[at] ^= random.pick(&[1, 2, 4, 16, 128, 255, 15]),
    }
    if !random.one_in(5) {
        correct_length(record);
    }
}
