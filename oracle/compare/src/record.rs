//! The board record: read against this folder's own reader, write against its own writer.

use crate::port::outcome_of;
use crate::port::record::{self as port, Rows};
use crate::report::Report;
use crate::rows::{bits, difference, put, shown, unused};
use calls::limits::{LAYER_ENTRIES, POLYGONS, RING_POINTS};
use calls::outcome::require;
use calls::record::{read_record, write_record, Board, RecordRoom};
use calls::strips::TickPoint;
use calls::Answer;
use inputs::records::{
    every_border, every_byte, every_cut, every_length, large_boards, random_board_in_range,
    random_record, shortest, small_boards, unsound_boards,
};
use inputs::Random;
use leafmesh::ffi::ReadOutcome;

/// Lengths of the lent rows, in their order: layers, polygons, sheets, points, splits.
type Room = [usize; 5];
/// Room for a record that is refused whatever its room.
const SOME_ROOM: Room = [2; 5];
/// One random board in so many is written, too.
const WRITE_ONE_IN: u64 = 8;
const MOST_SPLITS: usize = 65_535;

struct Reports {
    read: Report,
    write: Report,
}

/// Boundary records, then `count` random ones.
pub fn compare(count: u64, seed: u64) -> bool {
    let mut random = Random::new(seed);
    let mut reports = Reports { read: Report::new("read"), write: Report::new("write") };
    reports.small_boards();
    for board in large_boards() {
        reports.write_in_rooms(&board);
        reports.read_in_rooms(&write_record(&board));
    }
    for record in shortest().chain(every_border()) {
        reports.read_in_any_room(&record, &mut random);
    }
    for _ in 0..count {
        reports.read_in_any_room(&random_record(&mut random), &mut random);
        if random.one_in(WRITE_ONE_IN) {
            reports.write_random(&mut random);
        }
    }
    let read = reports.read.print();
    reports.write.print() && read
}

impl Reports {
    /// Cut at every byte, changed in every byte, lengthened.
    fn small_boards(&mut self) {
        for board in small_boards() {
            let record = write_record(&board);
            self.write_in_rooms(&board);
            self.read_in_rooms(&record);
            for damaged in every_cut(&record).chain(every_byte(&record)) {
                self.read(&damaged, SOME_ROOM);
                self.read(&damaged, [9; 5]);
            }
            for damaged in every_length(&record) {
                self.read(&damaged, [9; 5]);
            }
        }
        for board in unsound_boards() {
            let record = write_record(&board);
            every_cut(&record).for_each(|cut| self.read(&cut, [9; 5]));
        }
    }

    /// In rows of exactly its counts, and with each row one short.
    fn read_in_rooms(&mut self, record: &[u8]) {
        let exact = needed(record);
        self.read(record, exact);
        for row in 0..exact.len() {
            let mut room = exact;
            room[row] = room[row].saturating_sub(1);
            self.read(record, room);
        }
    }

    /// Mostly exact; one row short, or all with something to spare.
    fn read_in_any_room(&mut self, record: &[u8], random: &mut Random) {
        let mut room = needed(record);
        let row = random.index(room.len());
        match random.below(8) {
            0 => room[row] = room[row].saturating_sub(1),
            1 => room[row] = 0,
            2 => room = room.map(|length| length + 2),
            3 => room[row] += 1,
            _ => {}
        }
        self.read(record, room);
    }

    fn read(&mut self, record: &[u8], room: Room) {
        let mut rows = unused_rows(room);
        let mut port_rows = rows.clone();
        let answer = read_board(record, room);
        if let Ok(board) = &answer {
            put_board(&mut rows, board);
        }
        let expected = read_outcome(&answer);
        let got = port::read(record, &mut port_rows);
        let same = got == expected && equal(&rows, &port_rows);
        // What is counted as a value is whether there are polygons.
        let value = outcome_of(answer.map(|board| board.layer.len() as u64));
        self.read.ran(value, same, || {
            let differ = rows_difference(&rows, &port_rows);
            let words = format!(
                "record {}, room {room:?}; {differ}original {expected:?}, port {got:?}",
                shown(record)
            );
            ((record.len() + room.iter().sum::<usize>()) as u128, words)
        });
    }

    /// Exactly its bytes, one short, none, and some to spare.
    fn write_in_rooms(&mut self, board: &Board) {
        let length = write_record(board).len();
        for room in [length, length - 1, 0, length + 3] {
            self.write(settings_of(board), &rows_of(board), room);
        }
    }

    fn write_random(&mut self, random: &mut Random) {
        let board = random_board_in_range(random);
        let mut rows = rows_of(&board);
        if random.one_in(6) {
            spoil_rows(&mut rows, random);
        }
        let length = write_record(&board).len();
        let any = random.index(length);
        let room = random.pick(&[length, length, length - 1, length + 9, any]);
        self.write(settings_of(&board), &rows, room);
    }

    fn write(&mut self, settings: [u64; 3], rows: &Rows, room: usize) {
        let mut out = unused(room, |number| number as u8);
        let mut port_out = out.clone();
        let answer = write_rows(settings, rows, &mut out);
        let expected = outcome_of(answer);
        let got = port::write(settings, rows, &mut port_out);
        let whole = answer.map_or(true, |length| reads_back(&port_out[..length as usize], rows));
        let same = got == expected && port_out == out && whole;
        self.write.ran(expected, same, || {
            let differ = difference("byte", &out, &port_out);
            let words = format!(
                "settings {settings:?}, rows {}, room {room}; {differ}reads back: {whole}; \
                 original {expected:?}, port {got:?}",
                rows_words(rows)
            );
            (room as u128, words)
        });
    }
}

fn read_board(record: &[u8], [layers, polygons, sheets, points, splits]: Room) -> Answer<Board> {
    // Each polygon takes a place in two rows.
    let room = RecordRoom { layers, polygons: polygons.min(sheets), points, splits };
    read_record(record, &room)
}

/// The counts of a sound record.
fn needed(record: &[u8]) -> Room {
    let widest = [LAYER_ENTRIES, POLYGONS, POLYGONS, POLYGONS * RING_POINTS, MOST_SPLITS];
    read_board(record, widest).map_or(SOME_ROOM, |board| rows_lengths(&rows_of(&board)))
}

fn rows_lengths(rows: &Rows) -> Room {
    let (polygons, sheets) = (rows.polygons.len(), rows.sheets.len());
    [rows.layers.len(), polygons, sheets, rows.points.len(), rows.splits.len()]
}

fn unused_rows([layers, polygons, sheets, points, splits]: Room) -> Rows {
    Rows {
        layers: unused(layers, |n| [n, n + 1]),
        polygons: unused(polygons, |n| [n, n + 1, n + 2]),
        sheets: unused(sheets, |n| n as f64),
        points: unused(points, |n| [n as i64, -(n as i64)]),
        splits: unused(splits, |n| n),
    }
}

fn rows_of(board: &Board) -> Rows {
    let wide = |&(layer, cell): &(u16, i64)| [u64::from(layer), cell as u64];
    let polygon =
        |n: usize| [u64::from(board.layer[n]), u64::from(board.component[n]), board.point_count[n]];
    Rows {
        layers: board.layers.iter().map(wide).collect(),
        polygons: (0..board.layer.len()).map(polygon).collect(),
        sheets: board.r_sheet.clone(),
        points: board.points.clone(),
        splits: board.splits.iter().map(|&id| u64::from(id)).collect(),
    }
}

/// The board over the front of each row.
fn put_board(rows: &mut Rows, board: &Board) {
    let answers = rows_of(board);
    put(&mut rows.layers, &answers.layers);
    put(&mut rows.polygons, &answers.polygons);
    put(&mut rows.sheets, &answers.sheets);
    put(&mut rows.points, &answers.points);
    put(&mut rows.splits, &answers.splits);
}

fn read_outcome(answer: &Answer<Board>) -> ReadOutcome {
    match answer {
        Ok(board) => ReadOutcome {
            number: 0,
            place: 0,
            level: board.max_level,
            cap: board.cap,
            target: board.target as u64,
            layers: board.layers.len() as u64,
            polygons: board.layer.len() as u64,
            points: board.points.len() as u64,
            splits: board.splits.len() as u64,
        },
        Err(refusal) => {
            ReadOutcome { number: refusal.number, place: refusal.place, ..ReadOutcome::default() }
        }
    }
}

fn settings_of(board: &Board) -> [u64; 3] {
    [board.max_level, board.cap, board.target as u64]
}

/// The board of rows that fit together and hold numbers in range.
fn board_of([max_level, cap, target]: [u64; 3], rows: &Rows) -> Board {
    let mut board = Board { max_level, cap, target: target as i64, ..Board::default() };
    board.layers = rows.layers.iter().map(|row| (row[0] as u16, row[1] as i64)).collect();
    let mut points = rows.points.iter().copied();
    for (&[layer, component, count], &sheet) in rows.polygons.iter().zip(&rows.sheets) {
        let ring: Vec<TickPoint> = points.by_ref().take(count as usize).collect();
        board.push_polygon(layer as u16, component as u32, sheet, &ring);
    }
    board.splits = rows.splits.iter().map(|&id| id as u32).collect();
    board
}

/// The writer's answer. docs/RULES.md has no writer; this one refuses 7 for polygon rows that don't
/// fit together, 3 for counts past those of a record, 6 for too few bytes.
fn write_rows(settings: [u64; 3], rows: &Rows, out: &mut [u8]) -> Answer<u64> {
    let points: u128 = rows.polygons.iter().map(|row| u128::from(row[2])).sum();
    require(rows.polygons.len() == rows.sheets.len(), 7, 0)?;
    require(points == rows.points.len() as u128, 7, 0)?;
    require(rows.layers.len() <= LAYER_ENTRIES && rows.polygons.len() <= POLYGONS, 3, 0)?;
    require(rows.points.len() <= POLYGONS * RING_POINTS, 3, 0)?;
    require(rows.splits.len() <= MOST_SPLITS, 3, 0)?;
    let record = write_record(&board_of(settings, rows));
    require(record.len() <= out.len(), 6, 0)?;
    put(out, &record);
    Ok(record.len() as u64)
}

/// Whether the port reads a written record as the rows it was written from. A ring of too many
/// points can be written, but no reader takes it.
fn reads_back(record: &[u8], rows: &Rows) -> bool {
    let room = rows_lengths(rows);
    let answer = read_board(record, room);
    let mut read = unused_rows(room);
    port::read(record, &mut read) == read_outcome(&answer)
        && (answer.is_err() || equal(&read, rows))
}

/// Polygon rows that don't fit together, or too many of something; now and then two faults.
fn spoil_rows(rows: &mut Rows, random: &mut Random) {
    for _ in 0..1 + random.below(2) {
        match random.below(8) {
            0 => drop(rows.sheets.pop()),
            1 => rows.polygons.push([1, 0, 0]),
            2 => rows.points.push([0, 0]),
            3 => drop(rows.points.pop()),
            4 => spoil_count(rows, random),
            5 => rows.layers.resize(LAYER_ENTRIES + 1, [0, 0]),
            6 => rows.splits.resize(MOST_SPLITS + 1, 0),
            _ => {
                rows.polygons.resize(POLYGONS + 1, [1, 0, 0]);
                rows.sheets.resize(POLYGONS + 1, 1.0);
            }
        }
    }
}

/// A point count that is off, or two whose sum is right in 64 bits alone.
fn spoil_count(rows: &mut Rows, random: &mut Random) {
    let off = random.pick(&[1, u64::MAX, 1 << 63, 1 << 32]);
    let polygons = if off == 1 << 63 { 2 } else { 1 };
    for polygon in rows.polygons.iter_mut().take(polygons) {
        polygon[2] = polygon[2].wrapping_add(off);
    }
}

fn equal(rows: &Rows, port_rows: &Rows) -> bool {
    rows.layers == port_rows.layers
        && rows.polygons == port_rows.polygons
        && bits(&rows.sheets) == bits(&port_rows.sheets)
        && rows.points == port_rows.points
        && rows.splits == port_rows.splits
}

fn rows_difference(rows: &Rows, port_rows: &Rows) -> String {
    [
        difference("layer entry", &rows.layers, &port_rows.layers),
        difference("polygon", &rows.polygons, &port_rows.polygons),
        difference("sheet bits", &bits(&rows.sheets), &bits(&port_rows.sheets)),
        difference("point", &rows.points, &port_rows.points),
        difference("split", &rows.splits, &port_rows.splits),
    ]
    .concat()
}

fn rows_words(rows: &Rows) -> String {
    format!(
        "layers {}, polygons {}, sheets {}, points {}, splits {}",
        shown(&rows.layers),
        shown(&rows.polygons),
        shown(&rows.sheets),
        shown(&rows.points),
        shown(&rows.splits)
    )
}
