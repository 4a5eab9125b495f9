//! The reader: places, order, truncations, single bytes.

mod common;

use calls::record::{read_record, write_record, Board, RecordRoom};
use common::{board, refused, square, wide_room, worked_board};

fn read(bytes: &[u8]) -> calls::Answer<Board> {
    read_record(bytes, &wide_room())
}

/// A board with two of everything.
fn full_board() -> Board {
    let mut board = board(12, 1 << 36);
    board.layers = vec![(3, 0), (9, 1 << 36)];
    board.push_polygon(3, u32::MAX, 1.0, &square(-(1 << 36), 0, 1 << 36));
    board.push_polygon(u16::MAX, 0, 40f64.exp2(), &[]);
    board.splits = vec![0, u32::MAX];
    board
}

/// Offsets of the fields of the record above that have a place of their own.
fn field_offsets() -> Vec<usize> {
    let mut at = vec![0, 1, 5, 6, 8, 16, 18, 20, 28, 30, 38];
    at.extend([40, 42, 46, 54]);
    at.extend((0..8).map(|n| 56 + 8 * n));
    at.extend([120, 122, 126, 134]);
    at.extend([136, 138, 142]);
    at
}

#[test]
fn a_written_board_reads_back() {
    for board in [worked_board(), full_board(), board(0, 1)] {
        assert_eq!(read(&write_record(&board)), Ok(board));
    }
}

#[test]
fn level_255_means_4() {
    let mut record = write_record(&worked_board());
    record[5] = 255;
    assert_eq!(read(&record).map(|board| board.max_level), Ok(4));
    for level in 13..255 {
        record[5] = level;
        assert_eq!(read(&record), refused(3, 5));
    }
}

#[test]
fn the_version_comes_first() {
    for version in (0..=255).filter(|&version| version != 1) {
        assert_eq!(read(&[version]), refused(1, 0));
    }
    assert_eq!(read(&[]), refused(2, 0));
    assert_eq!(read(&[1]), refused(2, 1));
    assert_eq!(read(&[1, 0, 0, 0]), refused(2, 1));
}

#[test]
fn the_length_comes_before_what_follows_it() {
    let mut record = write_record(&worked_board());
    record[5] = 99;
    record[4] += 1;
    assert_eq!(read(&record), refused(2, 1));
    record[4] -= 1;
    assert_eq!(read(&record), refused(3, 5));
    record.push(0);
    assert_eq!(read(&record), refused(2, 1));
}

/// Cut anywhere, with a length that fits: the field that is cut, or first missing, is named.
#[test]
fn a_cut_names_its_field() {
    let record = write_record(&full_board());
    assert_eq!(record.len(), 146);
    for length in 5..record.len() {
        let mut cut = record[..length].to_vec();
        cut[1..5].copy_from_slice(&(length as u32 - 5).to_be_bytes());
        let place = *field_offsets().iter().rev().find(|&&at| at <= length).expect("0 is one");
        assert_eq!(read(&cut), refused(2, place as u64), "{length}");
    }
}

#[test]
fn bytes_that_remain_are_named() {
    let mut record = write_record(&full_board());
    let end = record.len() as u64;
    record.extend([0, 0, 0]);
    record[4] += 3;
    assert_eq!(read(&record), refused(2, end));
}

#[test]
fn layers_rise_strictly() {
    let mut board = board(0, 1);
    for second in [0, 3] {
        board.layers = vec![(3, 1), (second, 1)];
        assert_eq!(read(&write_record(&board)), refused(3, 28));
    }
    // Judged before the cell, which is out of range too.
    board.layers = vec![(3, 1), (3, -1)];
    assert_eq!(read(&write_record(&board)), refused(3, 28));
    board.layers = vec![(3, 1), (4, -1)];
    assert_eq!(read(&write_record(&board)), refused(3, 30));
}

#[test]
fn values_out_of_range_are_named() {
    let with = |change: fn(&mut Board)| {
        let mut board = full_board();
        change(&mut board);
        read(&write_record(&board))
    };
    assert_eq!(with(|b| b.cap = 0), refused(3, 6));
    assert_eq!(with(|b| b.cap = 257), refused(3, 6));
    assert_eq!(with(|b| b.target = 0), refused(3, 8));
    assert_eq!(with(|b| b.target += 1), refused(3, 8));
    assert_eq!(with(|b| b.layers[1].1 += 1), refused(3, 30));
    assert_eq!(with(|b| b.r_sheet[0] = f64::NAN), refused(3, 46));
    assert_eq!(with(|b| b.r_sheet[1] *= 2.0), refused(3, 126));
    assert_eq!(with(|b| b.points[0][0] -= 1), refused(3, 56));
    assert_eq!(with(|b| b.points[3][1] += 1), refused(3, 112));
    assert_eq!(with(|b| b.layers = (0..65).map(|n| (n, 0)).collect()), refused(3, 16));
}

#[test]
fn long_lists_are_named_at_their_count() {
    let mut board = board(0, 1);
    board.push_polygon(1, 0, 1.0, &vec![[0, 0]; 1_024]);
    assert_eq!(read(&write_record(&board)), Ok(board.clone()));
    board.push_polygon(1, 0, 1.0, &vec![[0, 0]; 1_025]);
    let second = 20 + 16 + 1_024 * 16;
    assert_eq!(read(&write_record(&board)), refused(3, second + 14));

    let mut many = common::board(0, 1);
    for _ in 0..257 {
        many.push_polygon(1, 0, 1.0, &[]);
    }
    assert_eq!(read(&write_record(&many)), refused(3, 18));
}

#[test]
fn room_is_judged_last() {
    let exact = RecordRoom { layers: 2, polygons: 2, points: 4, splits: 2 };
    let mut record = write_record(&full_board());
    assert_eq!(read_record(&record, &exact), Ok(full_board()));
    let short = [
        RecordRoom { layers: 1, ..exact },
        RecordRoom { polygons: 1, ..exact },
        RecordRoom { points: 3, ..exact },
        RecordRoom { splits: 1, ..exact },
    ];
    for room in short {
        assert_eq!(read_record(&record, &room), refused(6, 0));
    }
    record.push(0);
    record[4] += 1;
    assert_eq!(read_record(&record, &short[0]), refused(2, 146));
}
