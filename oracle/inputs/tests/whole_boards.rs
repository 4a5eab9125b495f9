//! The records for `leafnet`: most are accepted, many have hanging nodes, and every refusal is met that
//! the program can print.

use calls::build::build;
use calls::leafnet::{leafnet, mesh, printed, LONGEST_INPUT, ROOM, SLOTS};
use calls::record::{read_record, write_record};
use calls::table::{refine, WIDTH};
use inputs::default_levels::default_rectangles;
use inputs::whole_boards::{boundary_records, longest_board, random_whole_record, worked_board};
use inputs::Random;
use std::collections::BTreeSet;

const RECORDS: usize = 10_000;

/// 7 can't come: the program's rooms have a table's shape, and build makes well-formed tables.
const CAN_COME: [usize; 9] = [1, 2, 3, 4, 5, 6, 8, 9, 10];

#[test]
fn most_random_records_are_meshed_and_all_refusals_met() {
    let mut random = Random::new(41);
    let (mut refused, mut hanging, mut split) = ([0; 11], 0, 0);
    for _ in 0..RECORDS {
        match mesh(&random_whole_record(&mut random)) {
            Ok(meshed) => {
                hanging += usize::from(meshed.net.has_hanging_nodes());
                split += usize::from(meshed.splits > 0);
            }
            Err(refusal) => refused[refusal.number as usize] += 1,
        }
    }
    let accepted = RECORDS - refused.iter().sum::<usize>();
    assert!(accepted * 2 > RECORDS, "{accepted}");
    assert!(hanging * 2 > accepted && split * 4 > accepted, "{hanging} {split}");
    assert!(CAN_COME.iter().all(|&number| refused[number] > 0), "{refused:?}");
    assert_eq!(refused[7], 0);
}

/// Of what `default_rectangles` has and of random records: with 255 what they are with 4. With 3, which
/// 255 meant once, base cells of half the side are taken, too, and no split is as deep; where both are
/// taken the mesh is the same.
#[test]
fn level_255_is_answered_as_level_4() {
    let mut random = Random::new(4);
    let mut records = default_rectangles();
    records.extend((0..RECORDS).map(|_| random_whole_record(&mut random)));
    let (mut same, mut uneven, mut deeper) = (0, 0, 0);
    for mut record in records.into_iter().filter(|record| record.get(5) == Some(&255)) {
        let mut at = |level| {
            record[5] = level;
            mesh(&record)
        };
        let [answer, four, three] = [255, 4, 3].map(&mut at);
        assert_eq!(printed(&answer), printed(&four));
        match (&answer, &three) {
            (Ok(_), Ok(_)) => {
                assert_eq!(printed(&answer), printed(&three));
                same += 1;
            }
            (Err(refusal), Ok(_)) => {
                assert_eq!(refusal.number, 5);
                uneven += 1;
            }
            (Ok(_), Err(refusal)) => {
                assert_eq!(refusal.number, 10);
                deeper += 1;
            }
            (Err(_), Err(_)) => {}
        }
    }
    assert!(same > 100 && uneven > 100 && deeper > 20, "{same} {uneven} {deeper}");
}

#[test]
fn the_longest_record_is_as_long_as_is_read() {
    let record = write_record(&longest_board());
    assert_eq!(record.len(), LONGEST_INPUT);
    assert_eq!(leafnet(&record), leafnet(&write_record(&worked_board())));
}

#[test]
fn boundary_records_have_every_length() {
    let lengths: Vec<usize> = boundary_records().iter().map(Vec::len).collect();
    for length in [0, 1, 102, LONGEST_INPUT, LONGEST_INPUT + 1, LONGEST_INPUT + 4, 200_000] {
        assert!(lengths.contains(&length), "{length}");
    }
}

/// The step at which a record is refused.
fn refusing_step(record: &[u8]) -> &'static str {
    if record.len() > LONGEST_INPUT {
        return "unread";
    }
    let Ok(board) = read_record(record, &ROOM) else {
        return "read";
    };
    let mut row = vec![0; SLOTS * WIDTH];
    let Ok(mut head) = build(&board.settings(), &board.outlines(), &mut row) else {
        return "build";
    };
    for &id in &board.splits {
        match refine(&mut row, head, id as usize) {
            Ok(after) => head = after,
            Err(_) => return "refine",
        }
    }
    "balance"
}

#[test]
fn every_step_is_met_without_room() {
    let mut random = Random::new(42);
    let mut records = boundary_records();
    records.extend((0..RECORDS).map(|_| random_whole_record(&mut random)));
    let refused = |record: &&Vec<u8>| leafnet(record) == "refused 6 0\n";
    let steps: BTreeSet<&str> =
        records.iter().filter(refused).map(|record| refusing_step(record)).collect();
    assert_eq!(steps, BTreeSet::from(["unread", "read", "build", "refine", "balance"]));
}
