//! What `leafnet` prints: refusals from every step, empty boards, and a mesh with a hanging node.

mod common;

use calls::leafnet::leafnet;
use calls::record::{write_record, Board};
use common::{board, square};

fn printed(board: &Board) -> String {
    leafnet(&write_record(board))
}

/// Two squares of layer 1 side by side, the first split twice.
fn split_board() -> Board {
    let mut board = board(2, 8);
    board.push_polygon(1, 0, 1.0, &[[0, 0], [16, 0], [16, 8], [0, 8]]);
    board.splits = vec![0, 3];
    board
}

#[test]
fn a_board_without_leaves_prints_its_totals() {
    assert_eq!(printed(&board(3, 4)), "cells 0 leaves 0 nodes 0 edges 0 splits 0\n");
}

#[test]
fn splits_are_made_and_balanced() {
    let text = printed(&split_board());
    let lines: Vec<&str> = text.lines().collect();
    // Eleven faces and 20 nodes of a plane net without holes: 20 + 11 - 1 edges.
    assert_eq!(lines[0], "cells 14 leaves 11 nodes 20 edges 30 splits 1");
    assert_eq!(lines[1], "leaf 2 0 1 0 0 4 4");
    assert_eq!(lines.len(), 1 + 11 + 20 + 30);
    assert!(text.ends_with('\n'));
}

/// Its level is 4, so a base cell's sides are multiples of 32.
#[test]
fn level_255_asks_for_more_than_level_3() {
    let one = |max_level: u64, side: i64| {
        let mut board = board(max_level, side);
        board.push_polygon(1, 0, 1.0, &square(0, 0, side));
        printed(&board).lines().next().map(String::from).expect("a line")
    };
    let accepted = "cells 1 leaves 1 nodes 4 edges 4 splits 0";
    assert_eq!(one(255, 16), "refused 5 0");
    assert_eq!(one(255, 32), accepted);
    assert_eq!(one(255, 48), "refused 5 0");
    assert_eq!([one(3, 16), one(3, 48)], [accepted; 2]);
}

#[test]
fn every_step_can_refuse() {
    let with = |change: fn(&mut Board)| {
        let mut board = split_board();
        change(&mut board);
        printed(&board)
    };
    assert_eq!(with(|b| b.cap = 0), "refused 3 6\n");
    assert_eq!(with(|b| b.points[1] = [16, 1]), "refused 4 0\n");
    assert_eq!(with(|b| b.max_level = 3), "refused 5 0\n");
    assert_eq!(with(|b| b.push_polygon(1, 0, 1.0, &square(0, 0, 64))), "refused 6 0\n");
    assert_eq!(with(|b| b.splits.push(77)), "refused 8 77\n");
    assert_eq!(with(|b| b.splits.push(u32::MAX)), "refused 8 4294967295\n");
    assert_eq!(with(|b| b.splits.push(0)), "refused 9 0\n");
    assert_eq!(with(|b| b.splits.push(6)), "refused 10 6\n");
    assert_eq!(with(|b| b.splits = vec![0; 257]), "refused 6 0\n");
    assert_eq!(leafnet(&[]), "refused 2 0\n");
    assert_eq!(leafnet(&[2]), "refused 1 0\n");
}

#[test]
fn long_input_is_refused_unread() {
    assert_eq!(leafnet(&[2; 16_384]), "refused 1 0\n");
    assert_eq!(leafnet(&[2; 16_385]), "refused 6 0\n");
}
