//! Covers under a list of limits, from pairs and over tables, crowd covers and own covers, beside (a).

use crate::kernel::{self, TABLE};
use crate::{crowds, lists, measure, minimums, Case, Line};
use board::{Board, PRESENT};
use std::hint::black_box;

/// The lines of a cover from pairs, of one over tables, of a crowd cover and of an own cover, under limits that drop about
/// half, and under those that drop everybody.
pub const HALF: [&str; 4] =
    ["cover under limits, from pairs", "cover under limits, over tables", "crowd cover", "own cover"];
pub const EVERYBODY: [&str; 4] = [
    "cover under limits, from pairs, everybody dropped",
    "cover under limits, over tables, everybody dropped",
    "crowd cover, everybody dropped",
    "own cover, everybody dropped",
];

/// The four lines, under alpha for each operator and beta for each ride, as a list, as the limits of a band, and with beta as
/// the minimum of half of the rides too. The tables are filled before; (a) reads the pairs, and its times are the same for
/// all.
pub fn lines(case: &Case, board: &Board, (alpha, beta): (u16, u16), calls: [&'static str; 4]) -> [Line; 4] {
    calls.iter().for_each(|call| case.tell(call));
    let (head, words) = (board.head(), board.words());
    assert!(words.presence.iter().all(|word| *word == PRESENT));
    let (operators, rides, here) = (words.operators, words.rides, vec![1; case.nodes()]);
    let (limits, bands) = (case.limit_list((alpha, beta)), crowds::bands((alpha, beta)));
    let [_, minimums, none] = minimums::lists(case, beta);
    let (mut by_operator, mut by_ride) = (vec![0; TABLE], vec![0; TABLE]);
    // The board's pair arrays are accepted, and there are as many bytes, limits and marks as nodes.
    let degrees = unsafe { kernel::tables(head, operators, rides, &here, &mut by_operator, &mut by_ride) };
    let [mut from_pairs, mut over_tables, mut for_guests, mut with_minimums] = [(); 4].map(|_| vec![2; case.nodes()]);
    let mut listed = None;
    let [pairs, tables, crowd, own, plain] = measure(
        10,
        &mut [
            &mut || unsafe {
                kernel::pair_cover(head, operators, rides, &here, black_box(&limits), black_box(&mut from_pairs))
            },
            &mut || unsafe {
                let (limits, marks) = (black_box(&limits), black_box(&mut over_tables));
                kernel::cover(head, &by_operator, &by_ride, degrees, limits, marks)
            },
            &mut || {
                let (bands, marks) = (*black_box(&bands), black_box(&mut for_guests));
                black_box(board.crowd_cover(bands, crowds::GUESTS, black_box(&none), marks).unwrap());
            },
            &mut || {
                let (minimums, marks) = (black_box(&minimums), black_box(&mut with_minimums));
                black_box(board.own_cover(minimums, alpha, beta, marks).unwrap());
            },
            &mut || {
                let (presence, pairs) = (black_box(words.presence), black_box(&case.pairs));
                listed = Some(lists::peel(case.operators as usize, presence, pairs, black_box(&limits)).0);
            },
        ],
    );
    let mut asked = vec![2; case.nodes()];
    board.query(alpha, beta, &mut asked).unwrap();
    assert!(from_pairs == asked && over_tables == asked && for_guests == asked && with_minimums == asked);
    assert!(listed == Some(asked));
    let [first, second, third, fourth] = calls;
    [(first, pairs), (second, tables), (third, crowd), (fourth, own)]
        .map(|(call, times)| case.line(call, [times, plain.clone(), Vec::new()]))
}
