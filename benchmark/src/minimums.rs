//! A peel, an own cover and a crowd cover with minimums beside the same without, and an own cover beside a crowd cover.

use crate::{crowds, goal, measure, print_beside, Case, Numbers, ROUNDS};
use board::{Band, Bands, Board, GUESTS_MOST};
use std::hint::black_box;

/// Three lists of minimums, with each of which every ride has the limit beta: each ride has it as its own minimum, about half
/// of them, and none.
pub fn lists(case: &Case, beta: u16) -> [Vec<u16>; 3] {
    let (rides, mut numbers) = (case.rides as usize, Numbers(0x9E37_79B9_7F4A_7C15));
    let half = (0..rides).map(|_| if numbers.below(2) == 0 { beta } else { 0 });
    [vec![beta; rides], half.collect(), vec![0; rides]]
}

/// Limits under which a minimum equal to beta is one: 1 for a beta of 0, where that drops the same.
fn limits(case: &Case, board: &Board, (alpha, beta): (u16, u16)) -> (u16, u16) {
    let [mut marks, mut same] = [(); 2].map(|_| vec![2; case.nodes()]);
    board.query(alpha, beta, &mut marks).unwrap();
    board.query(alpha, beta.max(1), &mut same).unwrap();
    assert!(marks == same);
    (alpha, beta.max(1))
}

/// The times of a call with each of the lists. It leaves the marks of a query.
fn with_lists(
    case: &Case,
    board: &Board,
    (alpha, beta): (u16, u16),
    call: impl Fn(&[u16], &mut [u16]),
) -> [Vec<f64>; 3] {
    let [each, half, none] = lists(case, beta);
    let [mut first, mut second, mut third, mut asked] = [(); 4].map(|_| vec![2; case.nodes()]);
    let call = |minimums: &[u16], marks: &mut [u16]| call(black_box(minimums), black_box(marks));
    let times = measure(
        100,
        &mut [&mut || call(&each, &mut first), &mut || call(&half, &mut second), &mut || call(&none, &mut third)],
    );
    board.query(alpha, beta, &mut asked).unwrap();
    assert!(first == asked && second == asked && third == asked);
    times
}

/// Peels from all ones.
fn peels(case: &Case, board: &Board, drop: (u16, u16)) -> [Vec<f64>; 3] {
    let (alpha, beta) = limits(case, board, drop);
    with_lists(case, board, (alpha, beta), |minimums, marks| {
        marks.fill(1);
        assert!(board.peel(minimums, marks, alpha, beta, u16::MAX).unwrap().settled);
    })
}

fn own_covers(case: &Case, board: &Board, drop: (u16, u16)) -> [Vec<f64>; 3] {
    let (alpha, beta) = limits(case, board, drop);
    with_lists(case, board, (alpha, beta), |minimums, marks| {
        black_box(board.own_cover(minimums, alpha, beta, marks).unwrap());
    })
}

/// Crowd covers, whose band has the limits.
fn crowd_covers(case: &Case, board: &Board, drop: (u16, u16)) -> [Vec<f64>; 3] {
    let limits = limits(case, board, drop);
    let bands = crowds::bands(limits);
    with_lists(case, board, limits, |minimums, marks| {
        black_box(board.crowd_cover(*black_box(&bands), crowds::GUESTS, minimums, marks).unwrap());
    })
}

/// The times of an own cover without minimums, and of a crowd cover for a table of one band with the same limits.
fn beside_crowd(case: &Case, board: &Board, (alpha, beta): (u16, u16)) -> [Vec<f64>; 2] {
    let bands = Bands::new(&[Band { first: 0, last: GUESTS_MOST, alpha, beta }]);
    let [_, _, none] = lists(case, beta);
    let [mut own, mut crowd] = [(); 2].map(|_| vec![2; case.nodes()]);
    let times = measure(
        100,
        &mut [
            &mut || {
                let (minimums, marks) = (black_box(&none), black_box(&mut own));
                black_box(board.own_cover(minimums, black_box(alpha), black_box(beta), marks).unwrap());
            },
            &mut || {
                let (bands, minimums, marks) = (*black_box(&bands), black_box(&none), black_box(&mut crowd));
                black_box(board.crowd_cover(bands, black_box(0), minimums, marks).unwrap());
            },
        ],
    );
    assert!(own == crowd);
    times
}

pub fn print(cases: &[Case]) {
    let most = 1.05;
    let names = ["each ride", "half of the rides", "none"];
    println!("A peel with minimums, of each ride and of half of the rides, beside one without, medians of {ROUNDS} rounds:\n");
    let ratios = print_beside(cases, "a peel with minimums beside one without", names, 2, peels);
    println!("\n- peel with minimums at most {most} × its time without: {}\n", goal(&ratios, most));
    println!("An own cover in the same way:\n");
    let ratios = print_beside(cases, "an own cover with minimums beside one without", names, 2, own_covers);
    println!("\n- own cover with minimums at most {most} × its time without: {}\n", goal(&ratios, most));
    println!("A crowd cover in the same way:\n");
    let ratios = print_beside(cases, "a crowd cover with minimums beside one without", names, 2, crowd_covers);
    println!("\n- crowd cover with minimums at most {most} × its time without: {}\n", goal(&ratios, most));
    println!("An own cover without minimums beside a crowd cover for a table of one band:\n");
    let names = ["own cover", "crowd cover"];
    let ratios = print_beside(cases, "an own cover beside a crowd cover", names, 2, beside_crowd);
    println!("\n- own cover at most {most} × the crowd cover: {}\n", goal(&ratios, most));
}
