//! A crowd cover beside the cover under a list of limits that it rests on.

use crate::{goal, kernel, measure, print_beside, ratio, Case, ROUNDS};
use board::{Band, Bands, Board, Refusal, BANDS_MOST, GUESTS_MOST, PRESENT};
use std::cell::RefCell;
use std::hint::black_box;

/// The guest count asked for, in the last band.
pub const GUESTS: u16 = 18_000;

/// Eight bands of about equal width. The last has these limits; the others have none, so that everybody is in their cover.
pub fn bands((alpha, beta): (u16, u16)) -> Bands {
    let width = GUESTS_MOST / BANDS_MOST as u16;
    let mut bands = std::array::from_fn::<Band, BANDS_MOST, _>(|place| {
        let first = width * place as u16;
        Band { first, last: first + width - 1, alpha: 0, beta: 0 }
    });
    bands[BANDS_MOST - 1] = Band { first: GUESTS_MOST - width, last: GUESTS_MOST, alpha, beta };
    Bands::new(&bands)
}

/// The times of a crowd cover, of the cover under a list of the same limits, and of a crowd cover that makes all checks and
/// is then refused. The first two leave the marks of a query.
fn times(case: &Case, board: &Board, (alpha, beta): (u16, u16)) -> [Vec<f64>; 3] {
    let (head, words) = (board.head(), board.words());
    assert!(words.presence.iter().all(|word| *word == PRESENT));
    let (bands, limits, here) = (bands((alpha, beta)), case.limit_list((alpha, beta)), vec![1; case.nodes()]);
    let none = vec![0; case.rides as usize];
    let mut gapped = bands;
    gapped.bands[BANDS_MOST - 1].last -= 1;
    let [mut for_guests, mut under, mut asked, mut kept] = [(); 4].map(|_| vec![2; case.nodes()]);
    let (mut counts, mut refused) = (None, None);
    let times = measure(
        100,
        &mut [
            &mut || {
                let (bands, marks) = (*black_box(&bands), black_box(&mut for_guests));
                counts = Some(board.crowd_cover(bands, GUESTS, &none, marks).unwrap());
            },
            // The board's pair arrays are accepted, and there are as many bytes, limits and marks as nodes.
            &mut || unsafe {
                let (limits, marks) = (black_box(&limits), black_box(&mut under));
                kernel::pair_cover(head, words.operators, words.rides, &here, limits, marks)
            },
            &mut || {
                let (bands, marks) = (*black_box(&gapped), black_box(&mut kept));
                refused = Some(board.crowd_cover(bands, GUESTS, &none, marks));
            },
        ],
    );
    assert!(refused == Some(Err(Refusal::BandsGap)));
    assert!(counts == Some(board.query(alpha, beta, &mut asked).unwrap()));
    assert!(for_guests == asked && under == asked);
    times
}

/// The lowest and the highest of some ratios.
fn range(ratios: impl Iterator<Item = f64> + Clone) -> String {
    let (lowest, highest) = (ratios.clone().fold(f64::MAX, f64::min), ratios.fold(0.0, f64::max));
    format!("{lowest:.2} to {highest:.2}")
}

pub fn print(cases: &[Case]) {
    let most = 1.1;
    let checks = RefCell::new(Vec::new());
    let beside = |case: &Case, board: &Board, limits| {
        let [crowd, under, refused] = times(case, board, limits);
        let both: Vec<f64> = under.iter().zip(&refused).map(|(under, refused)| under + refused).collect();
        checks.borrow_mut().push((ratio(&refused, &under), ratio(&crowd, &both)));
        [crowd, under]
    };
    println!("A crowd cover beside the cover under limits that it rests on, from pairs, medians of {ROUNDS} rounds:\n");
    let names = ["crowd cover", "cover under limits"];
    let ratios = print_beside(cases, "a crowd cover beside a cover under limits", names, 2, beside);
    println!("\n- at most {most} × the cover under limits: {}", goal(&ratios, most));
    let checks = checks.into_inner();
    println!("- the checks alone, of the cover's time: {}", range(checks.iter().map(|check| check.0)));
    println!("- crowd cover / (cover under limits + checks): {}\n", range(checks.iter().map(|check| check.1)));
}
