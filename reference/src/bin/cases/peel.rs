//! Peels.

use crate::damage::{Damage, Loan};
use crate::draft::{some_limits, Draft};
use crate::minimums::{no_minimums, other_minimums};
use crate::random::Random;
use reference::frames::{Call, Part};
use reference::Head;

/// Zeros and ones, or ones alone.
pub fn marks_of(random: &mut Random, nodes: usize) -> Vec<u16> {
    let ones = random.pick(&[1, 2, 6, 6, 6]);
    (0..nodes).map(|_| (random.below(6) < ones) as u16).collect()
}

pub fn all_ones(random: &mut Random, head: Head) -> Part<u16> {
    Part::filled(random.length(head.nodes()), 1)
}

pub fn peel_case(random: &mut Random) -> Call {
    let draft = Draft::small_or_one_sided(random);
    let nodes = draft.head.nodes();
    let mut loan = Loan::new(random, draft, |random, nodes| {
        let words = marks_of(random, nodes);
        Part::changed(random.length(nodes), 0, &words)
    });
    let (alpha, beta) = some_limits(random, loan.draft.head);
    let steps = match random.below(4) {
        0 => random.below(nodes + 2) as u16,
        1 => random.below(4) as u16,
        2 => nodes as u16,
        _ => 65_535,
    };
    let damages = [
        Damage::Size,
        Damage::ShortPairs,
        Damage::ShortPresence,
        Damage::ShortMarks,
        Damage::TooManyPairs,
        Damage::Disorder,
        Damage::Disorder,
        Damage::OddMark,
    ];
    loan.damage(random, &damages);
    let Loan { draft, marks, .. } = loan;
    let minimums = other_minimums(random, draft.head, beta);
    let marks = Part::given(marks.len, &marks.words, random.word());
    draft.peel((alpha, beta), steps, minimums, marks)
}

/// A peel of a board that stays.
pub fn kept_peel(
    random: &mut Random,
    head: Head,
    (alpha, beta): (u16, u16),
    steps: u16,
    minimums: Part<u16>,
    marks: Part<u16>,
) -> Call {
    Call::Peel {
        head,
        alpha,
        beta,
        steps,
        operators: Part::kept(random.length(head.places())),
        rides: Part::kept(random.length(head.places())),
        presence: Part::kept(random.length(head.nodes())),
        minimums,
        marks,
    }
}

/// The same from all ones, where no ride has a minimum.
pub fn kept_peel_from_ones(random: &mut Random, head: Head, limits: (u16, u16), steps: u16) -> Call {
    let (minimums, marks) = (no_minimums(random, head), all_ones(random, head));
    kept_peel(random, head, limits, steps, minimums, marks)
}
