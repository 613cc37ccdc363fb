//! Own covers, and peels with the same minimums.

use crate::damage::{Damage, Loan};
use crate::draft::{of_lent, of_sample, some_limits, whole_parts, with_all, with_presence, Draft};
use crate::large::{large_draft, turn_parts};
use crate::minimums::{large_minimums, number_with, some_minimums, these_minimums};
use crate::peel::{all_ones, kept_peel};
use crate::random::Random;
use crate::stream::Stream;
use reference::crowd_samples::{FIVE, LENT};
use reference::frames::{Call, Part};
use reference::minimums::{COVERS, PEELS, SHORT};
use reference::samples::PAIRS;
use reference::{Head, Parts};

pub fn own_cover_case(random: &mut Random) -> Call {
    let draft = Draft::small_or_one_sided(random);
    let mut loan = Loan::new(random, draft, Random::filled);
    let (alpha, beta) = some_limits(random, loan.draft.head);
    let damages = [
        Damage::Size,
        Damage::Size,
        Damage::ShortPairs,
        Damage::ShortPresence,
        Damage::ShortMarks,
        Damage::ShortMinimums,
        Damage::ShortMinimums,
        Damage::TooManyPairs,
        Damage::Disorder,
        Damage::Disorder,
    ];
    loan.damage(random, &damages);
    let Loan { draft, marks, is_short } = loan;
    let minimums = some_minimums(random, draft.head, beta, is_short);
    draft.own_cover((alpha, beta), minimums, marks)
}

/// Document 01's pairs under this head, as many as it counts, for a list of minimums that may be too short.
pub fn with_first_pairs(random: &mut Random, head: Head) -> Draft {
    with_all(random, head, &PAIRS[..(head.pairs as usize).min(7)])
}

/// Document 02's own minimums of rides, with what was worked out by hand: own covers and peels.
pub fn sample_minimums(random: &mut Random, stream: &mut Stream) {
    for sample in COVERS {
        let draft = of_sample(random, sample);
        let minimums = these_minimums(random, sample.minimums);
        let marks = random.filled(draft.head.nodes());
        stream.covers(draft.own_cover(sample.limits, minimums.clone(), marks), sample.operators, sample.marks);
        let marks = all_ones(random, draft.head);
        stream.gives(draft.peel(sample.limits, 65_535, minimums, marks), &[0, 1, sample.steps()], sample.marks);
    }
    for &(words, minimums, marks, limits, steps, numbers, left) in PEELS {
        let (minimums, marks) = (these_minimums(random, &minimums), random.given(&marks));
        stream.gives(with_presence(random, &words).peel(limits, steps, minimums, marks), &numbers, &left);
    }
    for &(head, places, number) in SHORT {
        let draft = with_first_pairs(random, head);
        let (minimums, marks) = (Part::filled(places, random.word()), all_ones(random, head));
        assert_eq!(stream.call(draft.own_cover((1, 1), minimums.clone(), marks.clone())).0.numbers[0], number);
        assert_eq!(stream.call(draft.peel((1, 1), 65_535, minimums, marks)).0.numbers[0], number);
    }
    for (lent, places) in LENT.iter().flat_map(|lent| [2, 3].map(|places| (lent, places))) {
        let (draft, number) = (of_lent(random, lent), number_with(places, lent.number));
        let (minimums, marks) = (Part::filled(places, 1), Part::filled(lent.places[3], 7));
        let (outcome, _) = stream.call(draft.own_cover((1, 2), minimums.clone(), marks.clone()));
        assert_eq!(outcome.numbers, if number == 0 { [0, 4, 3] } else { [number, 0, 0] });
        // A peel takes no mark of 7.
        let number = if number == 0 { 12 } else { number };
        assert_eq!(stream.call(draft.peel((1, 2), 65_535, minimums, marks)).0.numbers, [number, 0, 0]);
    }
}

/// Own covers of a board that stays, but for who is on and in and for the minimums; and a list of minimums that is short
/// by one place.
pub fn large_own_covers(random: &mut Random, stream: &mut Stream) {
    let draft = large_draft(random);
    let (head, nodes) = (draft.head, draft.head.nodes());
    for turn in 0..24 {
        let (alpha, beta) = (random.pick(&[0, 1, 5, 7, 8]), random.pick(&[0, 1, 24, 28, 33, 65_535]));
        let Parts { operators, rides, presence, .. } = turn_parts(random, &draft, turn, &[8, 16]);
        let minimums = match turn % 4 {
            0 => {
                let words = large_minimums(random);
                these_minimums(random, &words)
            }
            _ => Part::kept(random.length(60)),
        };
        let marks = random.filled(nodes);
        stream.call(Call::OwnCover { head, alpha, beta, operators, rides, presence, minimums, marks });
    }
    large_short_lists(random, stream, head);
}

/// A peel and both covers of a board that stays, with 59 places for the minimums of 60 rides.
fn large_short_lists(random: &mut Random, stream: &mut Stream, head: Head) {
    let Parts { operators, rides, presence, .. } = whole_parts(random, head);
    let (minimums, marks) = (Part::kept(59), all_ones(random, head));
    let peel = kept_peel(random, head, (1, 1), 65_535, minimums.clone(), marks.clone());
    let crowd = Call::CrowdCover {
        head,
        guests: 5_000,
        bands: FIVE,
        operators: operators.clone(),
        rides: rides.clone(),
        presence: presence.clone(),
        minimums: minimums.clone(),
        marks: marks.clone(),
    };
    let own = Call::OwnCover { head, alpha: 1, beta: 1, operators, rides, presence, minimums, marks };
    for call in [peel, own, crowd] {
        assert_eq!(stream.call(call).0.numbers, [3, 0, 0]);
    }
}
