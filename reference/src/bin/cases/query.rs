//! Queries.

use crate::build::built;
use crate::damage::{Damage, Loan};
use crate::draft::{some_limits, Draft};
use crate::random::Random;
use reference::frames::{Call, Part};
use reference::{Head, Parts};

/// An index for a query: what a build leaves, or any words.
fn index_words(random: &mut Random, draft: &Draft) -> Vec<u16> {
    match random.below(3) {
        0 => (0..draft.head.words()).map(|_| random.below(6) as u16).collect(),
        1 => (0..draft.head.words()).map(|_| random.word()).collect(),
        _ => built(draft).index,
    }
}

pub fn query_case(random: &mut Random) -> Call {
    let mut draft = Draft::small_or_one_sided(random);
    draft.words.index = index_words(random, &draft);
    let mut loan = Loan::new(random, draft, Random::filled);
    let (alpha, beta) = some_limits(random, loan.draft.head);
    if random.one_in(5) {
        loan.draft.head.pairs = random.word();
    }
    loan.damage(random, &[Damage::Size, Damage::ShortIndex, Damage::ShortPresence, Damage::ShortMarks]);
    let Loan { draft, marks, .. } = loan;
    let Parts { index, presence, .. } = draft.parts();
    Call::Query { head: draft.head, alpha, beta, index, presence, marks }
}

/// A query of a board that stays.
pub fn kept_query(random: &mut Random, head: Head, (alpha, beta): (u16, u16)) -> Call {
    Call::Query {
        head,
        alpha,
        beta,
        index: Part::kept(random.length(head.words())),
        presence: Part::kept(random.length(head.nodes())),
        marks: random.filled(head.nodes()),
    }
}
