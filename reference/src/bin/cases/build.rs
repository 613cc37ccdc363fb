//! Builds.

use crate::damage::{faults, DAMAGES};
use crate::draft::{sample_draft, Draft};
use crate::random::Random;
use crate::stream::{board_words, Stream};
use reference::corrections::SHORT_REVISIONS;
use reference::frames::{Call, Memory, Reference};
use reference::samples::START;
use reference::{Head, Lengths, Vectors};

pub fn build_case(random: &mut Random) -> Call {
    let mut draft = Draft::small(random);
    let mut start = random.pick(&[1, 1, 2, 5, 65_535, 65_536, 4_294_967_295]);
    for _ in 0..faults(random) {
        match random.below(DAMAGES + 1) {
            DAMAGES => start = 0,
            which => draft.damage(random, which),
        }
    }
    draft.build(start)
}

/// What a build of a draft that is not damaged leaves.
pub fn built(draft: &Draft) -> Vectors {
    let mut memory = Memory::default();
    draft.build(1).run(&mut Reference, &mut memory);
    board_words(&memory, draft.head)
}

/// Lengths of which that of the revisions is given.
pub fn lengths_with(random: &mut Random, head: Head, revisions: usize) -> Lengths {
    Lengths { revisions, ..random.lengths(head) }
}

/// Builds that are lent so many revisions, with what was worked out by hand.
pub fn sample_revisions(random: &mut Random, stream: &mut Stream) {
    for &(head, places, number) in SHORT_REVISIONS {
        let draft = Draft { head, lengths: lengths_with(random, head, places), ..sample_draft(random) };
        assert_eq!(stream.call(draft.build(START)).0.numbers, [number]);
    }
}
