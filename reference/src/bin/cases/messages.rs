//! Messages, and single message calls and lists on boards that they may find.

use crate::build::built;
use crate::damage::{faults, DAMAGES};
use crate::draft::{presence_of, Draft};
use crate::random::Random;
use reference::frames::{Call, Part};
use reference::{Head, Message, Vectors};

/// A revision. Most are small, so that many are equal; some are near 255, or far above it.
pub fn some_revision(random: &mut Random) -> u16 {
    match random.below(20) {
        0 => random.pick(&[254, 255, 256, 257]),
        1 => random.pick(&[300, 65_535]),
        _ => random.below(4) as u16,
    }
}

/// A message for a board of these sizes, mostly a valid one. Three in five are for a pair. Stamps are few, so that many
/// are equal.
pub fn some_message(random: &mut Random, head: Head, start: u32) -> Message {
    let size = |random: &mut Random, count: u16| {
        if count == 0 || random.one_in(25) {
            random.pick(&[count, count, count.saturating_add(1), 65_535])
        } else {
            random.below(count as usize) as u16
        }
    };
    let unused = |random: &mut Random| if random.one_in(15) { random.pick(&[1, 2, 256, 65_535]) } else { 0 };
    let kind = if random.one_in(20) {
        random.pick(&[0, 7, 256, 257, 260, 65_535])
    } else {
        random.pick(&[1, 1, 1, 1, 2, 2, 3, 4, 5, 6])
    };
    Message {
        kind,
        operator: if kind == 5 || kind == 6 { unused(random) } else { size(random, head.operators) },
        ride: if kind == 3 || kind == 4 { unused(random) } else { size(random, head.rides) },
        revision: some_revision(random),
        stamp: match random.below(20) {
            0 => 0,
            1 => random.pick(&[4_294_967_295, 4_294_967_294, 65_536, 65_535]),
            2..=5 => start,
            6 => start.saturating_add(1),
            7 => start.saturating_sub(1),
            _ => 1 + random.below(9) as u32,
        },
    }
}

/// One of the two kinds for the same pair, operator or ride.
pub fn like_kind(random: &mut Random, kind: u16) -> u16 {
    if (1..=6).contains(&kind) {
        (kind - 1) / 2 * 2 + 1 + random.below(2) as u16
    } else {
        kind
    }
}

/// A board that a message may find: stamps, revisions and words of its own, and an index that need not be that of the
/// pairs.
fn found_board(random: &mut Random) -> Draft {
    let mut draft = Draft::small(random);
    let mut words = built(&draft);
    match random.below(4) {
        0 => words.index.iter_mut().for_each(|word| *word = random.word()),
        1 => words.index.iter_mut().for_each(|word| {
            if random.one_in(5) {
                *word = random.below(5) as u16;
            }
        }),
        _ => {}
    }
    for stamp in &mut words.stamps {
        *stamp = if *stamp == 0 {
            random.pick(&[0, 0, 0, 1, 2, 4_294_967_295])
        } else {
            random.pick(&[1, 2, 3, 4, 4_294_967_295])
        };
    }
    words.revisions.iter_mut().for_each(|revision| *revision = some_revision(random));
    words.presence_stamps.iter_mut().for_each(|stamp| *stamp = random.pick(&[0, 0, 1, 2, 3, 4, 4_294_967_295]));
    words.presence_revisions.iter_mut().for_each(|revision| *revision = some_revision(random));
    words.presence = presence_of(random, draft.head.nodes());
    let Vectors { operators, rides, .. } = draft.words;
    draft.words = Vectors { operators, rides, ..words };
    draft
}

/// Does one of the damages that 1 to 6 speak of to a board that is lent to a message.
fn damage_board(random: &mut Random, draft: &mut Draft) {
    let which = random.below(DAMAGES + 1);
    if which < DAMAGES {
        return draft.damage(random, which);
    }
    let Vectors { operators, rides, stamps, .. } = &mut draft.words;
    if !operators.is_empty() && operators.iter().all(|operator| *operator < 200) {
        let place = random.below(operators.len());
        let at = draft.head.place(operators[place], rides[place]);
        if at < stamps.len() {
            stamps[at] = 0;
        }
    }
}

pub fn message_case(random: &mut Random) -> Call {
    let mut draft = found_board(random);
    let message = some_message(random, draft.head, 2);
    for _ in 0..faults(random) {
        damage_board(random, &mut draft);
    }
    Call::Message { head: draft.head, message, parts: draft.parts() }
}

pub fn messages_case(random: &mut Random) -> Call {
    let mut draft = found_board(random);
    let count = random.below(12);
    let messages: Vec<Message> = (0..count).map(|_| some_message(random, draft.head, 2)).collect();
    let mut answers_len = random.length(count);
    for _ in 0..faults(random) {
        if random.one_in(6) {
            answers_len = random.short(count);
        } else {
            damage_board(random, &mut draft);
        }
    }
    let answers = Part::filled(answers_len, random.word());
    Call::Messages { head: draft.head, messages, parts: draft.parts(), answers }
}
