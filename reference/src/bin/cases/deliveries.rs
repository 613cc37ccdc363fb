//! Messages that are delivered to a board, cut into message calls and lists at random.

use crate::draft::{sample_draft, some_limits, whole_parts, Draft};
use crate::large::large_tables;
use crate::messages::{like_kind, some_message, some_revision};
use crate::minimums::some_minimums;
use crate::peel::{all_ones, kept_peel};
use crate::query::kept_query;
use crate::random::Random;
use crate::stream::{board_words, Stream};
use reference::frames::{Call, Framed, Part};
use reference::{Head, Message, GRANT, WITHDRAWAL};
use std::collections::BTreeSet;

/// One of the parts is lent too short.
fn short_parts(random: &mut Random, head: Head) -> Framed {
    let mut parts = whole_parts(random, head);
    match random.below(8) {
        0 => parts.operators.len = random.short(head.places()),
        1 => parts.rides.len = random.short(head.places()),
        2 => parts.stamps.len = random.short(head.places()),
        3 => parts.revisions.len = random.short(head.places()),
        4 => parts.index.len = random.short(head.words()),
        5 => parts.presence_stamps.len = random.short(head.nodes()),
        6 => parts.presence_revisions.len = random.short(head.nodes()),
        _ => parts.presence.len = random.short(head.nodes()),
    }
    parts
}

/// Some words of the index are other than they were.
fn changed_parts(random: &mut Random, head: Head) -> Framed {
    let mut parts = whole_parts(random, head);
    let count = 1 + random.below(head.words());
    let words: Vec<u16> = (0..count.min(20)).map(|_| random.below(4) as u16).collect();
    parts.index = Part::changed(parts.index.len, random.below(head.words()), &words);
    parts
}

/// What may happen between two deliveries.
#[derive(Clone, Copy, PartialEq)]
enum Between {
    Nothing,
    /// Calls lent too short a part, queries and peels.
    Harmless,
    /// Also words of the index that change.
    IndexChanges,
}

/// Delivers messages in the order given to the board that a build left, cut into calls at random. Gives the head that
/// they leave.
fn deliver(
    random: &mut Random,
    stream: &mut Stream,
    built: Head,
    messages: &[Message],
    most: usize,
    between: Between,
) -> Head {
    let mut head = built;
    let mut rest = messages;
    while !rest.is_empty() {
        if between != Between::Nothing && random.one_in(6) {
            interrupt(random, stream, head, rest);
        }
        let changes = between == Between::IndexChanges && random.one_in(3);
        let parts = if changes { changed_parts(random, head) } else { whole_parts(random, head) };
        if random.one_in(3) {
            head = stream.call(Call::Message { head, message: rest[0], parts }).1;
            rest = &rest[1..];
        } else {
            let count = random.below(rest.len().min(most) + 1);
            let answers = random.filled(count);
            head = stream.call(Call::Messages { head, messages: rest[..count].to_vec(), parts, answers }).1;
            rest = &rest[count..];
        }
    }
    head
}

/// A call that leaves the board: one that is lent too little, a query or a peel.
fn interrupt(random: &mut Random, stream: &mut Stream, head: Head, rest: &[Message]) {
    let count = rest.len().min(4);
    let messages = rest[..count].to_vec();
    let parts = short_parts(random, head);
    let (alpha, beta) = some_limits(random, head);
    let call = match random.below(5) {
        0 => Call::Message { head, message: rest[0], parts },
        1 => {
            let answers = random.filled(count);
            Call::Messages { head, messages, parts, answers }
        }
        2 => {
            let answers = Part::filled(random.short(count), random.word());
            Call::Messages { head, messages, parts: whole_parts(random, head), answers }
        }
        3 => kept_query(random, head, (alpha, beta)),
        _ => {
            let minimums = some_minimums(&mut random.others(), head, beta, false);
            let marks = all_ones(random, head);
            kept_peel(random, head, (alpha, beta), 65_535, minimums, marks)
        }
    };
    stream.call(call);
}

/// A small board and its messages, with corrections within one stamp and repeats.
pub fn delivery_case(random: &mut Random, stream: &mut Stream) {
    let operators = 1 + random.below(6) as u16;
    let rides = 1 + random.below(5) as u16;
    let listed = random.below(6);
    let pairs = random.table(operators, rides, listed, 6);
    let draft = Draft::new(random, operators, rides, &pairs);
    let start = random.pick(&[1, 2, 4, 5, 5, 5, 4_294_967_295]);
    let count = 4 + random.below(24);
    let mut messages: Vec<Message> = (0..count).map(|_| some_message(random, draft.head, start)).collect();
    for _ in 0..random.below(8) {
        let corrected = messages[random.below(count)];
        let (kind, revision) = (like_kind(random, corrected.kind), some_revision(random));
        messages.push(Message { kind, revision, ..corrected });
    }
    for _ in 0..random.below(8) {
        messages.push(messages[random.below(messages.len())]);
    }
    let mut left = BTreeSet::new();
    for between in [random.pick(&[Between::Nothing, Between::Harmless]), Between::Harmless] {
        random.shuffle(&mut messages);
        stream.call(draft.build(start));
        let head = deliver(random, stream, draft.head, &messages, 64, between);
        left.insert(format!("{:?}", (head, board_words(&stream.memory, head))));
    }
    assert_eq!(left.len(), 1, "two orders of delivery leave one board");
    if random.one_in(4) {
        random.shuffle(&mut messages);
        stream.call(draft.build(start));
        deliver(random, stream, draft.head, &messages, 64, Between::IndexChanges);
    }
}

/// Document 01's messages.
pub fn sample_deliveries(random: &mut Random, stream: &mut Stream) {
    let draft = sample_draft(random);
    let message = |kind, operator, ride, stamp| Message { kind, operator, ride, revision: 0, stamp };
    stream.call(draft.build(1));
    deliver(random, stream, draft.head, &[message(GRANT, 3, 1, 2)], 1, Between::Nothing);
    let at_five = [message(GRANT, 0, 0, 5), message(WITHDRAWAL, 0, 0, 5), message(GRANT, 0, 0, 6)];
    for _ in 0..3 {
        stream.call(draft.build(5));
        deliver(random, stream, draft.head, &at_five, 3, Between::Nothing);
    }
    let never_granted = [message(WITHDRAWAL, 3, 0, 9), message(GRANT, 3, 0, 9), message(GRANT, 3, 0, 8)];
    stream.call(draft.build(5));
    deliver(random, stream, draft.head, &never_granted, 2, Between::Nothing);
}

/// Messages for large boards, some of them for listed pairs, with words of the index that change in between.
pub fn large_deliveries(random: &mut Random, stream: &mut Stream) {
    for (operators, rides, pairs) in large_tables(random) {
        let draft = Draft::new(random, operators, rides, &pairs);
        stream.call(draft.build(5));
        let mut messages: Vec<Message> = (0..8).map(|_| some_message(random, draft.head, 5)).collect();
        for _ in 0..3 {
            let (operator, ride) = if pairs.is_empty() { (199, 59) } else { random.pick(&pairs) };
            let (revision, stamp) = (some_revision(random), 5 + random.below(3) as u32);
            messages.push(Message { kind: WITHDRAWAL, operator, ride, revision, stamp });
        }
        messages.push(messages[random.below(8)]);
        random.shuffle(&mut messages);
        deliver(random, stream, draft.head, &messages, 6, Between::IndexChanges);
    }
}
