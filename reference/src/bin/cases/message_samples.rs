//! Document 02's messages that were worked out by hand, each sample by message calls and by a list.

use crate::build::lengths_with;
use crate::damage::shorten_to;
use crate::draft::{sample_draft, whole_parts, Draft};
use crate::random::Random;
use crate::stream::Stream;
use reference::corrections::{Corrections, BESIDE_14, CORRECTIONS, SHORT_REVISIONS};
use reference::frames::{Call, Framed, Part};
use reference::presence::{self, Delivery, Last, BEFORE_15, BESIDE_15, BESIDE_6, DELIVERIES, NODES};
use reference::presence::{ONE_SIDED, OTHERS, SHORT_PRESENCE, TURNS, UNSTAMPED, WORDS_BESIDE_6};
use reference::samples::{Pair, BUILT, START};
use reference::{Head, Message, Vectors, OPERATOR_OFF, RIDE_OUT, WITHDRAWAL};

/// How messages are sent to a board that stays but for these parts. Gives their numbers.
type Sending = fn(&mut Random, &mut Stream, Head, Framed, &[Message]) -> Vec<u16>;

/// A board that stays, but for the stamp and the revision of a pair.
fn stored_parts(random: &mut Random, head: Head, corrections: &Corrections) -> Framed {
    let mut parts = whole_parts(random, head);
    let (place, (_, revision, stamp)) = (corrections.place(), corrections.stored);
    parts.stamps = Part::changed(parts.stamps.len, place, &[stamp]);
    parts.revisions = Part::changed(parts.revisions.len, place, &[revision]);
    parts
}

/// One after another, the first with these parts and the others with the board that it left.
fn sent(random: &mut Random, stream: &mut Stream, head: Head, parts: Framed, messages: &[Message]) -> Vec<u16> {
    let mut lent = (head, parts);
    let mut numbers = Vec::new();
    for message in messages {
        let (outcome, head) = stream.call(Call::Message { head: lent.0, message: *message, parts: lent.1 });
        numbers.push(outcome.numbers[0]);
        lent = (head, whole_parts(random, head));
    }
    numbers
}

/// By one list. Gives for each of them the number that refuses the list, where it is refused.
fn listed(random: &mut Random, stream: &mut Stream, head: Head, parts: Framed, messages: &[Message]) -> Vec<u16> {
    let count = messages.len();
    let answers = random.filled(count);
    let (outcome, _) = stream.call(Call::Messages { head, messages: messages.to_vec(), parts, answers });
    match outcome.numbers[0] {
        0 => stream.memory.answers[..count].to_vec(),
        code => vec![code; count],
    }
}

/// Document 02's corrections within one stamp, with what was worked out by hand.
pub fn sample_corrections(random: &mut Random, stream: &mut Stream) {
    let draft = sample_draft(random);
    for send in [sent as Sending, listed] {
        for corrections in CORRECTIONS {
            stream.call(draft.build(START));
            let parts = stored_parts(random, draft.head, corrections);
            let numbers = send(random, stream, draft.head, parts, &corrections.messages());
            let (place, parts) = (corrections.place(), &stream.memory.parts);
            let (_, revision, stamp) = corrections.left;
            assert_eq!(numbers, corrections.numbers());
            assert_eq!((parts.revisions[place], parts.stamps[place]), (revision, stamp));
        }
        for &(message, number) in BESIDE_14 {
            stream.call(draft.build(START));
            let parts = whole_parts(random, draft.head);
            assert_eq!(send(random, stream, draft.head, parts, &[message]), [number]);
        }
        for &(head, places, number) in SHORT_REVISIONS {
            stream.call(draft.build(START));
            let parts = Framed::kept(lengths_with(random, head, places));
            let message = Message { kind: WITHDRAWAL, operator: 1, ride: 0, revision: 0, stamp: 9 };
            assert_eq!(send(random, stream, head, parts, &[message]), [number]);
        }
    }
}

/// A board that stays, but for the last of each operator and ride.
fn parts_with_lasts(random: &mut Random, head: Head, lasts: &[Last]) -> Framed {
    let mut parts = whole_parts(random, head);
    let words: Vec<u16> = lasts.iter().map(|last| last.0).collect();
    let revisions: Vec<u16> = lasts.iter().map(|last| last.1).collect();
    let stamps: Vec<u32> = lasts.iter().map(|last| last.2).collect();
    parts.presence = Part::changed(parts.presence.len, 0, &words);
    parts.presence_revisions = Part::changed(parts.presence_revisions.len, 0, &revisions);
    parts.presence_stamps = Part::changed(parts.presence_stamps.len, 0, &stamps);
    parts
}

/// What a delivery leaves was worked out by hand.
fn is_left(stream: &Stream, delivery: &Delivery) {
    let Vectors { operators, rides, index, presence: words, .. } = &stream.memory.parts;
    let pairs: Vec<Pair> = operators[..12].iter().copied().zip(rides[..12].iter().copied()).collect();
    let listed = delivery.pairs.len();
    assert_eq!((&pairs[..listed], &pairs[listed..]), (delivery.pairs, &vec![(0, 0); 12 - listed][..]));
    assert_eq!(words[..7], delivery.left);
    assert_eq!(index[..21], presence::index(&delivery.rows));
}

/// Document 02's operators and rides that come and go, with what was worked out by hand: messages of the six kinds.
pub fn sample_turns(random: &mut Random, stream: &mut Stream) {
    let draft = sample_draft(random);
    for send in [sent as Sending, listed] {
        sample_sets(random, stream, &draft, send);
        sample_lasts(random, stream, &draft, send);
        sample_numbers(random, stream, &draft, send);
        sample_lengths(random, stream, &draft, send);
    }
}

/// Sets of messages: their numbers, and the board that they leave.
fn sample_sets(random: &mut Random, stream: &mut Stream, draft: &Draft, send: Sending) {
    for delivery in DELIVERIES {
        stream.call(draft.build(START));
        let mut parts = whole_parts(random, BUILT);
        parts.presence = Part::changed(parts.presence.len, 0, &delivery.came);
        assert_eq!(send(random, stream, BUILT, parts, &delivery.messages()), delivery.numbers());
        is_left(stream, delivery);
    }
}

/// Messages for one operator or ride, beside its last.
fn sample_lasts(random: &mut Random, stream: &mut Stream, draft: &Draft, send: Sending) {
    for (turns, node) in TURNS.iter().flat_map(|turns| NODES.iter().map(move |node| (turns, node))) {
        stream.call(draft.build(START));
        let (mut lasts, place) = ([OTHERS; 7], node.place);
        lasts[place] = turns.stored;
        let parts = parts_with_lasts(random, BUILT, &lasts);
        assert_eq!(send(random, stream, BUILT, parts, &turns.messages(node)), turns.numbers());
        let Vectors { presence, presence_revisions, presence_stamps, .. } = &stream.memory.parts;
        assert_eq!((presence[place], presence_revisions[place], presence_stamps[place]), turns.left);
    }
}

/// Messages that 15 and 6 are given for, or other numbers beside them.
fn sample_numbers(random: &mut Random, stream: &mut Stream, draft: &Draft, send: Sending) {
    for &(message, number) in BESIDE_15 {
        stream.call(draft.build(START));
        let parts = parts_with_lasts(random, BUILT, &[BEFORE_15; 7]);
        assert_eq!(send(random, stream, BUILT, parts, &[message]), [number]);
    }
    for (words, message) in WORDS_BESIDE_6.iter().flat_map(|words| BESIDE_6.iter().map(move |one| (words, one))) {
        stream.call(draft.build(START));
        let mut parts = whole_parts(random, BUILT);
        parts.presence = Part::changed(parts.presence.len, 0, words);
        parts.stamps = Part::changed(parts.stamps.len, BUILT.place(UNSTAMPED.0, UNSTAMPED.1), &[0]);
        assert_eq!(send(random, stream, BUILT, parts, &[*message]), [6]);
    }
}

/// Messages for boards with no operator or no ride, and parts of presence that are too short.
fn sample_lengths(random: &mut Random, stream: &mut Stream, draft: &Draft, send: Sending) {
    for &(head, message, number) in ONE_SIDED {
        let draft = Draft::new(random, head.operators, head.rides, &[]);
        stream.call(draft.build(START));
        let parts = whole_parts(random, head);
        assert_eq!(send(random, stream, head, parts, &[message]), [number]);
    }
    for (&(head, places, number), part) in SHORT_PRESENCE.iter().flat_map(|short| (0..3).map(move |i| (short, i))) {
        stream.call(draft.build(START));
        let mut lengths = random.lengths(head);
        shorten_to(&mut lengths, part, places);
        let kind = random.pick(&[WITHDRAWAL, OPERATOR_OFF, RIDE_OUT]);
        let message = Message { kind, operator: 0, ride: 0, revision: 0, stamp: 9 };
        assert_eq!(send(random, stream, head, Framed::kept(lengths), &[message]), [number]);
    }
}
