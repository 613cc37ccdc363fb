//! Random sequences of calls, with damaged input among them, deliveries of the same messages in several orders, look-ups
//! and crowd covers, own covers, and covers under lists of limits.

mod covers;
mod crowd;
mod own;

pub use covers::covers;
pub use crowd::crowd;
pub use own::own;

use crate::compared::{Compared, Lent, LIST_MOST, MARKS_MOST, MOST};
use crate::numbers::Numbers;
use differential::Library;
use reference::{Head, Lengths, Message, Vectors};
use reference::{GRANT, OPERATOR_OFF, OPERATOR_ON, PRESENT, RIDE_IN, RIDE_OUT, WITHDRAWAL};
use std::collections::BTreeMap;

const START: u32 = 100;

/// The sizes of a board.
#[derive(Clone, Copy)]
pub enum Size {
    Small,
    Middle,
    Large,
}

impl Size {
    fn numbers(self, numbers: &mut Numbers) -> (u16, u16) {
        match self {
            Size::Small => (numbers.below(9) as u16, numbers.below(7) as u16),
            Size::Middle => (numbers.below(40) as u16, numbers.below(20) as u16),
            Size::Large => match numbers.below(4) {
                0 => (200, 1 + numbers.below(60) as u16),
                1 => (1 + numbers.below(200) as u16, 60),
                _ => (200, 60),
            },
        }
    }

    fn calls(self) -> usize {
        match self {
            Size::Small => 40,
            Size::Middle => 20,
            Size::Large => 8,
        }
    }

    fn messages(self) -> usize {
        match self {
            Size::Small => 30,
            Size::Middle => 12,
            Size::Large => 4,
        }
    }
}

/// A pair table: evenly spread, or denser toward higher numbers, so that levels differ.
fn table(numbers: &mut Numbers, n: u16, m: u16) -> Vec<(u16, u16)> {
    let density = numbers.of(&[0, 5, 20, 50, 80, 100]);
    let graded = numbers.one_in(2);
    let mut pairs = Vec::new();
    for operator in 0..n {
        for ride in 0..m {
            let share = if graded {
                2 * density * (operator as usize * m as usize + n as usize * ride as usize)
                    / (2 * n as usize * m as usize)
            } else {
                density
            };
            if numbers.below(100) < share {
                pairs.push((operator, ride));
            }
        }
    }
    pairs
}

/// A length that is the one needed, or a little longer.
fn length(numbers: &mut Numbers, needed: usize) -> usize {
    needed + numbers.of(&[0, 0, 0, 1, 2, 5])
}

/// Parts of any content.
fn parts(numbers: &mut Numbers, lengths: Lengths) -> Vectors {
    Vectors {
        operators: (0..lengths.operators).map(|_| numbers.word()).collect(),
        rides: (0..lengths.rides).map(|_| numbers.word()).collect(),
        stamps: (0..lengths.stamps).map(|_| numbers.next() as u32).collect(),
        revisions: (0..lengths.revisions).map(|_| numbers.word()).collect(),
        index: (0..lengths.index).map(|_| numbers.word()).collect(),
        presence_stamps: (0..lengths.presence_stamps).map(|_| numbers.next() as u32).collect(),
        presence_revisions: (0..lengths.presence_revisions).map(|_| numbers.word()).collect(),
        presence: presence(numbers, lengths.presence),
    }
}

/// Words of presence: everybody on and in, most, or few. Every word but 1 is off or out.
fn presence(numbers: &mut Numbers, nodes: usize) -> Vec<u16> {
    let share = numbers.of(&[0, 10, 10, 30, 80, 100]);
    let words = [0, 0, 2, 7, 256, 257, 65535];
    (0..nodes).map(|_| if numbers.below(100) < share { numbers.of(&words) } else { PRESENT }).collect()
}

/// Memory of any content for a board, with its pairs in place: as long as needed, or a little longer.
fn lent(numbers: &mut Numbers, n: u16, m: u16, pairs: &[(u16, u16)]) -> Lent {
    let head = Head { operators: n, rides: m, pairs: pairs.len() as u16 };
    let lengths = head.lengths().map_all(|needed| length(numbers, needed));
    let mut parts = parts(numbers, lengths);
    for (place, pair) in pairs.iter().enumerate() {
        (parts.operators[place], parts.rides[place]) = *pair;
    }
    Lent { head, parts }
}

/// Cuts a part short, or makes it longer.
fn resize<T: Clone + Default>(numbers: &mut Numbers, part: &mut Vec<T>, most: usize) {
    let length = match numbers.below(4) {
        0 => part.len().saturating_sub(1),
        1 => numbers.below(part.len() + 1),
        2 => 0,
        _ => (part.len() + 1 + numbers.below(7)).min(most),
    };
    part.resize(length, T::default());
}

/// How many parts a board has.
const PARTS: usize = 8;

/// Cuts one of the parts short, or makes it longer.
fn resize_part(numbers: &mut Numbers, parts: &mut Vectors, part: usize) {
    match part {
        0 => resize(numbers, &mut parts.operators, MOST.operators),
        1 => resize(numbers, &mut parts.rides, MOST.rides),
        2 => resize(numbers, &mut parts.stamps, MOST.stamps),
        3 => resize(numbers, &mut parts.revisions, MOST.revisions),
        4 => resize(numbers, &mut parts.index, MOST.index),
        5 => resize(numbers, &mut parts.presence_stamps, MOST.presence_stamps),
        6 => resize(numbers, &mut parts.presence_revisions, MOST.presence_revisions),
        _ => resize(numbers, &mut parts.presence, MOST.presence),
    }
}

/// Cuts one of the parts that needs places to one place less.
fn shorten_part(head: Head, parts: &mut Vectors, part: usize) {
    let places = head.lengths().list()[part] - 1;
    match part {
        0 => parts.operators.truncate(places),
        1 => parts.rides.truncate(places),
        2 => parts.stamps.truncate(places),
        3 => parts.revisions.truncate(places),
        4 => parts.index.truncate(places),
        5 => parts.presence_stamps.truncate(places),
        6 => parts.presence_revisions.truncate(places),
        _ => parts.presence.truncate(places),
    }
}

/// Changes a word of a part.
fn spoil(numbers: &mut Numbers, part: &mut [u16], word: u16) {
    if !part.is_empty() {
        part[numbers.below(part.len())] = word;
    }
}

/// Gives operators and rides other stamps, revisions and words.
fn change_lasts(numbers: &mut Numbers, parts: &mut Vectors) {
    let stamps = [0, 1, START, START + 9, START + 20, u32::MAX];
    parts.presence_stamps.iter_mut().for_each(|stamp| *stamp = numbers.of(&stamps));
    parts.presence_revisions.iter_mut().for_each(|word| *word = revision(numbers));
    parts.presence = presence(numbers, parts.presence.len());
}

/// Damages one thing of a board.
fn damage(numbers: &mut Numbers, lent: &mut Lent) {
    let (head, parts) = (lent.head, &mut lent.parts);
    let pairs = head.pairs as usize;
    match numbers.below(20) {
        0 => {
            lent.head.operators =
                numbers.of(&[201, 65535, head.operators.saturating_add(1), head.operators.saturating_sub(1)])
        }
        1 => lent.head.rides = numbers.of(&[61, 65535, head.rides.saturating_add(1), head.rides.saturating_sub(1)]),
        2 => {
            let over = (head.places() + 1).min(65535) as u16;
            lent.head.pairs = numbers.of(&[over, 65535, head.pairs.saturating_add(1), head.pairs.saturating_sub(1)])
        }
        3..=7 => {
            let part = numbers.below(PARTS);
            resize_part(numbers, parts, part);
        }
        8 => {
            let word = numbers.of(&[0, head.operators, head.operators.saturating_sub(1), 65535]);
            let used = pairs.min(parts.operators.len());
            spoil(numbers, &mut parts.operators[..used], word);
        }
        9 => {
            let word = numbers.of(&[0, head.rides, head.rides.saturating_sub(1), 65535]);
            let used = pairs.min(parts.rides.len());
            spoil(numbers, &mut parts.rides[..used], word);
        }
        10 if 2 <= pairs && pairs <= parts.operators.len().min(parts.rides.len()) => {
            let place = numbers.below(pairs - 1);
            parts.operators.swap(place, place + 1);
            parts.rides.swap(place, place + 1);
        }
        11 if !parts.stamps.is_empty() => {
            let place = numbers.below(parts.stamps.len());
            parts.stamps[place] = numbers.of(&[0, 1, START, u32::MAX]);
        }
        12 => parts.stamps.iter_mut().for_each(|stamp| *stamp = 0),
        13 => parts.revisions.iter_mut().for_each(|word| *word = revision(numbers)),
        14 => parts.presence_revisions.iter_mut().for_each(|word| *word = revision(numbers)),
        15 => parts.presence = presence(numbers, parts.presence.len()),
        16 => change_lasts(numbers, parts),
        17 => {
            let word = numbers.word();
            spoil(numbers, &mut parts.index, word);
        }
        _ => {
            // Words past the pair count, which no call reads.
            let words = [numbers.word(), numbers.word()];
            let (from, to) = (pairs.min(parts.operators.len()), pairs.min(parts.rides.len()));
            spoil(numbers, &mut parts.operators[from..], words[0]);
            spoil(numbers, &mut parts.rides[to..], words[1]);
        }
    }
}

/// A limit: one in four is 0; around a size, or any.
fn limit(numbers: &mut Numbers, size: u16) -> u16 {
    match numbers.below(12) {
        0..=2 => 0,
        3 => numbers.word(),
        4 => size.saturating_add(1),
        _ => 1 + numbers.below((size as usize + 1).min(65535)) as u16,
    }
}

/// A small limit, so that a cover is often neither empty nor everybody.
fn limits(numbers: &mut Numbers, head: Head) -> (u16, u16) {
    let degree = |other: u16, size: u16| (head.pairs / size.max(1)).min(other);
    let alpha = if numbers.one_in(3) { head.rides } else { degree(head.rides, head.operators) };
    let beta = if numbers.one_in(3) { head.operators } else { degree(head.operators, head.rides) };
    (limit(numbers, alpha), limit(numbers, beta))
}

/// Marks: all ones, or any, seldom with a word that is no mark.
fn marks(numbers: &mut Numbers, head: Head) -> Vec<u16> {
    let extra = numbers.of(&[0, 0, 1, 3]);
    let mut marks: Vec<u16> = match numbers.below(3) {
        0 => vec![1; head.nodes() + extra],
        _ => (0..head.nodes() + extra).map(|_| !numbers.one_in(5) as u16).collect(),
    };
    if numbers.one_in(8) {
        let word = numbers.of(&[2, 65535]);
        spoil(numbers, &mut marks, word);
    }
    if numbers.one_in(10) {
        resize(numbers, &mut marks, MARKS_MOST);
    }
    marks.truncate(MARKS_MOST);
    marks
}

/// Marks of any content, as many as needed or a few more.
fn any_marks(numbers: &mut Numbers, needed: usize) -> Vec<u16> {
    let words = [0, 1, 1, 2, 65535, numbers.word()];
    (0..length(numbers, needed)).map(|_| numbers.of(&words)).collect()
}

/// The same for a cover on a board, now and then of another length.
fn cover_marks(numbers: &mut Numbers, head: Head) -> Vec<u16> {
    let mut marks = any_marks(numbers, head.nodes());
    if numbers.one_in(10) {
        resize(numbers, &mut marks, MARKS_MOST);
    }
    marks.truncate(MARKS_MOST);
    marks
}

/// A revision: mostly a small one, so that many are equal; some are near 255, or far above it.
fn revision(numbers: &mut Numbers) -> u16 {
    match numbers.below(20) {
        0 => numbers.of(&[254, 255, 256, 257]),
        1 => numbers.of(&[300, 65535]),
        _ => numbers.below(4) as u16,
    }
}

/// The stamp and the revision that a board has of a message's pair, operator or ride. Those of a build's grant where
/// there is no such place, or nothing was heard of it.
fn last(lent: &Lent, kind: u16, operator: u16, ride: u16) -> (u32, u16) {
    let Lent { head, parts } = lent;
    let (place, node) = (head.place(operator, ride), head.ride_node(ride));
    let last = match kind {
        OPERATOR_ON | OPERATOR_OFF => {
            (parts.presence_stamps.get(operator as usize), parts.presence_revisions.get(operator as usize))
        }
        RIDE_IN | RIDE_OUT => (parts.presence_stamps.get(node), parts.presence_revisions.get(node)),
        _ => (parts.stamps.get(place), parts.revisions.get(place)),
    };
    match last {
        (Some(&stamp), Some(&revision)) if stamp != 0 => (stamp, revision),
        _ => (START, 0),
    }
}

/// A message, mostly valid, in three of five cases for a pair. Its stamp is often that of its pair's, operator's or
/// ride's last or near those of others, and so is its revision; in one of six both are those of the last.
fn message(numbers: &mut Numbers, lent: &Lent) -> Message {
    let number = |numbers: &mut Numbers, size: u16| match numbers.below(30) {
        0 => size,
        1 => numbers.word(),
        _ => numbers.below(size.max(1) as usize) as u16,
    };
    let unused = |numbers: &mut Numbers| match numbers.below(40) {
        0 => numbers.word(),
        1 => 1,
        2 => 200,
        _ => 0,
    };
    let kind = if numbers.one_in(25) { numbers.of(&[0, 7, 260, 65535]) } else { numbers.of(&KINDS) };
    let operator =
        if matches!(kind, RIDE_IN | RIDE_OUT) { unused(numbers) } else { number(numbers, lent.head.operators) };
    let ride =
        if matches!(kind, OPERATOR_ON | OPERATOR_OFF) { unused(numbers) } else { number(numbers, lent.head.rides) };
    let last = last(lent, kind, operator, ride);
    let revision = match numbers.below(6) {
        0 => last.1,
        1 if last.1 > 255 => last.1 % 256 + 1,
        1 => last.1 + 1,
        _ => revision(numbers),
    };
    let stamp = match numbers.below(30) {
        0 => 0,
        1 => u32::MAX,
        2 => numbers.next() as u32,
        3..=11 => last.0,
        _ => START - 3 + numbers.below(40) as u32,
    };
    let (stamp, revision) = if numbers.one_in(6) { last } else { (stamp, revision) };
    Message { kind, operator, ride, revision, stamp }
}

/// The kinds of a message, those of a pair three times.
const KINDS: [u16; 10] =
    [GRANT, GRANT, GRANT, WITHDRAWAL, WITHDRAWAL, WITHDRAWAL, OPERATOR_ON, OPERATOR_OFF, RIDE_IN, RIDE_OUT];

/// One of the two kinds for the same pair, operator or ride.
fn like_kind(numbers: &mut Numbers, kind: u16) -> u16 {
    match kind {
        GRANT | WITHDRAWAL => numbers.of(&[GRANT, WITHDRAWAL]),
        OPERATOR_ON | OPERATOR_OFF => numbers.of(&[OPERATOR_ON, OPERATOR_OFF]),
        RIDE_IN | RIDE_OUT => numbers.of(&[RIDE_IN, RIDE_OUT]),
        _ => kind,
    }
}

/// A head of any content, often one that a board can't have.
fn any_head(numbers: &mut Numbers) -> Head {
    let words = [0, 1, 200, 201, 65535, numbers.word()];
    Head { operators: numbers.of(&words), rides: numbers.of(&words), pairs: numbers.of(&words) }
}

/// Spare memory of any content for a board, its head too: as long as needed, a little longer, or with a part of another
/// length.
fn spare(numbers: &mut Numbers, board: Head) -> Lent {
    let lengths = board.lengths().zip(MOST).map_all(|(needed, most)| length(numbers, needed).min(most));
    let mut parts = parts(numbers, lengths);
    if numbers.one_in(4) {
        let part = numbers.below(PARTS);
        resize_part(numbers, &mut parts, part);
    }
    let head = if numbers.one_in(4) { board } else { any_head(numbers) };
    Lent { head, parts }
}

/// A preview. Where it isn't refused, its message is sent to the board now and then, or the spare memory takes the board's
/// place.
fn preview<B: Library>(compared: &mut Compared<B>, numbers: &mut Numbers, board: &mut Lent) {
    let one = message(numbers, board);
    let mut spare = spare(numbers, board.head);
    let answer = compared.preview(board, one, &mut spare);
    if answer.code != 0 {
        return;
    }
    match numbers.below(4) {
        0..=1 => {
            let sent = compared.message(board, one);
            compared.totals.same_as_sent((answer, &spare), (sent, board));
        }
        2 => {
            *board = spare;
            compared.totals.exchanged += 1;
        }
        _ => {}
    }
}

/// A board for a query, a peel or a cover, one in three times with other words of presence than it has.
fn asked(numbers: &mut Numbers, board: &Lent) -> Lent {
    let mut asked = board.clone();
    if numbers.one_in(3) {
        asked.parts.presence = presence(numbers, board.parts.presence.len());
    }
    asked
}

/// A peel from any marks, with any minimums and any number of allowed steps.
fn peel<B: Library>(compared: &mut Compared<B>, numbers: &mut Numbers, board: &Lent) {
    let (alpha, beta) = limits(numbers, board.head);
    let minimums = own::minimums(numbers, board.head, beta);
    let mut marks = marks(numbers, board.head);
    let steps = match numbers.below(4) {
        0 => 65535,
        1 => numbers.below(4) as u16,
        _ => numbers.below(board.head.nodes() + 1) as u16,
    };
    compared.peel(&asked(numbers, board), &minimums, &mut marks, alpha, beta, steps);
}

/// A board that is built, and then queried, peeled, sent messages and previewed; some calls are given damaged input. In
/// half of the sequences operators and rides get other stamps, revisions and words now and then.
pub fn sequence<B: Library>(compared: &mut Compared<B>, numbers: &mut Numbers, size: Size) {
    let (n, m) = size.numbers(numbers);
    let pairs = table(numbers, n, m);
    let mut board = lent(numbers, n, m, &pairs);
    let start = if numbers.one_in(20) { 0 } else { START };
    if numbers.one_in(2) {
        let mut damaged = board.clone();
        damage(numbers, &mut damaged);
        compared.build(&mut damaged, start);
    }
    compared.build(&mut board, start);
    let has_other_lasts = numbers.one_in(2);
    for _ in 0..size.calls() {
        if has_other_lasts && numbers.one_in(6) {
            change_lasts(numbers, &mut board.parts);
        }
        let kept = board.clone();
        let damaged = numbers.one_in(4);
        if damaged {
            damage(numbers, &mut board);
        }
        match numbers.below(10) {
            0 if damaged => {
                compared.build(&mut board, START);
            }
            0..=2 => {
                let (alpha, beta) = limits(numbers, board.head);
                let mut marks = marks(numbers, board.head);
                compared.query(&asked(numbers, &board), alpha, beta, &mut marks);
            }
            3..=4 => peel(compared, numbers, &board),
            5..=6 => {
                let one = message(numbers, &board);
                compared.message(&mut board, one);
            }
            7..=8 => preview(compared, numbers, &mut board),
            _ => {
                let count = numbers.below(size.messages() + 1);
                let list: Vec<Message> = (0..count).map(|_| message(numbers, &board)).collect();
                let mut answers = vec![77; count + numbers.of(&[0, 0, 1, 4])];
                if numbers.one_in(8) {
                    resize(numbers, &mut answers, LIST_MOST);
                }
                compared.messages(&mut board, &list, &mut answers);
            }
        }
        if damaged && !numbers.one_in(4) {
            board = kept;
        }
    }
}

/// Gives messages to a board in this order, by message calls and message lists, now and then by a call that is lent too
/// short a part.
fn deliver<B: Library>(compared: &mut Compared<B>, numbers: &mut Numbers, board: &mut Lent, messages: &[Message]) {
    let mut rest = messages;
    while !rest.is_empty() {
        let count = 1 + numbers.below(rest.len().min(6));
        let (first, others) = rest.split_at(count);
        let part = numbers.below(PARTS);
        if numbers.one_in(6) && 0 < board.head.lengths().list()[part] {
            let whole = board.parts.clone();
            shorten_part(board.head, &mut board.parts, part);
            compared.message(board, first[0]);
            board.parts = whole;
        }
        if numbers.one_in(2) {
            for one in first {
                compared.message(board, *one);
            }
        } else {
            compared.messages(board, first, &mut vec![77; count]);
        }
        rest = others;
    }
}

/// Messages for a board, some of them corrections of others within one stamp.
fn some_messages(numbers: &mut Numbers, lent: &Lent, count: usize) -> Vec<Message> {
    let mut messages: Vec<Message> = (0..count).map(|_| message(numbers, lent)).collect();
    for _ in 0..numbers.below(count) {
        let corrected = messages[numbers.below(count)];
        messages.push(Message { kind: like_kind(numbers, corrected.kind), revision: revision(numbers), ..corrected });
    }
    messages
}

/// What an entry of the book is for.
#[derive(Clone, Copy, PartialEq, Eq, PartialOrd, Ord)]
enum Subject {
    Pair(u16, u16),
    Operator(u16),
    Ride(u16),
}

/// The book: for each pair, operator and ride that has an entry the stamp, the revision and the kind of its latest.
type Book = BTreeMap<Subject, (u32, u16, u16)>;

/// What a message is entered for, where it is valid.
fn subject(head: Head, one: Message) -> Option<Subject> {
    let Message { kind, operator, ride, revision, stamp } = one;
    let (subject, is_in_range, unused) = match kind {
        GRANT | WITHDRAWAL => (Subject::Pair(operator, ride), operator < head.operators && ride < head.rides, 0),
        OPERATOR_ON | OPERATOR_OFF => (Subject::Operator(operator), operator < head.operators, ride),
        RIDE_IN | RIDE_OUT => (Subject::Ride(ride), ride < head.rides, operator),
        _ => return None,
    };
    Some(subject).filter(|_| is_in_range && stamp != 0 && revision <= 255 && unused == 0)
}

fn book(head: Head, pairs: &[(u16, u16)], messages: &[Message]) -> Book {
    let grants = pairs.iter().map(|&(operator, ride)| (Subject::Pair(operator, ride), (START, 0, GRANT)));
    let mut latest: Book = grants.collect();
    for one in messages {
        if let Some(subject) = subject(head, *one) {
            let entry = latest.entry(subject).or_default();
            *entry = (one.stamp, one.revision, one.kind).max(*entry);
        }
    }
    latest
}

/// Whether an operator or ride is on or in: it has no entry, or its latest is of kind 3 or 5.
fn is_present(book: &Book, node: Subject) -> bool {
    book.get(&node).is_none_or(|latest| matches!(latest.2, OPERATOR_ON | RIDE_IN))
}

/// The pair arrays of these pairs, and all that a build leaves with them, in memory that another build left.
fn built_of(built: &Lent, pairs: &[(u16, u16)]) -> Lent {
    let Lent { mut head, mut parts } = built.clone();
    head.pairs = pairs.len() as u16;
    for (place, pair) in pairs.iter().enumerate() {
        (parts.operators[place], parts.rides[place]) = *pair;
    }
    reference::build(head, &mut parts.lend(), START);
    Lent { head, parts }
}

/// The board that is worked out from a book, in memory that a build left. The index is that of a build of the pairs
/// that count, and of no others.
fn worked_out(built: &Lent, book: &Book) -> Lent {
    let listed = book.iter().filter(|(_, latest)| latest.2 == GRANT);
    let listed: Vec<(u16, u16)> = listed
        .filter_map(|(subject, _)| match *subject {
            Subject::Pair(operator, ride) => Some((operator, ride)),
            _ => None,
        })
        .collect();
    let counts =
        |pair: &&(u16, u16)| is_present(book, Subject::Operator(pair.0)) && is_present(book, Subject::Ride(pair.1));
    let counting: Vec<(u16, u16)> = listed.iter().filter(counts).copied().collect();
    let Lent { head, mut parts } = built_of(built, &listed);
    parts.index = built_of(built, &counting).parts.index;
    parts.stamps[..head.places()].fill(0);
    for (subject, &(stamp, revision, _)) in book {
        let node = match *subject {
            Subject::Pair(operator, ride) => {
                let place = head.place(operator, ride);
                (parts.stamps[place], parts.revisions[place]) = (stamp, revision);
                continue;
            }
            Subject::Operator(operator) => operator as usize,
            Subject::Ride(ride) => head.ride_node(ride),
        };
        (parts.presence_stamps[node], parts.presence_revisions[node]) = (stamp, revision);
        parts.presence[node] = is_present(book, *subject) as u16;
    }
    Lent { head, parts }
}

/// Demand 3 on the library itself: the same messages in three orders, one the reverse of another and one with repeats,
/// leave the same board, the one that is worked out from the latest message of each pair, operator and ride. Its index is
/// its own, so that crowd covers and own covers on it are those of queries where all rides have one limit.
pub fn delivery<B: Library>(compared: &mut Compared<B>, numbers: &mut Numbers, size: Size) {
    let (n, m) = size.numbers(numbers);
    let pairs = table(numbers, n, m);
    let mut built = lent(numbers, n, m, &pairs);
    if compared.build(&mut built, START) != 0 {
        return;
    }
    let count = 2 + numbers.below(2 * size.messages());
    let mut messages = some_messages(numbers, &built, count);
    let expected = worked_out(&built, &book(built.head, &pairs, &messages));

    for order in 0..3 {
        let mut board = built.clone();
        match order {
            0 => numbers.shuffle(&mut messages),
            1 => messages.reverse(),
            _ => {
                let again = numbers.below(count);
                messages.extend_from_within(..again);
                numbers.shuffle(&mut messages);
            }
        }
        deliver(compared, numbers, &mut board, &messages);
        if board != expected {
            compared.totals.differ("the board is not the one worked out from the latest messages");
        }
    }
    compared.totals.deliveries += 1;
    crowd::queried(compared, numbers, &expected);
    own::queried(compared, numbers, &expected);
}
