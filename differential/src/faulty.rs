//! The reference with one of the faults of `faults.rs`.

mod covers;
mod crowd;
mod found;
mod own;

use crate::faults::{Fault, Reading};
use crate::faults::{INDEX, OPERATORS, PRESENCE, PRESENCE_REVISIONS, PRESENCE_STAMPS, REVISIONS, RIDES, STAMPS};
use crowd::Crowd;
use differential::guarded::PAGE;
use differential::Library;
use found::Lent;
use own::Asked;
use reference::crowd::{Bands, CrowdLimits};
use reference::frames::{Board, Reference};
use reference::{Answer, Counts, Head, Lengths, Message, Parts, Peeled, Slices, Vectors, Views};
use reference::{GRANT, OPERATOR_OFF, OPERATOR_ON, PRESENT, RIDE_IN, RIDE_OUT, WITHDRAWAL};

/// The number of each part.
const NUMBERS: Lengths = Parts {
    operators: OPERATORS,
    rides: RIDES,
    stamps: STAMPS,
    revisions: REVISIONS,
    index: INDEX,
    presence_stamps: PRESENCE_STAMPS,
    presence_revisions: PRESENCE_REVISIONS,
    presence: PRESENCE,
};

impl Reading {
    /// Words that are rightly read as these are read here.
    fn read(self, head: Head, words: &[u16]) -> Vec<u16> {
        let is_present = |(node, word): (usize, &u16)| match self {
            Reading::OffIsOn => *word == PRESENT || node < head.operators as usize,
            Reading::OutIsIn => *word == PRESENT || node >= head.operators as usize,
            Reading::NotZero => *word != 0,
            Reading::LowByte => *word % 256 == PRESENT,
        };
        words.iter().enumerate().map(is_present).map(u16::from).collect()
    }
}

/// Changes the last word of a part.
fn spoil(part: &mut [u16]) {
    if let Some(word) = part.last_mut() {
        *word ^= 1;
    }
}

/// Gives one of the parts the words that it had before.
fn keep(parts: &mut Slices, before: &Vectors, kept: usize) {
    fn one<T: Copy>(part: &mut [T], before: &[T], is_kept: bool) {
        if is_kept {
            part.copy_from_slice(before);
        }
    }
    parts.each_mut().zip(before.view()).zip(NUMBERS).map(
        |((part, before), number)| one(part, before, number == kept),
        |((part, before), number)| one(part, before, number == kept),
    );
}

/// The same, but for a message's own word.
fn keep_but_own(head: Head, parts: &mut Slices, before: &Vectors, kept: usize, one: Message) {
    let now = parts.copy();
    keep(parts, before, kept);
    match own(head, one) {
        Own::Pair(place) if kept == STAMPS => parts.stamps[place] = now.stamps[place],
        Own::Pair(place) if kept == REVISIONS => parts.revisions[place] = now.revisions[place],
        Own::Node(node) if kept == PRESENCE_STAMPS => parts.presence_stamps[node] = now.presence_stamps[node],
        Own::Node(node) if kept == PRESENCE_REVISIONS => parts.presence_revisions[node] = now.presence_revisions[node],
        Own::Node(node) if kept == PRESENCE => parts.presence[node] = now.presence[node],
        _ => {}
    }
}

/// The parts, one of which is made as long as it needs to be.
fn lengthened(head: Head, parts: Vectors, short: usize) -> Vectors {
    fn one<T: Clone + Default>(mut part: Vec<T>, needed: usize, is_short: bool) -> Vec<T> {
        let length = if is_short { part.len().max(needed) } else { part.len() };
        part.resize(length, T::default());
        part
    }
    parts.zip(head.lengths()).zip(NUMBERS).map(
        |((part, needed), number)| one(part, needed, number == short),
        |((part, needed), number)| one(part, needed, number == short),
    )
}

/// Zeroes the places of one of the parts past those needed.
fn zero_past_needed(head: Head, parts: &mut Slices, zeroed: usize) {
    fn one<T: Clone + Default>(part: &mut [T], needed: usize, is_zeroed: bool) {
        if is_zeroed {
            part[needed..].fill(T::default());
        }
    }
    parts.each_mut().zip(head.lengths()).zip(NUMBERS).map(
        |((part, needed), number)| one(part, needed, number == zeroed),
        |((part, needed), number)| one(part, needed, number == zeroed),
    );
}

/// Writes a byte so many bytes from the start of a part.
fn write_byte(part: &[u8], offset: isize) {
    unsafe { part.as_ptr().cast_mut().offset(offset).write_volatile(0) }
}

/// Writes a byte beside a part that doesn't fill its pages, at the end that lies against no page. Of a part without
/// places it can't be told which end that is.
fn write_beside(part: &[u8]) {
    let is_low = part.as_ptr() as usize % PAGE == 0;
    if !part.is_empty() {
        write_byte(part, if is_low { part.len() as isize } else { -1 });
    }
}

/// The parts that are lent to be written, to be read.
fn view<'a>(parts: &'a Slices) -> Views<'a> {
    parts.each_ref().map(|part| &**part, |part| &**part)
}

fn bytes<T>(part: &[T]) -> &[u8] {
    unsafe { std::slice::from_raw_parts(part.as_ptr().cast(), size_of_val(part)) }
}

/// The bytes of one of the parts.
fn bytes_of(parts: Views<'_>, number: usize) -> &[u8] {
    parts.map(bytes, bytes).list()[number]
}

/// How many words differ.
fn differing(one: &[u16], other: &[u16]) -> u16 {
    one.iter().zip(other).filter(|(one, other)| one != other).count() as u16
}

/// The pairs of a board that count by these words of presence, in arrays of their own, and how many they are.
fn counting(head: Head, operators: &[u16], rides: &[u16], presence: &[u16]) -> (u16, Vec<u16>, Vec<u16>) {
    let listed = operators.iter().copied().zip(rides.iter().copied()).take(head.pairs as usize);
    let counts = |&(operator, ride): &(u16, u16)| {
        presence[operator as usize] == PRESENT && presence[head.ride_node(ride)] == PRESENT
    };
    let (mut operators, mut rides): (Vec<u16>, Vec<u16>) = listed.filter(counts).unzip();
    let pairs = operators.len() as u16;
    operators.resize(head.places(), 0);
    rides.resize(head.places(), 0);
    (pairs, operators, rides)
}

/// The index of the pairs that count by these words of presence: a build's of these pairs alone.
fn index_by(head: Head, parts: &Slices, presence: &[u16]) -> Vec<u16> {
    let (pairs, operators, rides) = counting(head, parts.operators, parts.rides, presence);
    let empty = head.lengths().map(|places| vec![0; places], |places| vec![0; places]);
    let mut board = Vectors { operators, rides, ..empty };
    assert_eq!(Reference.build(Head { pairs, ..head }, &mut board.lend(), 1), 0);
    board.index
}

/// Leaves that index, and gives the count of words that differ from those before.
fn refill(head: Head, parts: &mut Slices, presence: &[u16], before: &[u16]) -> u16 {
    let index = index_by(head, parts, presence);
    parts.index[..index.len()].copy_from_slice(&index);
    differing(&index, before)
}

/// Where a message's stamp and revision are.
enum Own {
    Pair(usize),
    Node(usize),
}

fn own(head: Head, one: Message) -> Own {
    match one.kind {
        OPERATOR_ON | OPERATOR_OFF => Own::Node(one.operator as usize),
        RIDE_IN | RIDE_OUT => Own::Node(head.ride_node(one.ride)),
        _ => Own::Pair(head.place(one.operator, one.ride)),
    }
}

/// A message for an operator or ride.
fn is_presence(one: Message) -> bool {
    (OPERATOR_ON..=RIDE_OUT).contains(&one.kind)
}

/// Takes a message that none of 1 to 9 applies to, whatever its revision, its unused field and its last are.
fn take(head: &mut Head, parts: &mut Slices, one: Message) -> Answer {
    let at = own(*head, one);
    match at {
        Own::Pair(place) => parts.stamps[place] = 1,
        Own::Node(node) => parts.presence_stamps[node] = 1,
    }
    let operator = if one.kind >= RIDE_IN { 0 } else { one.operator };
    let ride = if matches!(one.kind, OPERATOR_ON | OPERATOR_OFF) { 0 } else { one.ride };
    let answer = Reference.message(head, parts, Message { operator, ride, revision: 0, stamp: u32::MAX, ..one });
    match at {
        Own::Pair(place) => (parts.stamps[place], parts.revisions[place]) = (one.stamp, one.revision),
        Own::Node(node) => {
            (parts.presence_stamps[node], parts.presence_revisions[node]) = (one.stamp, one.revision);
        }
    }
    answer
}

/// The reference with a fault, and the minimums of the last peel or cover.
pub struct Faulty(Fault, Vec<u16>);

impl Faulty {
    pub fn new(fault: Fault) -> Faulty {
        Faulty(fault, Vec::new())
    }
}

impl Board for Faulty {
    fn build(&mut self, head: Head, parts: &mut Slices, start: u32) -> u16 {
        let before = parts.copy();
        let code = Reference.build(head, parts, start);
        match (self.0, code) {
            (Fault::BuildRefuses, 0) => return 5,
            (Fault::BuildKept(part), 0) => keep(parts, &before, part),
            (Fault::BuildPastNeeded(part), 0) => zero_past_needed(head, parts, part),
            (Fault::BuildShort(part), 3) => {
                return Reference.build(head, &mut lengthened(head, before, part).lend(), start)
            }
            (Fault::BuildCountsAsCame, 0) => drop(refill(head, parts, &before.presence, &before.index)),
            (Fault::BuildIndex, 0) => spoil(parts.index),
            (Fault::BuildWritesThoughRefused, 1..) => spoil(parts.rides),
            _ => {}
        }
        code
    }

    fn query(
        &mut self,
        head: Head,
        index: &[u16],
        presence: &[u16],
        alpha: u16,
        beta: u16,
        marks: &mut [u16],
    ) -> Counts {
        let (read_alpha, read_beta) = match self.0 {
            Fault::QueryAlphaZeroIsOne => (alpha.max(1), beta),
            Fault::QueryBetaZeroIsOne => (alpha, beta.max(1)),
            Fault::QueryMissingRowIsOne if alpha > head.rides => (1, beta),
            _ => (alpha, beta),
        };
        let words = match self.0 {
            Fault::QueryPresence(reading) => reading.read(head, presence),
            Fault::QueryZeroMarksAbsent if (alpha, beta) == (0, 0) => vec![PRESENT; presence.len()],
            Fault::QueryZeroMarksAbsent if alpha == 0 => Reading::OffIsOn.read(head, presence),
            Fault::QueryZeroMarksAbsent if beta == 0 => Reading::OutIsIn.read(head, presence),
            Fault::QueryShortPresence if presence.len() < head.nodes() => vec![PRESENT; head.nodes()],
            _ => presence.to_vec(),
        };
        let before = marks.to_vec();
        let mut counts = Reference.query(head, index, &words, read_alpha, read_beta, marks);
        match (self.0, counts.code) {
            (Fault::QueryMark, 0) => spoil(marks),
            (Fault::QueryCount, 0) => counts.rides += 1,
            (Fault::QueryUsesMinimums, 0) => return self.query_with(head, index, presence, alpha, marks),
            (Fault::QueryZeroRefused, 0) if alpha == 0 || beta == 0 => {
                marks.copy_from_slice(&before);
                return Counts { code: 11, operators: 0, rides: 0 };
            }
            _ => {}
        }
        counts
    }

    fn peel(
        &mut self,
        head: Head,
        operators: &[u16],
        rides: &[u16],
        presence: &[u16],
        minimums: &[u16],
        marks: &mut [u16],
        alpha: u16,
        beta: u16,
        steps: u16,
    ) -> Peeled {
        self.1 = minimums.to_vec();
        let lent = Lent { head, operators, rides, presence };
        if let Some(peeled) = self.peel_with(Asked { lent, minimums, alpha, beta }, marks, steps) {
            return peeled;
        }
        let before = marks.to_vec();
        let mut left = before.clone();
        let number = Reference.peel(head, operators, rides, presence, minimums, &mut left, alpha, beta, steps).code;
        let nodes = head.nodes();
        let is_absent = |node: usize| presence[node] != PRESENT;
        let (mut read_alpha, mut read_beta, mut words) = (alpha, beta, presence.to_vec());
        let (mut sizes, mut pairs) = (head, (operators.to_vec(), rides.to_vec()));
        // Steps that are taken before those of the reference.
        let mut first = 0;
        match (self.0, number) {
            (Fault::PeelAlphaZeroIsOne, _) => read_alpha = alpha.max(1),
            (Fault::PeelBetaZeroIsOne, _) => read_beta = beta.max(1),
            (Fault::PeelPresence(reading), 0) => words = reading.read(head, presence),
            (Fault::PeelZeroKeepsAbsent, 0) => {
                // Whoever is off or out is on or in, with no pair.
                (sizes.pairs, pairs.0, pairs.1) = counting(head, operators, rides, presence);
                words.fill(PRESENT);
            }
            (Fault::PeelAbsentCleared, 0) => {
                (0..nodes).filter(|node| is_absent(*node)).for_each(|node| marks[node] = 0);
            }
            (Fault::PeelAbsentFirst, 0) | (Fault::PeelRidesOutFirst, 0) => {
                let from = if self.0 == Fault::PeelAbsentFirst { 0 } else { head.operators as usize };
                for node in (from..nodes).filter(|node| is_absent(*node)) {
                    if first < steps && marks[node] == 1 {
                        marks[node] = 0;
                        first += 1;
                    }
                }
            }
            (Fault::PeelAbsentMarkUnread, 12) => {
                (0..nodes).filter(|node| is_absent(*node)).for_each(|node| marks[node] = 0);
            }
            (Fault::PeelShortPresence, 3) if presence.len() < nodes => words = vec![PRESENT; nodes],
            _ => {}
        }
        let steps = steps - first;
        let mut peeled =
            Reference.peel(sizes, &pairs.0, &pairs.1, &words, minimums, marks, read_alpha, read_beta, steps);
        peeled.steps += first;
        match (self.0, peeled.code) {
            (Fault::PeelStep, 0) => peeled.steps += 1,
            (Fault::PeelMark, 0) => spoil(marks),
            (Fault::PeelZeroRefused, 0) if alpha == 0 || beta == 0 => {
                marks.copy_from_slice(&before);
                return Peeled { code: 11, settled: 0, steps: 0 };
            }
            _ => {}
        }
        peeled
    }

    fn own_cover(
        &mut self,
        head: Head,
        operators: &[u16],
        rides: &[u16],
        presence: &[u16],
        minimums: &[u16],
        alpha: u16,
        beta: u16,
        marks: &mut [u16],
    ) -> Counts {
        self.1 = minimums.to_vec();
        let lent = Lent { head, operators, rides, presence };
        self.cover_with(Asked { lent, minimums, alpha, beta }, marks)
    }

    fn message(&mut self, head: &mut Head, parts: &mut Slices, message: Message) -> Answer {
        let before = parts.copy();
        let mut answer = match self.message_number(*head, parts, message) {
            Some(0) if self.0 == Fault::MessageSixOfCounting => take_unstamped(head, parts, message),
            Some(0) => take(head, parts, message),
            Some(code) => Answer { code, differ: 0 },
            None => Reference.message(head, parts, message),
        };
        match (self.0, answer.code) {
            (Fault::MessageShort(part), 3) => {
                return Reference.message(&mut { *head }, &mut lengthened(*head, before, part).lend(), message)
            }
            (Fault::MessageStamp, 0) => parts.stamps.iter_mut().take(1).for_each(|stamp| *stamp ^= 1),
            (Fault::MessageDiffer, 0) => answer.differ += 1,
            (Fault::MessagePairs, 0) => head.pairs ^= 1,
            (_, 0) => self.spoil_message(head, parts, message, &before, &mut answer),
            _ => {}
        }
        answer
    }

    fn messages(&mut self, head: &mut Head, parts: &mut Slices, messages: &[Message], answers: &mut [u16]) -> u16 {
        let before = parts.copy();
        let code = Reference.messages(head, parts, messages, answers);
        let is_taken = code == 0 && answers[..messages.len()].contains(&0);
        match (self.0, code) {
            (Fault::ListGives(number), 0) if answers[..messages.len()].first() == Some(&number) => return number,
            (Fault::ListKept(part), 0) => keep(parts, &before, part),
            (Fault::ListPresence(reading), 0) if is_taken => {
                let words = reading.read(*head, parts.presence);
                refill(*head, parts, &words, &before.index);
            }
            (Fault::ListShort(part), 3) => {
                let mut before = lengthened(*head, before, part);
                return Reference.messages(&mut { *head }, &mut before.lend(), messages, &mut answers.to_vec());
            }
            (Fault::ListAnswer, 0) => spoil(answers),
            (Fault::ListNumber, 1..) => return 0,
            _ => {}
        }
        code
    }

    fn crowd_limits(&mut self, bands: Bands, guests: u16) -> CrowdLimits {
        self.look_up(&bands, guests)
    }

    fn crowd_cover(
        &mut self,
        head: Head,
        operators: &[u16],
        rides: &[u16],
        presence: &[u16],
        bands: Bands,
        guests: u16,
        minimums: &[u16],
        marks: &mut [u16],
    ) -> Counts {
        let others = std::mem::replace(&mut self.1, minimums.to_vec());
        let lent = Lent { head, operators, rides, presence };
        self.cover_for(lent, Crowd { table: &bands, guests, minimums }, &others, marks)
    }
}

/// Takes a message on a board of which some listed pairs have stamp 0. These keep it, but for the message's own.
fn take_unstamped(head: &mut Head, parts: &mut Slices, one: Message) -> Answer {
    let before = parts.copy();
    parts.stamps.iter_mut().for_each(|stamp| *stamp = (*stamp).max(1));
    let answer = take(head, parts, one);
    keep_but_own(*head, parts, &before, STAMPS, one);
    answer
}

impl Faulty {
    /// What a board has of the last message for the same pair, operator or ride, as the fault reads it.
    fn last(&self, head: Head, parts: &Slices, one: Message) -> Message {
        let listed = parts.operators.iter().zip(parts.rides.iter()).take(head.pairs as usize);
        let is_listed = listed.into_iter().any(|pair| pair == (&one.operator, &one.ride));
        let at = match self.0 {
            Fault::MessageRideLastOfOperator if one.kind >= RIDE_IN => Own::Node(one.ride as usize),
            Fault::MessageLastOfPair if is_presence(one) && head.places() > 0 => {
                Own::Pair(head.place(one.operator, one.ride).min(head.places() - 1))
            }
            _ => own(head, one),
        };
        let (gives, revision, stamp) = match at {
            Own::Pair(place) => (is_listed, parts.revisions[place], parts.stamps[place]),
            Own::Node(node) => {
                let word = parts.presence[node];
                let is_present = if self.0 == Fault::MessageTieNotZero { word != 0 } else { word == PRESENT };
                (is_present, parts.presence_revisions[node], parts.presence_stamps[node])
            }
        };
        // The lower of the two kinds gives.
        let kind = (one.kind - 1) / 2 * 2 + if gives { 1 } else { 2 };
        Message { kind, revision, stamp, ..one }
    }

    /// Whether a message is later than its last, as the fault reads it.
    fn is_later(&self, one: Message, last: Message) -> bool {
        let low = |revision: u16| revision % 256;
        match self.0 {
            Fault::MessageRevisionFirst => (one.revision, one.stamp, one.kind) > (last.revision, last.stamp, last.kind),
            Fault::MessageWinsTie(kinds) if kinds.contains(&one.kind) => {
                (one.stamp, one.revision, last.kind) > (last.stamp, last.revision, one.kind)
            }
            Fault::MessageRevisionUnread => (one.stamp, one.kind) > (last.stamp, last.kind),
            Fault::MessagePresenceRevisionUnread if is_presence(one) => (one.stamp, one.kind) > (last.stamp, last.kind),
            Fault::MessageRevisionLowByte => {
                (one.stamp, low(one.revision), one.kind) > (last.stamp, low(last.revision), last.kind)
            }
            _ => (one.stamp, one.revision, one.kind) > (last.stamp, last.revision, last.kind),
        }
    }

    /// Whether one of 7 to 10, 14 and 15 applies to a message, as the fault reads it. Where 7 applies, 8, 15 and 10 are
    /// not asked for, and where 8 does, 10 is not.
    fn applies(&self, number: u16, head: Head, parts: &Slices, one: Message) -> bool {
        let (operator_out, ride_out) = (one.operator >= head.operators, one.ride >= head.rides);
        let unused = match one.kind {
            OPERATOR_ON | OPERATOR_OFF => one.ride,
            RIDE_IN | RIDE_OUT => one.operator,
            _ => 0,
        };
        match number {
            7 if self.0 == Fault::MessageSixKindsRefused => !(GRANT..=WITHDRAWAL).contains(&one.kind),
            7 => !(GRANT..=RIDE_OUT).contains(&one.kind),
            8 if self.0 == Fault::MessageUnusedOutOfRange => operator_out || ride_out,
            8 => match one.kind {
                OPERATOR_ON | OPERATOR_OFF => operator_out,
                RIDE_IN | RIDE_OUT => ride_out,
                _ => operator_out || ride_out,
            },
            9 => one.stamp == 0,
            14 => match self.0 {
                Fault::MessageRevision256Taken => one.revision > 256,
                Fault::MessageRevision255Refused => one.revision > 254,
                Fault::MessageStoredRevisionRefused => one.revision > 255 || self.last(head, parts, one).revision > 255,
                _ => one.revision > 255,
            },
            15 if self.0 == Fault::MessageUnusedInRangeTaken => unused != 0 && (operator_out || ride_out),
            15 => unused != 0,
            _ => !self.is_later(one, self.last(head, parts, one)),
        }
    }

    /// The number that a faulty message gives, where it isn't the reference's.
    fn message_number(&self, head: Head, parts: &Slices, one: Message) -> Option<u16> {
        let number = Reference.message(&mut { head }, &mut parts.copy().lend(), one).code;
        match number {
            6 if self.0 == Fault::MessageSixOfCounting => {
                let (pairs, operators, rides) = counting(head, parts.operators, parts.rides, parts.presence);
                let mut counted = operators.iter().zip(&rides).take(pairs as usize);
                if counted.any(|(operator, ride)| parts.stamps[head.place(*operator, *ride)] == 0) {
                    return None;
                }
            }
            1..=6 => return None,
            _ => {}
        }
        let order = match self.0 {
            Fault::MessageOrder(order) => order,
            _ => &[7, 8, 9, 14, 15, 10],
        };
        let faulty = order.iter().copied().find(|number| self.applies(*number, head, parts, one)).unwrap_or(0);
        Some(faulty).filter(|faulty| *faulty != number)
    }

    /// Spoils what a taken message left. The parts before it are given too.
    fn spoil_message(&self, head: &mut Head, parts: &mut Slices, one: Message, before: &Vectors, answer: &mut Answer) {
        let at = own(*head, one);
        match (self.0, at) {
            (Fault::MessageKept(part), _) => keep(parts, before, part),
            (Fault::MessageRevisionNextPlace, Own::Pair(place)) => {
                parts.revisions.copy_from_slice(&before.revisions);
                parts.revisions.iter_mut().skip(place + 1).take(1).for_each(|word| *word = one.revision);
            }
            (Fault::MessageRevisionNextPlace, Own::Node(node)) => {
                parts.presence_revisions.copy_from_slice(&before.presence_revisions);
                parts.presence_revisions.iter_mut().skip(node + 1).take(1).for_each(|word| *word = one.revision);
            }
            (Fault::MessageRideStoredAtOperator, Own::Node(node)) if one.kind >= RIDE_IN => {
                let word = parts.presence[node];
                [PRESENCE_STAMPS, PRESENCE_REVISIONS, PRESENCE].iter().for_each(|part| keep(parts, before, *part));
                let ride = one.ride as usize;
                (parts.presence_stamps[ride], parts.presence_revisions[ride]) = (one.stamp, one.revision);
                parts.presence[ride] = word;
                let words = parts.presence.to_vec();
                answer.differ = refill(*head, parts, &words, &before.index);
            }
            (Fault::MessageOtherWordsChanged, _) => {
                let words = parts.presence[..head.nodes()].iter_mut();
                words.filter(|word| **word != PRESENT).for_each(|word| *word = 0);
            }
            (Fault::MessagePresence(reading), _) => {
                let words = reading.read(*head, parts.presence);
                answer.differ = refill(*head, parts, &words, &before.index);
            }
            (Fault::MessagePairsDropped, _) => {
                let (pairs, operators, rides) = counting(*head, parts.operators, parts.rides, parts.presence);
                parts.operators[..operators.len()].copy_from_slice(&operators);
                parts.rides[..rides.len()].copy_from_slice(&rides);
                head.pairs = pairs;
            }
            (Fault::MessagePresenceTailKept, Own::Node(_)) => {
                [OPERATORS, RIDES].iter().for_each(|part| keep(parts, before, *part));
            }
            (Fault::MessagePresenceIndexKept, Own::Node(_)) => {
                keep(parts, before, INDEX);
                answer.differ = 0;
            }
            (Fault::MessageWritesBeside(part), _) => write_beside(bytes_of(view(parts), part)),
            _ => {}
        }
    }

    /// The number that a faulty preview gives before it does anything.
    fn preview_number(
        &self,
        head: Head,
        parts: &Views,
        message: Message,
        spare_head: Head,
        spare: &Slices,
    ) -> Option<u16> {
        let lengths = spare.lengths().list().into_iter().zip(head.lengths().list()).enumerate();
        let short: Vec<usize> = lengths.filter(|(_, (length, needed))| length < needed).map(|(part, _)| part).collect();
        let is_short = !short.is_empty();
        // With spare memory that is long enough where the board's own is.
        let number = reference::preview(head, parts, message, &mut { head }, &mut parts.copy().lend()).code;
        match self.0 {
            Fault::PreviewShortFirst if is_short => Some(3),
            Fault::PreviewShortAfterFour if is_short && number == 4 => Some(4),
            Fault::PreviewShortLast if is_short && number != 0 => Some(number),
            Fault::PreviewShort(part) if short == [part] => Some(number),
            Fault::PreviewReadsSpareHead if spare_head.operators > 200 => Some(1),
            _ => None,
        }
    }

    /// Spoils what a preview that is not refused left. The spare head and parts before it are given too. Gives the
    /// count of words that differ, where the index is another one.
    fn spoil_preview(
        &self,
        head: Head,
        parts: &Views,
        message: Message,
        before: (Head, Vectors),
        spare_head: &mut Head,
        spare: &mut Slices,
    ) -> Option<u16> {
        let (pairs, places, words) = (spare_head.pairs as usize, head.places(), head.words());
        match self.0 {
            Fault::PreviewOperatorsKept => spare_head.operators = before.0.operators,
            Fault::PreviewRidesKept => spare_head.rides = before.0.rides,
            Fault::PreviewPairsBefore => spare_head.pairs = head.pairs,
            Fault::PreviewTailKept => {
                spare.operators[pairs..places].copy_from_slice(&before.1.operators[pairs..places]);
                spare.rides[pairs..places].copy_from_slice(&before.1.rides[pairs..places]);
            }
            Fault::PreviewKept(part) => keep_but_own(head, spare, &before.1, part, message),
            Fault::PreviewBefore(part) => {
                let mut board = spare.copy();
                write_words(head, parts, &mut board.lend());
                keep(spare, &board, part);
            }
            Fault::PreviewCountsAsCame => {
                return Some(refill(*spare_head, spare, &before.1.presence, parts.index));
            }
            Fault::PreviewPresence(reading) => {
                let words = reading.read(head, spare.presence);
                return Some(refill(*spare_head, spare, &words, parts.index));
            }
            Fault::PreviewCopiesPastNeeded => {
                let end = parts.index.len().min(spare.index.len());
                spare.index[words..end].copy_from_slice(&parts.index[words..end]);
            }
            Fault::PreviewWritesBeside(part) => write_beside(bytes_of(view(spare), part)),
            Fault::PreviewWritesPastSpare => {
                write_byte(bytes_of(view(spare), INDEX), size_of_val(spare.index) as isize)
            }
            Fault::PreviewWrites(part) => write_byte(bytes_of(*parts, part), 0),
            _ => {}
        }
        None
    }
}

/// Writes the words of a board, to the places that each part needs.
fn write_words(head: Head, parts: &Views, to: &mut Slices) {
    to.each_mut().zip(*parts).zip(head.lengths()).map(
        |((to, part), places)| to[..places].copy_from_slice(&part[..places]),
        |((to, part), places)| to[..places].copy_from_slice(&part[..places]),
    );
}

/// The other kind for the same pair, operator or ride.
fn other_kind(kind: u16) -> u16 {
    match kind {
        GRANT | OPERATOR_ON | RIDE_IN => kind + 1,
        WITHDRAWAL | OPERATOR_OFF | RIDE_OUT => kind - 1,
        _ => kind,
    }
}

impl Library for Faulty {
    fn preview(
        &mut self,
        head: Head,
        parts: &Views,
        message: Message,
        spare_head: &mut Head,
        spare: &mut Slices,
    ) -> Answer {
        if let Some(code) = self.preview_number(head, parts, message, *spare_head, spare) {
            return Answer { code, differ: 0 };
        }
        let kind = if self.0 == Fault::PreviewOtherKind { other_kind(message.kind) } else { message.kind };
        let revision = if self.0 == Fault::PreviewRevisionUnread { 0 } else { message.revision };
        let before = (*spare_head, spare.copy());
        let mut answer = reference::preview(head, parts, Message { kind, revision, ..message }, spare_head, spare);
        match (self.0, answer.code) {
            (Fault::PreviewDifferThoughRefused, 1..) => answer.differ = 1,
            (Fault::PreviewWritesThoughRefused, 1..) => spoil(spare.index),
            (Fault::PreviewHeadThoughRefused, 1..) => *spare_head = head,
            (Fault::PreviewDifferOfSpare, 0) => answer.differ = differing(spare.index, &before.1.index),
            (_, 0) => {
                let differ = self.spoil_preview(head, parts, message, before, spare_head, spare);
                answer.differ = differ.unwrap_or(answer.differ);
            }
            _ => {}
        }
        answer
    }
}
