//! The board of documents 01 and 02, written again from these documents and Definition 2.1 of document 000 alone, to
//! compare the proved library with. Where a slow way is the clearer one it is taken: a cover is found by repeated
//! removal, and levels by one cover after another.

pub mod corrections;
pub mod crowd;
pub mod crowd_samples;
pub mod frames;
pub mod minimums;
pub mod presence;
pub mod samples;

use std::collections::BTreeSet;
use std::io::Write;
use std::ops::Deref;

/// Head: the sizes, and the number of pairs.
#[derive(Clone, Copy, Debug, PartialEq, Eq)]
#[repr(C)]
pub struct Head {
    pub operators: u16,
    pub rides: u16,
    pub pairs: u16,
}

/// The parts of a board, in the order they are lent: an `A` for each part of 16-bit words, a `B` for each of 32-bit words.
#[derive(Clone, Copy, Debug, Default, PartialEq, Eq)]
pub struct Parts<A, B> {
    pub operators: A,
    pub rides: A,
    pub stamps: B,
    pub revisions: A,
    pub index: A,
    pub presence_stamps: B,
    pub presence_revisions: A,
    pub presence: A,
}

/// The parts as a call is lent them.
pub type Slices<'a> = Parts<&'a mut [u16], &'a mut [u32]>;

/// The parts as a call that only reads them is lent them.
pub type Views<'a> = Parts<&'a [u16], &'a [u32]>;

/// The parts in memory of their own.
pub type Vectors = Parts<Vec<u16>, Vec<u32>>;

/// The places of each part.
pub type Lengths = Parts<usize, usize>;

impl<A, B> Parts<A, B> {
    /// What two functions make of each part: one of those of 16-bit words, one of those of 32-bit words.
    pub fn map<C, D>(self, mut words: impl FnMut(A) -> C, mut stamps: impl FnMut(B) -> D) -> Parts<C, D> {
        Parts {
            operators: words(self.operators),
            rides: words(self.rides),
            stamps: stamps(self.stamps),
            revisions: words(self.revisions),
            index: words(self.index),
            presence_stamps: stamps(self.presence_stamps),
            presence_revisions: words(self.presence_revisions),
            presence: words(self.presence),
        }
    }

    /// Each part with the same part of others.
    pub fn zip<C, D>(self, others: Parts<C, D>) -> Parts<(A, C), (B, D)> {
        Parts {
            operators: (self.operators, others.operators),
            rides: (self.rides, others.rides),
            stamps: (self.stamps, others.stamps),
            revisions: (self.revisions, others.revisions),
            index: (self.index, others.index),
            presence_stamps: (self.presence_stamps, others.presence_stamps),
            presence_revisions: (self.presence_revisions, others.presence_revisions),
            presence: (self.presence, others.presence),
        }
    }

    pub fn each_ref(&self) -> Parts<&A, &B> {
        let Parts { operators, rides, stamps, revisions, index, presence_stamps, presence_revisions, presence } = self;
        Parts { operators, rides, stamps, revisions, index, presence_stamps, presence_revisions, presence }
    }

    pub fn each_mut(&mut self) -> Parts<&mut A, &mut B> {
        let Parts { operators, rides, stamps, revisions, index, presence_stamps, presence_revisions, presence } = self;
        Parts { operators, rides, stamps, revisions, index, presence_stamps, presence_revisions, presence }
    }
}

impl<A: Deref<Target = [u16]>, B: Deref<Target = [u32]>> Parts<A, B> {
    /// The places that each part has.
    pub fn lengths(&self) -> Lengths {
        self.each_ref().map(|part| part.len(), |part| part.len())
    }

    /// The same words in memory of their own.
    pub fn copy(&self) -> Vectors {
        self.each_ref().map(|part| part.to_vec(), |part| part.to_vec())
    }
}

impl Vectors {
    /// Lends every part in its whole length.
    pub fn lend(&mut self) -> Slices<'_> {
        self.each_mut().map(Vec::as_mut_slice, Vec::as_mut_slice)
    }

    /// Lends every part in its whole length, to be read.
    pub fn view(&self) -> Views<'_> {
        self.each_ref().map(Vec::as_slice, Vec::as_slice)
    }

    /// So many of the first places of each part.
    pub fn first(&self, lengths: Lengths) -> Views<'_> {
        self.view().zip(lengths).map(|(part, length)| &part[..length], |(part, length)| &part[..length])
    }
}

impl<T> Parts<T, T> {
    /// The eight, in the order of the parts.
    pub fn list(self) -> [T; 8] {
        let Parts { operators, rides, stamps, revisions, index, presence_stamps, presence_revisions, presence } = self;
        [operators, rides, stamps, revisions, index, presence_stamps, presence_revisions, presence]
    }

    /// What one function makes of each, in the order of the parts.
    pub fn map_all<U>(self, to: impl FnMut(T) -> U) -> Parts<U, U> {
        let [operators, rides, stamps, revisions, index, presence_stamps, presence_revisions, presence] =
            self.list().map(to);
        Parts { operators, rides, stamps, revisions, index, presence_stamps, presence_revisions, presence }
    }
}

/// What a query answers: document 01's number, and how many operators and rides it marked.
#[derive(Clone, Copy, Debug, PartialEq, Eq)]
#[repr(C)]
pub struct Counts {
    pub code: u16,
    pub operators: u16,
    pub rides: u16,
}

/// What a peel answers: document 01's number, settled (1) or unsettled (0), and the steps taken.
#[derive(Clone, Copy, Debug, PartialEq, Eq)]
#[repr(C)]
pub struct Peeled {
    pub code: u16,
    pub settled: u16,
    pub steps: u16,
}

/// The kinds of a message.
pub const GRANT: u16 = 1;
pub const WITHDRAWAL: u16 = 2;
pub const OPERATOR_ON: u16 = 3;
pub const OPERATOR_OFF: u16 = 4;
pub const RIDE_IN: u16 = 5;
pub const RIDE_OUT: u16 = 6;

/// The word of an operator who is on and of a ride that is in. Every other word is off, or out.
pub const PRESENT: u16 = 1;

/// The largest revision of a valid message.
const LAST_REVISION: u16 = 255;

/// Message. A kind from 3 to 6 leaves one of operator and ride unused.
#[derive(Clone, Copy, Debug, PartialEq, Eq)]
#[repr(C)]
pub struct Message {
    pub kind: u16,
    pub operator: u16,
    pub ride: u16,
    pub revision: u16,
    pub stamp: u32,
}

/// What a message answers: document 01's number, and how many index words differ before and after.
#[derive(Clone, Copy, Debug, PartialEq, Eq)]
#[repr(C)]
pub struct Answer {
    pub code: u16,
    pub differ: u16,
}

impl Head {
    /// The places of a pair array, of the stamps and of the revisions.
    pub fn places(self) -> usize {
        self.operators as usize * self.rides as usize
    }

    /// Where the stamp and the revision of a pair are.
    pub fn place(self, operator: u16, ride: u16) -> usize {
        operator as usize * self.rides as usize + ride as usize
    }

    /// The words of one index row, the marks and the places of each part of presence: an operator or a ride each.
    pub fn nodes(self) -> usize {
        self.operators as usize + self.rides as usize
    }

    /// Where a ride is among operators and rides.
    pub fn ride_node(self, ride: u16) -> usize {
        self.operators as usize + ride as usize
    }

    /// The words of the index.
    pub fn words(self) -> usize {
        self.rides as usize * self.nodes()
    }

    /// The places that each part needs.
    pub fn lengths(self) -> Lengths {
        let (places, nodes) = (self.places(), self.nodes());
        Parts {
            operators: places,
            rides: places,
            stamps: places,
            revisions: places,
            index: self.words(),
            presence_stamps: nodes,
            presence_revisions: nodes,
            presence: nodes,
        }
    }
}

/// The pairs that are listed, as a set.
type Pairs = BTreeSet<(u16, u16)>;

// Refusals

/// The number of the first test that applies, or 0. A test is tried only where none before it applies.
fn first_of(tests: &[(u16, &dyn Fn() -> bool)]) -> u16 {
    tests.iter().find(|test| test.1()).map_or(0, |test| test.0)
}

/// Number 3 of a board: a part is shorter than needed.
fn is_short(head: Head, parts: &Slices) -> bool {
    let needed = head.lengths().list();
    parts.lengths().list().iter().zip(needed).any(|(length, needed)| *length < needed)
}

/// Number 5: one of the listed pairs is out of range, or they are not strictly ascending.
fn disordered(head: Head, operators: &[u16], rides: &[u16]) -> bool {
    let pairs = head.pairs as usize;
    let listed: Vec<(u16, u16)> = operators[..pairs].iter().copied().zip(rides[..pairs].iter().copied()).collect();
    let outside = listed.iter().any(|&(operator, ride)| operator >= head.operators || ride >= head.rides);
    let ascending = listed.windows(2).all(|two| two[0] < two[1]);
    outside || !ascending
}

/// 1 to 5, of what a peel or a cover is lent. Document 02, 2.7: a list of minimums shorter than the rides is 3.
fn lent_number(head: Head, operators: &[u16], rides: &[u16], presence: &[u16], minimums: &[u16], marks: &[u16]) -> u16 {
    let (places, nodes) = (head.places(), head.nodes());
    let too_short = operators.len() < places
        || rides.len() < places
        || presence.len() < nodes
        || minimums.len() < head.rides as usize
        || marks.len() < nodes;
    first_of(&[
        (1, &|| head.operators > 200),
        (2, &|| head.rides > 60),
        (3, &|| too_short),
        (4, &|| head.pairs as usize > places),
        (5, &|| disordered(head, operators, rides)),
    ])
}

/// The pairs of accepted pair arrays.
fn listed(head: Head, operators: &[u16], rides: &[u16]) -> Pairs {
    let pairs = head.pairs as usize;
    operators[..pairs].iter().copied().zip(rides[..pairs].iter().copied()).collect()
}

// Covers and levels

/// A set of operators, or of rides.
#[derive(Clone, Copy, Default, PartialEq, Eq)]
struct Set([u64; 4]);

impl Set {
    fn of(numbers: impl Iterator<Item = usize>) -> Self {
        let mut set = Set::default();
        for number in numbers {
            set.0[number / 64] |= 1 << (number % 64);
        }
        set
    }

    fn has(self, number: usize) -> bool {
        self.0[number / 64] >> (number % 64) & 1 == 1
    }

    fn is_empty(self) -> bool {
        self == Set::default()
    }

    fn numbers(self) -> impl Iterator<Item = usize> {
        (0..256).filter(move |number| self.has(*number))
    }

    /// How many numbers are in both sets.
    fn common(self, other: Set) -> usize {
        self.0.iter().zip(other.0).map(|(a, b)| (a & b).count_ones() as usize).sum()
    }
}

/// Document 02: a pair counts if it is listed, its operator is on and its ride is in. For each operator the rides, and
/// for each ride the operators, of the pairs that count.
struct Counting {
    on: Set,
    in_service: Set,
    rides_of: Vec<Set>,
    operators_of: Vec<Set>,
}

impl Counting {
    fn new(head: Head, pairs: &Pairs, presence: &[u16]) -> Self {
        let is_on = |o: u16| presence[o as usize] == PRESENT;
        let is_in = |r: u16| presence[head.ride_node(r)] == PRESENT;
        let pairs: Pairs = pairs.iter().copied().filter(|&(o, r)| is_on(o) && is_in(r)).collect();
        let rides_of = |o: u16| Set::of(pairs.iter().filter(|pair| pair.0 == o).map(|pair| pair.1 as usize));
        let operators_of = |r: u16| Set::of(pairs.iter().filter(|pair| pair.1 == r).map(|pair| pair.0 as usize));
        Counting {
            on: Set::of((0..head.operators).filter(|o| is_on(*o)).map(usize::from)),
            in_service: Set::of((0..head.rides).filter(|r| is_in(*r)).map(usize::from)),
            rides_of: (0..head.operators).map(rides_of).collect(),
            operators_of: (0..head.rides).map(operators_of).collect(),
        }
    }

    /// Whether an operator falls short of alpha among these rides. One who is off falls short of every limit.
    fn operator_falls_short(&self, operator: usize, rides: Set, alpha: usize) -> bool {
        !self.on.has(operator) || self.rides_of[operator].common(rides) < alpha
    }

    /// Whether a ride falls short of beta among these operators. One that is out falls short of every limit.
    fn ride_falls_short(&self, ride: usize, operators: Set, beta: usize) -> bool {
        !self.in_service.has(ride) || self.operators_of[ride].common(operators) < beta
    }
}

/// Document 02, 2.7: the limit of a ride: its own minimum, or beta where that is 0.
fn ride_limit(minimums: &[u16], beta: u16, ride: usize) -> u16 {
    match minimums[ride] {
        0 => beta,
        minimum => minimum,
    }
}

/// Definition 2.1, for limits from 0: the largest set where each operator is on and has at least alpha rides of the
/// set, and each ride is in and has at least beta operators of it.
fn core(counting: &Counting, alpha: usize, beta: usize) -> (Set, Set) {
    core_by_ride(counting, alpha, |_| beta)
}

/// The same with a limit for each ride. Whoever falls short goes, again and again, until nobody does.
fn core_by_ride(counting: &Counting, alpha: usize, beta: impl Fn(usize) -> usize) -> (Set, Set) {
    let mut operators = Set::of(0..counting.rides_of.len());
    let mut rides = Set::of(0..counting.operators_of.len());
    loop {
        let left = (
            Set::of(operators.numbers().filter(|&o| !counting.operator_falls_short(o, rides, alpha))),
            Set::of(rides.numbers().filter(|&r| !counting.ride_falls_short(r, operators, beta(r)))),
        );
        if left == (operators, rides) {
            return left;
        }
        (operators, rides) = left;
    }
}

/// Row alpha, for an alpha from 1: the level of each operator, then of each ride, the largest beta from 1 whose cover
/// (alpha, beta) holds it, or 0 if none does. Where a cover is empty, so is that of each larger beta.
fn row(counting: &Counting, alpha: usize) -> Vec<u16> {
    assert!(alpha >= 1, "cover (0, beta) holds every operator who is on, whatever beta is");
    let mut operators = vec![0; counting.rides_of.len()];
    let mut rides = vec![0; counting.operators_of.len()];
    for beta in 1.. {
        let set = core(counting, alpha, beta);
        if set.0.is_empty() && set.1.is_empty() {
            break;
        }
        set.0.numbers().for_each(|o| operators[o] = beta as u16);
        set.1.numbers().for_each(|r| rides[r] = beta as u16);
    }
    operators.extend(rides);
    operators
}

/// The index: row 1 to row rides.
fn index_of(head: Head, pairs: &Pairs, presence: &[u16]) -> Vec<u16> {
    let counting = Counting::new(head, pairs, presence);
    (1..=head.rides as usize).flat_map(|alpha| row(&counting, alpha)).collect()
}

/// Writes the pairs in ascending order, and zeros from there to the arrays' end.
fn write_pairs(head: Head, pairs: &Pairs, parts: &mut Slices) {
    parts.operators[..head.places()].fill(0);
    parts.rides[..head.places()].fill(0);
    for (place, &pair) in pairs.iter().enumerate() {
        (parts.operators[place], parts.rides[place]) = pair;
    }
}

// The calls

pub fn build(head: Head, parts: &mut Slices, start: u32) -> u16 {
    let code = first_of(&[
        (1, &|| head.operators > 200),
        (2, &|| head.rides > 60),
        (3, &|| is_short(head, parts)),
        (4, &|| head.pairs as usize > head.places()),
        (5, &|| disordered(head, parts.operators, parts.rides)),
        (9, &|| start == 0),
    ]);
    if code != 0 {
        return code;
    }
    let pairs = listed(head, parts.operators, parts.rides);
    write_pairs(head, &pairs, parts);
    parts.stamps[..head.places()].fill(0);
    for &(operator, ride) in &pairs {
        parts.stamps[head.place(operator, ride)] = start;
    }
    parts.revisions[..head.places()].fill(0);
    parts.presence_stamps[..head.nodes()].fill(0);
    parts.presence_revisions[..head.nodes()].fill(0);
    parts.presence[..head.nodes()].fill(PRESENT);
    parts.index[..head.words()].copy_from_slice(&index_of(head, &pairs, parts.presence));
    0
}

/// Marks by the words of the index, whatever they are, and nobody who is off or out. Documents 01 and 02: with alpha 0
/// all operators are in, and a ride by its row 1 level; with beta 0 all rides are in, and an operator if its row alpha
/// level is at least 1.
pub fn query(head: Head, index: &[u16], presence: &[u16], alpha: u16, beta: u16, marks: &mut [u16]) -> Counts {
    let (words, nodes) = (head.words(), head.nodes());
    let code = first_of(&[
        (1, &|| head.operators > 200),
        (2, &|| head.rides > 60),
        (3, &|| index.len() < words || presence.len() < nodes || marks.len() < nodes),
    ]);
    if code != 0 {
        return Counts { code, operators: 0, rides: 0 };
    }
    let (operators, rides) = marks[..nodes].split_at_mut(head.operators as usize);
    for (o, mark) in operators.iter_mut().enumerate() {
        let is_in = match (alpha, beta) {
            (0, _) => true,
            (_, 0) => indexed(head, index, alpha, o) >= 1,
            _ => indexed(head, index, alpha, o) >= beta,
        };
        *mark = (is_in && presence[o] == PRESENT) as u16;
    }
    for (r, mark) in rides.iter_mut().enumerate() {
        let node = head.ride_node(r as u16);
        let is_in = match (alpha, beta) {
            (_, 0) => true,
            (0, _) => indexed(head, index, 1, node) >= beta,
            _ => indexed(head, index, alpha, node) >= beta,
        };
        *mark = (is_in && presence[node] == PRESENT) as u16;
    }
    Counts { code: 0, operators: operators.iter().sum(), rides: rides.iter().sum() }
}

/// The word of an operator or ride in row alpha of the index, for an alpha from 1; 0 where there is no such row.
fn indexed(head: Head, index: &[u16], alpha: u16, node: usize) -> u16 {
    if alpha <= head.rides {
        index[(alpha as usize - 1) * head.nodes() + node]
    } else {
        0
    }
}

/// Marks the cover with minimums, by Definition 2.1 with a limit for each ride, and counts it. All that is lent is
/// accepted. The marks that come in aren't read, and those past operators and rides stay.
fn show_cover(
    head: Head,
    operators: &[u16],
    rides: &[u16],
    presence: &[u16],
    minimums: &[u16],
    (alpha, beta): (u16, u16),
    marks: &mut [u16],
) -> Counts {
    let counting = Counting::new(head, &listed(head, operators, rides), presence);
    let set = core_by_ride(&counting, alpha as usize, |ride| ride_limit(minimums, beta, ride) as usize);
    let (operators, rides) = marks[..head.nodes()].split_at_mut(head.operators as usize);
    operators.iter_mut().enumerate().for_each(|(operator, mark)| *mark = set.0.has(operator) as u16);
    rides.iter_mut().enumerate().for_each(|(ride, mark)| *mark = set.1.has(ride) as u16);
    Counts { code: 0, operators: operators.iter().sum(), rides: rides.iter().sum() }
}

/// Document 02, 2.7: the cover with minimums.
#[allow(clippy::too_many_arguments)]
pub fn own_cover(
    head: Head,
    operators: &[u16],
    rides: &[u16],
    presence: &[u16],
    minimums: &[u16],
    alpha: u16,
    beta: u16,
    marks: &mut [u16],
) -> Counts {
    let code = lent_number(head, operators, rides, presence, minimums, marks);
    if code != 0 {
        return Counts { code, operators: 0, rides: 0 };
    }
    show_cover(head, operators, rides, presence, minimums, (alpha, beta), marks)
}

#[allow(clippy::too_many_arguments)]
pub fn peel(
    head: Head,
    operators: &[u16],
    rides: &[u16],
    presence: &[u16],
    minimums: &[u16],
    marks: &mut [u16],
    alpha: u16,
    beta: u16,
    steps: u16,
) -> Peeled {
    let code = match lent_number(head, operators, rides, presence, minimums, marks) {
        0 => first_of(&[(12, &|| marks[..head.nodes()].iter().any(|mark| *mark > 1))]),
        code => code,
    };
    if code != 0 {
        return Peeled { code, settled: 0, steps: 0 };
    }
    let counting = Counting::new(head, &listed(head, operators, rides), presence);
    let of_rides = (0..head.rides as usize).map(|ride| ride_limit(minimums, beta, ride));
    let limits: Vec<u16> = std::iter::repeat_n(alpha, head.operators as usize).chain(of_rides).collect();
    drop_short(head, &counting, &limits, marks, steps)
}

/// The marks of the cover under a list of limits, one for each operator and then for each ride: from all ones, whoever
/// has fewer marked neighbours than its limit is dropped, again and again, until nobody falls short. A pair counts if both
/// of its nodes are here, those with a byte of 1. Whoever isn't here has no neighbour, and is dropped if its limit is above
/// 0. The pair arrays are accepted ones.
pub fn cover_under_limits(head: Head, operators: &[u16], rides: &[u16], here: &[u8], limits: &[u16]) -> Vec<u16> {
    let mut pairs = listed(head, operators, rides);
    pairs.retain(|&(operator, ride)| here[operator as usize] == 1 && here[head.ride_node(ride)] == 1);
    let counting = Counting::new(head, &pairs, &vec![PRESENT; head.nodes()]);
    let mut marks = vec![1; head.nodes()];
    drop_short(head, &counting, limits, &mut marks, u16::MAX);
    marks
}

/// Drops the first who falls short, again and again, in so many steps at most. A limit for each node.
fn drop_short(head: Head, counting: &Counting, limits: &[u16], marks: &mut [u16], steps: u16) -> Peeled {
    let mut taken = 0;
    loop {
        match first_short(head, counting, limits, marks) {
            None => return Peeled { code: 0, settled: 1, steps: taken },
            Some(_) if taken == steps => return Peeled { code: 0, settled: 0, steps: taken },
            Some(place) => marks[place] = 0,
        }
        taken += 1;
    }
}

/// The place in the marks of the lowest-numbered marked operator that falls short among the marked rides; if there is
/// none, of the lowest-numbered marked ride that falls short among the marked operators.
fn first_short(head: Head, counting: &Counting, limits: &[u16], marks: &[u16]) -> Option<usize> {
    let (n, m) = (head.operators as usize, head.rides as usize);
    let operators = Set::of((0..n).filter(|&o| marks[o] == 1));
    let rides = Set::of((0..m).filter(|&r| marks[n + r] == 1));
    let operator = operators.numbers().find(|&o| counting.operator_falls_short(o, rides, limits[o] as usize));
    let ride = rides.numbers().find(|&r| counting.ride_falls_short(r, operators, limits[n + r] as usize));
    operator.or(ride.map(|r| n + r))
}

/// The lowest of 1 to 6 that applies to a board that is lent to a message, a list or a preview, or 0.
fn board_refusal(head: Head, parts: &Slices, others_short: bool) -> u16 {
    let Parts { operators, rides, stamps, .. } = parts;
    first_of(&[
        (1, &|| head.operators > 200),
        (2, &|| head.rides > 60),
        (3, &|| is_short(head, parts) || others_short),
        (4, &|| head.pairs as usize > head.places()),
        (5, &|| disordered(head, operators, rides)),
        (6, &|| listed(head, operators, rides).iter().any(|&(o, r)| stamps[head.place(o, r)] == 0)),
    ])
}

/// What a message speaks of.
enum Subject {
    Pair(u16, u16),
    Operator(u16),
    Ride(u16),
}

impl Message {
    /// What a message of a kind from 1 to 6 speaks of.
    fn subject(self) -> Subject {
        match self.kind {
            GRANT | WITHDRAWAL => Subject::Pair(self.operator, self.ride),
            OPERATOR_ON | OPERATOR_OFF => Subject::Operator(self.operator),
            RIDE_IN | RIDE_OUT => Subject::Ride(self.ride),
            kind => unreachable!("kind {kind} gets 7"),
        }
    }

    /// Number 8: what the message speaks of is out of range. A field that its kind doesn't use isn't read.
    fn is_out_of_range(self, head: Head) -> bool {
        match self.subject() {
            Subject::Pair(operator, ride) => operator >= head.operators || ride >= head.rides,
            Subject::Operator(operator) => operator >= head.operators,
            Subject::Ride(ride) => ride >= head.rides,
        }
    }

    /// Number 15: the field that the message's kind doesn't use isn't 0.
    fn has_unused_field(self) -> bool {
        match self.subject() {
            Subject::Pair(..) => false,
            Subject::Operator(_) => self.ride != 0,
            Subject::Ride(_) => self.operator != 0,
        }
    }

    fn entry(self) -> Entry {
        let gives = matches!(self.kind, GRANT | OPERATOR_ON | RIDE_IN);
        Entry { stamp: self.stamp, revision: self.revision, gives }
    }
}

/// What a pair, an operator or a ride has of its last message: stamp and revision, and whether the pair is listed, the
/// operator on or the ride in.
#[derive(Clone, Copy)]
struct Entry {
    stamp: u32,
    revision: u16,
    gives: bool,
}

/// Of two messages for one pair, operator or ride: the first is later than the second. The larger stamp is later; at
/// equal stamps the larger revision; at both equal a withdrawal is later than a grant, off than on, and out than in.
fn is_later(first: Entry, second: Entry) -> bool {
    if first.stamp != second.stamp {
        return first.stamp > second.stamp;
    }
    if first.revision != second.revision {
        return first.revision > second.revision;
    }
    !first.gives && second.gives
}

/// The last that an accepted board has of a pair, an operator or a ride.
fn last_of(head: Head, parts: &Slices, subject: Subject) -> Entry {
    let of_node = |node: usize| Entry {
        stamp: parts.presence_stamps[node],
        revision: parts.presence_revisions[node],
        gives: parts.presence[node] == PRESENT,
    };
    match subject {
        Subject::Pair(operator, ride) => {
            let place = head.place(operator, ride);
            let gives = listed(head, parts.operators, parts.rides).contains(&(operator, ride));
            Entry { stamp: parts.stamps[place], revision: parts.revisions[place], gives }
        }
        Subject::Operator(operator) => of_node(operator as usize),
        Subject::Ride(ride) => of_node(head.ride_node(ride)),
    }
}

pub fn message(head: &mut Head, parts: &mut Slices, message: Message) -> Answer {
    let sizes = *head;
    let refusal = board_refusal(sizes, parts, false);
    let code = first_of(&[
        (refusal, &|| refusal != 0),
        (7, &|| !(GRANT..=RIDE_OUT).contains(&message.kind)),
        (8, &|| message.is_out_of_range(sizes)),
        (9, &|| message.stamp == 0),
        (14, &|| message.revision > LAST_REVISION),
        (15, &|| message.has_unused_field()),
        (10, &|| !is_later(message.entry(), last_of(sizes, parts, message.subject()))),
    ]);
    if code != 0 {
        return Answer { code, differ: 0 };
    }
    let mut pairs = listed(sizes, parts.operators, parts.rides);
    match message.subject() {
        Subject::Pair(operator, ride) => {
            if message.entry().gives {
                pairs.insert((operator, ride));
            } else {
                pairs.remove(&(operator, ride));
            }
            let place = sizes.place(operator, ride);
            (parts.stamps[place], parts.revisions[place]) = (message.stamp, message.revision);
        }
        Subject::Operator(operator) => store_presence(parts, operator as usize, message.entry()),
        Subject::Ride(ride) => store_presence(parts, sizes.ride_node(ride), message.entry()),
    }
    write_pairs(sizes, &pairs, parts);
    head.pairs = pairs.len() as u16;
    let levels = index_of(sizes, &pairs, parts.presence);
    let differ = levels.iter().zip(&*parts.index).filter(|(new, old)| new != old).count() as u16;
    parts.index[..sizes.words()].copy_from_slice(&levels);
    Answer { code: 0, differ }
}

/// Stores what a taken message says of an operator or ride.
fn store_presence(parts: &mut Slices, node: usize, entry: Entry) {
    parts.presence_stamps[node] = entry.stamp;
    parts.presence_revisions[node] = entry.revision;
    parts.presence[node] = if entry.gives { PRESENT } else { 0 };
}

pub fn messages(head: &mut Head, parts: &mut Slices, messages: &[Message], answers: &mut [u16]) -> u16 {
    let code = board_refusal(*head, parts, answers.len() < messages.len());
    if code != 0 {
        return code;
    }
    for (place, one) in messages.iter().enumerate() {
        answers[place] = message(head, parts, *one).code;
    }
    0
}

/// Document 02: the answer, and in the spare memory the words, that the message would give on a copy of the board.
/// Refused, it leaves the spare memory unchanged.
pub fn preview(head: Head, parts: &Views, one: Message, spare_head: &mut Head, spare: &mut Slices) -> Answer {
    let (mut copy_head, mut copy) = (head, parts.copy());
    let code = board_refusal(head, &copy.lend(), is_short(head, spare));
    if code != 0 {
        return Answer { code, differ: 0 };
    }
    let answer = message(&mut copy_head, &mut copy.lend(), one);
    if answer.code == 0 {
        *spare_head = copy_head;
        write_board(head, &copy, spare);
    }
    answer
}

/// Writes every word of a board, to the places that each part needs.
fn write_board(head: Head, board: &Vectors, parts: &mut Slices) {
    parts.each_mut().zip(board.first(head.lengths())).map(
        |(part, words)| part[..words.len()].copy_from_slice(words),
        |(part, stamps)| part[..stamps.len()].copy_from_slice(stamps),
    );
}

/// The program `cover`: from its whole input to its whole output. Everybody is on and in.
pub fn cover(input: &[u8]) -> Vec<u8> {
    let mut output = Vec::new();
    match cover_checked(input, &mut output) {
        0 => output,
        code => format!("refused {code}\n").into_bytes(),
    }
}

fn cover_checked(input: &[u8], output: &mut Vec<u8>) -> u16 {
    let word = |place: usize| u16::from_le_bytes([input[2 * place], input[2 * place + 1]]);
    if input.len() < 6 {
        return 13;
    }
    let head = Head { operators: word(0), rides: word(1), pairs: word(2) };
    let pairs = head.pairs as usize;
    let operators = || (3..3 + pairs).map(word).collect::<Vec<u16>>();
    let rides = || (3 + pairs..3 + 2 * pairs).map(word).collect::<Vec<u16>>();
    let code = first_of(&[
        (1, &|| head.operators > 200),
        (2, &|| head.rides > 60),
        (4, &|| pairs > head.places()),
        (13, &|| input.len() != 10 + 4 * pairs),
        (5, &|| disordered(head, &operators(), &rides())),
    ]);
    if code != 0 {
        return code;
    }
    let (alpha, beta) = (word(3 + 2 * pairs), word(4 + 2 * pairs));
    let counting = Counting::new(head, &listed(head, &operators(), &rides()), &vec![PRESENT; head.nodes()]);
    let (operators, rides) = core(&counting, alpha as usize, beta as usize);
    // For alpha 0 those of row 1. Past the last row of the index they are all 0.
    let levels = row(&counting, alpha.max(1) as usize);
    writeln!(output, "cover {alpha} {beta} {} {}", operators.numbers().count(), rides.numbers().count()).unwrap();
    for number in operators.numbers() {
        writeln!(output, "operator {number} {}", levels[number]).unwrap();
    }
    for number in rides.numbers() {
        writeln!(output, "ride {number} {}", levels[head.operators as usize + number]).unwrap();
    }
    0
}

#[cfg(test)]
mod tests;
