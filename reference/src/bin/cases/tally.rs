//! How often each call gave each number, and how often it was of each kind that the streams are to have.

use reference::crowd::{Bands, BANDS_MOST};
use reference::{Head, PRESENT};
use std::collections::BTreeMap;

/// The kinds of limits that have a 0 among them. The last is for queries alone.
pub const ZEROS: [&str; 7] = [
    "alpha 0 alone",
    "beta 0 alone",
    "both limits 0",
    "beta 0 and alpha above rides",
    "a limit 0 and no ride",
    "a limit 0 and no operator",
    "a limit 0 and the index of no board",
];

/// Who is off or out in a query, peel or cover. The last but one is for queries alone, and the last for peels alone.
pub const ABSENCES: [&str; 6] = [
    "an operator off",
    "a ride out",
    "a word of presence above 1",
    "both limits 0 and somebody off or out",
    "somebody off or out whom the index and the limits would mark",
    "somebody off or out left marked",
];

/// The kinds of message that are taken. The last is for message calls alone.
pub const TAKEN: [&str; 7] = [
    "grant taken",
    "withdrawal taken",
    "operator on taken",
    "operator off taken",
    "ride in taken",
    "ride out taken",
    "grant or withdrawal taken whose operator is off or ride out",
];

/// The tables and guest counts of look-ups and crowd covers.
pub const CROWDS: [&str; 6] = [
    "one band",
    "eight bands",
    "bands in no ascending order",
    "a guest count that is the first of its band",
    "a guest count that is the last of its band",
    "a guest count that has a band of its own",
];

/// The minimums of peels, own covers and crowd covers. The last is for covers alone.
pub const MINIMUMS: [&str; 14] = [
    "no ride has a minimum",
    "some rides have a minimum, and some none",
    "every ride has a minimum",
    "all of two rides or more have the same minimum",
    "a minimum below beta",
    "a minimum equal to beta",
    "a minimum above beta",
    "a minimum where beta is 0",
    "a minimum of 65535",
    "a minimum of a ride that is out",
    "a word past the rides that isn't 0",
    "somebody left who goes without minimums",
    "somebody gone who is left without minimums",
    "a mark above 1 comes in",
];

/// The lists of minimums that a peel or a cover is refused for. The last is for crowd covers alone.
pub const SHORT_LISTS: [&str; 3] = [
    "a list of minimums that is one place too short, and nothing else refused",
    "a list of minimums that is too short, before 4 or 5",
    "a list of minimums that is too short, before 16, 17 or 18",
];

/// How often each call gave each number, and how often it was of each kind of `ZEROS`, `ABSENCES`, `TAKEN`, `CROWDS` and
/// `MINIMUMS`, without being refused, or of `SHORT_LISTS`.
#[derive(Default)]
pub struct Tally {
    numbers: BTreeMap<(&'static str, u16), usize>,
    kinds: BTreeMap<(&'static str, &'static str), usize>,
}

impl Tally {
    pub fn gave(&mut self, name: &'static str, code: u16) {
        *self.numbers.entry((name, code)).or_default() += 1;
    }

    /// Counts a call under each of the kinds that it is of.
    pub fn is_of(&mut self, name: &'static str, kinds: &[&'static str], are: &[bool]) {
        assert_eq!(kinds.len(), are.len());
        for (kind, _) in kinds.iter().zip(are).filter(|(_, is)| **is) {
            *self.kinds.entry((name, *kind)).or_default() += 1;
        }
    }

    /// Counts the limits of a call, under each kind of `ZEROS`. Words above operators are no levels.
    pub fn limits(&mut self, name: &'static str, head: Head, (alpha, beta): (u16, u16), index: &[u16]) {
        let has_zero = alpha == 0 || beta == 0;
        let are = [
            alpha == 0 && beta != 0,
            alpha != 0 && beta == 0,
            alpha == 0 && beta == 0,
            beta == 0 && alpha > head.rides,
            has_zero && head.rides == 0,
            has_zero && head.operators == 0,
            has_zero && index.iter().any(|word| *word > head.operators),
        ];
        self.is_of(name, &ZEROS, &are);
    }

    /// Counts a query, peel or cover under each kind of `ABSENCES`, of which the last two are given.
    pub fn absences(&mut self, name: &'static str, head: Head, limits: (u16, u16), presence: &[u16], last: [bool; 2]) {
        let presence = &presence[..head.nodes()];
        let (operators, rides) = presence.split_at(head.operators as usize);
        let is_absent = |word: &u16| *word != PRESENT;
        let are = [
            operators.iter().any(is_absent),
            rides.iter().any(is_absent),
            presence.iter().any(|word| *word > 1),
            limits == (0, 0) && presence.iter().any(is_absent),
            last[0],
            last[1],
        ];
        self.is_of(name, &ABSENCES, &are);
    }

    /// Counts a taken message, under each kind of `TAKEN`, of which the last is given.
    pub fn taken(&mut self, name: &'static str, kind: u16, last: bool) {
        let mut are = [false; 7];
        (are[kind as usize - 1], are[6]) = (true, last);
        self.is_of(name, &TAKEN, &are);
    }

    /// Counts a look-up or crowd cover under each kind of `CROWDS`.
    pub fn crowd(&mut self, name: &'static str, bands: &Bands, guests: u16) {
        let read = &bands.bands[..bands.count as usize];
        let is_first = read.iter().any(|band| band.first == guests);
        let is_last = read.iter().any(|band| band.last == guests);
        let are = [
            read.len() == 1,
            read.len() == BANDS_MOST,
            read.windows(2).any(|two| two[0].first > two[1].first),
            is_first,
            is_last,
            is_first && is_last,
        ];
        self.is_of(name, &CROWDS, &are);
    }

    /// A call gives each of these numbers at least `least` times, and no other one. 11 is in no list: it is never given.
    pub fn covers(&self, name: &'static str, numbers: &[u16], least: usize) {
        for number in numbers {
            let times = self.numbers.get(&(name, *number)).copied().unwrap_or(0);
            assert!(times >= least, "{name}: {number} given {times} times only");
        }
        for (call, number) in self.numbers.keys() {
            assert!(*call != name || numbers.contains(number), "{name}: {number} is given");
        }
    }

    /// A call is of each of these kinds at least `least` times.
    pub fn covers_kinds(&self, name: &'static str, kinds: &[&'static str], least: usize) {
        for kind in kinds {
            let times = self.kinds.get(&(name, *kind)).copied().unwrap_or(0);
            assert!(times >= least, "{name}: {kind} {times} times only");
        }
    }

    pub fn print(&self) {
        for ((call, code), times) in &self.numbers {
            println!("  {call}: {code} given {times} times");
        }
        for ((call, kind), times) in &self.kinds {
            println!("  {call}: {kind} {times} times");
        }
    }
}
