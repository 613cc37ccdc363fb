//! A stream being written: its calls are made on the reference, and counted.

use crate::tally::{Tally, MINIMUMS, SHORT_LISTS};
use reference::crowd::crowd_limits;
use reference::frames::{Call, Memory, Outcome, Part, Reference, MINIMUM_PLACES};
use reference::samples::counts;
use reference::{query, Head, Message, Vectors, PRESENT, WITHDRAWAL};

/// A stream being written and what replaying it gives, the memory that its calls leave, and what they gave.
#[derive(Default)]
pub struct Stream {
    pub bytes: Vec<u8>,
    pub text: String,
    pub memory: Memory,
    pub tally: Tally,
}

impl Stream {
    /// Makes a call. Gives what it answered, and the head that it left.
    pub fn call(&mut self, call: Call) -> (Outcome, Head) {
        call.write(&mut self.bytes);
        let without = without_minimums(&call, &self.memory);
        let (outcome, head) = call.run(&mut Reference, &mut self.memory);
        self.text += &format!("{outcome}\n");
        let code = outcome.numbers[0];
        self.tally.gave(name(&call), code);
        if code == 0 {
            self.count_kinds(&call);
        }
        if let Some(without) = without {
            self.count_minimums(&call, code, without);
        }
        (outcome, head)
    }

    /// Makes a call whose answer and marks were worked out by hand.
    pub fn gives(&mut self, call: Call, numbers: &[u16], marks: &[u16]) {
        let (outcome, _) = self.call(call);
        assert_eq!((&outcome.numbers[..], &self.memory.marks[..marks.len()]), (numbers, marks));
    }

    /// Makes a query or cover of so many operators whose marks were worked out by hand.
    pub fn covers(&mut self, call: Call, operators: u16, marks: &[u16]) {
        let [operators, rides] = counts(operators, marks);
        self.gives(call, &[0, operators, rides], marks);
    }

    /// Counts a call that was not refused under each kind that it is of, but for those of its minimums.
    fn count_kinds(&mut self, call: &Call) {
        let (name, Stream { memory, tally, .. }) = (name(call), self);
        let Vectors { index, presence, .. } = &memory.parts;
        match call {
            Call::Build { .. } => {}
            Call::Query { head, alpha, beta, .. } => {
                let (nodes, index) = (head.nodes(), &index[..head.words()]);
                let mut marks = vec![0; nodes];
                query(*head, index, &vec![PRESENT; nodes], *alpha, *beta, &mut marks);
                tally.limits(name, *head, (*alpha, *beta), index);
                tally.absences(name, *head, (*alpha, *beta), presence, [memory.marks[..nodes] != marks, false]);
            }
            Call::Peel { head, alpha, beta, .. } => {
                let mut left = presence.iter().zip(&memory.marks).take(head.nodes());
                let is_left = left.any(|(word, mark)| *word != PRESENT && *mark == 1);
                tally.limits(name, *head, (*alpha, *beta), &[]);
                tally.absences(name, *head, (*alpha, *beta), presence, [false, is_left]);
            }
            Call::Message { head, message: Message { kind, operator, ride, .. }, .. } => {
                let is_present = |node: usize| presence[node] == PRESENT;
                let are_present = is_present(*operator as usize) && is_present(head.ride_node(*ride));
                tally.taken(name, *kind, *kind <= WITHDRAWAL && !are_present);
            }
            Call::Messages { messages, .. } => {
                for (message, number) in messages.iter().zip(&memory.answers) {
                    tally.gave("message of a list", *number);
                    if *number == 0 {
                        tally.taken("message of a list", message.kind, false);
                    }
                }
            }
            Call::CrowdLimits { guests, bands } => tally.crowd(name, bands, *guests),
            Call::CrowdCover { head, guests, bands, .. } => {
                let limits = crowd_limits(bands, *guests);
                tally.limits(name, *head, (limits.alpha, limits.beta), &[]);
                tally.absences(name, *head, (limits.alpha, limits.beta), presence, [false; 2]);
                tally.crowd(name, bands, *guests);
            }
            Call::OwnCover { head, alpha, beta, .. } => {
                tally.limits(name, *head, (*alpha, *beta), &[]);
                tally.absences(name, *head, (*alpha, *beta), presence, [false; 2]);
            }
        }
    }

    /// Counts a peel or cover that was made under each kind of `MINIMUMS` or `SHORT_LISTS`, by its number and the marks
    /// left, and by those without minimums.
    fn count_minimums(&mut self, call: &Call, code: u16, (number, without): (u16, Vec<u16>)) {
        let is_above_1 = |marks: &Part<u16>| marks.fill.is_some_and(|mark| mark > 1);
        let (head, beta, lent, last) = match call {
            Call::Peel { head, beta, minimums, .. } => (head, *beta, minimums.len, false),
            Call::OwnCover { head, beta, minimums, marks, .. } => (head, *beta, minimums.len, is_above_1(marks)),
            Call::CrowdCover { head, guests, bands, minimums, marks, .. } => {
                (head, crowd_limits(bands, *guests).beta, minimums.len, is_above_1(marks))
            }
            _ => return,
        };
        let (operators, rides) = (head.operators as usize, head.rides as usize);
        if code != 0 {
            let are = [number == 0 && lent + 1 == rides, [4, 5].contains(&number), (16..=18).contains(&number)];
            return self.tally.is_of(name(call), &SHORT_LISTS, &are.map(|is| code == 3 && is));
        }
        let (read, past) = self.memory.minimums[..lent].split_at(rides);
        let own: Vec<u16> = read.iter().copied().filter(|word| *word != 0).collect();
        let in_service = &self.memory.parts.presence[operators..];
        let left = || self.memory.marks[..operators + rides].iter().zip(&without);
        let are = [
            own.is_empty() && rides > 0,
            !own.is_empty() && own.len() < rides,
            own.len() == rides && rides > 0,
            own.len() == rides && rides > 1 && own.iter().all(|word| *word == own[0]),
            own.iter().any(|word| *word < beta),
            own.contains(&beta),
            own.iter().any(|word| *word > beta),
            beta == 0 && !own.is_empty(),
            own.contains(&65_535),
            read.iter().zip(in_service).any(|(own, word)| *own != 0 && *word != PRESENT),
            past.iter().any(|word| *word != 0),
            left().any(|(mark, without)| mark > without),
            left().any(|(mark, without)| mark < without),
            last,
        ];
        self.tally.is_of(name(call), &MINIMUMS, &are);
    }
}

fn name(call: &Call) -> &'static str {
    match call {
        Call::Build { .. } => "build",
        Call::Query { .. } => "query",
        Call::Peel { .. } => "peel",
        Call::Message { .. } => "message",
        Call::Messages { .. } => "message list",
        Call::CrowdLimits { .. } => "crowd limits",
        Call::CrowdCover { .. } => "crowd cover",
        Call::OwnCover { .. } => "own cover",
    }
}

/// The number of a peel or cover, and the marks that it would leave, where no ride has a minimum.
fn without_minimums(call: &Call, memory: &Memory) -> Option<(u16, Vec<u16>)> {
    let mut call = call.clone();
    match &mut call {
        Call::Peel { minimums, .. } | Call::OwnCover { minimums, .. } | Call::CrowdCover { minimums, .. } => {
            *minimums = Part::filled(MINIMUM_PLACES, 0)
        }
        _ => return None,
    }
    let mut memory = memory.clone();
    let (outcome, _) = call.run(&mut Reference, &mut memory);
    Some((outcome.numbers[0], memory.marks))
}

/// The words of a board, to the lengths of document 01's layout.
pub fn board_words(memory: &Memory, head: Head) -> Vectors {
    memory.parts.first(head.lengths()).copy()
}
