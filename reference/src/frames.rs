//! The streams of calls that are replayed, as README.md lays them out: what writes a frame, and what replays a stream
//! and gives the line of text for each call.

use crate::crowd::{Band, Bands, CrowdLimits};
use crate::{Answer, Counts, Head, Lengths, Message, Parts, Peeled, Slices, Vectors};

/// The most places of each part of a board, of the minimums, of the marks and of the answers that a frame may lend.
pub const PLACES: Lengths = Parts {
    operators: 12_300,
    rides: 12_300,
    stamps: 12_300,
    revisions: 12_300,
    index: 16_000,
    presence_stamps: 270,
    presence_revisions: 270,
    presence: 270,
};
pub const MINIMUM_PLACES: usize = 70;
pub const MARK_PLACES: usize = 270;
pub const ANSWER_PLACES: usize = 70;

/// The kinds of a frame.
pub const BUILD: u16 = 1;
pub const QUERY: u16 = 2;
pub const PEEL: u16 = 3;
pub const MESSAGE: u16 = 4;
pub const MESSAGES: u16 = 5;
pub const CROWD_LIMITS: u16 = 6;
pub const CROWD_COVER: u16 = 7;
pub const OWN_COVER: u16 = 8;

// What a frame says of a lent part

/// How many places are lent, the word that all of them are set to first, and the words put from a place on after that.
/// What neither reaches is as the call before left it.
#[derive(Clone, Debug, Default, PartialEq, Eq)]
pub struct Part<T> {
    pub len: usize,
    pub fill: Option<T>,
    pub words: Vec<T>,
    pub from: usize,
}

impl<T: Clone + Default> Part<T> {
    /// Lent as the call before left it.
    pub fn kept(len: usize) -> Self {
        Part { len, ..Self::default() }
    }

    pub fn filled(len: usize, word: T) -> Self {
        Part { len, fill: Some(word), ..Self::default() }
    }

    /// The first words given, and the others all equal to one.
    pub fn given(len: usize, words: &[T], others: T) -> Self {
        let count = words.len().min(len);
        Part { len, fill: Some(others), words: words[..count].to_vec(), from: 0 }
    }

    /// As the call before left it, but for the words from a place on.
    pub fn changed(len: usize, from: usize, words: &[T]) -> Self {
        let count = words.len().min(len.saturating_sub(from));
        Part { len, fill: None, words: words[..count].to_vec(), from }
    }
}

/// What a frame says of the parts of a board.
pub type Framed = Parts<Part<u16>, Part<u32>>;

impl Framed {
    /// Lent as the call before left them.
    pub fn kept(lengths: Lengths) -> Self {
        lengths.map(Part::kept, Part::kept)
    }
}

/// A word of a part, as the 16-bit words that stand for it in a frame.
pub trait Word: Copy {
    fn put(self, frame: &mut Vec<u16>);
    fn get(frame: &mut Cursor) -> Self;
    fn value(self) -> u64;
}

impl Word for u16 {
    fn put(self, frame: &mut Vec<u16>) {
        frame.push(self);
    }

    fn get(frame: &mut Cursor) -> Self {
        frame.word()
    }

    fn value(self) -> u64 {
        self as u64
    }
}

impl Word for u32 {
    fn put(self, frame: &mut Vec<u16>) {
        frame.push(self as u16);
        frame.push((self >> 16) as u16);
    }

    fn get(frame: &mut Cursor) -> Self {
        let low = frame.word() as u32;
        low + ((frame.word() as u32) << 16)
    }

    fn value(self) -> u64 {
        self as u64
    }
}

/// One call, with all that it is lent.
#[derive(Clone, Debug, PartialEq, Eq)]
pub enum Call {
    Build {
        head: Head,
        start: u32,
        parts: Framed,
    },
    Query {
        head: Head,
        alpha: u16,
        beta: u16,
        index: Part<u16>,
        presence: Part<u16>,
        marks: Part<u16>,
    },
    Peel {
        head: Head,
        alpha: u16,
        beta: u16,
        steps: u16,
        operators: Part<u16>,
        rides: Part<u16>,
        presence: Part<u16>,
        minimums: Part<u16>,
        marks: Part<u16>,
    },
    Message {
        head: Head,
        message: Message,
        parts: Framed,
    },
    Messages {
        head: Head,
        messages: Vec<Message>,
        parts: Framed,
        answers: Part<u16>,
    },
    CrowdLimits {
        guests: u16,
        bands: Bands,
    },
    CrowdCover {
        head: Head,
        guests: u16,
        bands: Bands,
        operators: Part<u16>,
        rides: Part<u16>,
        presence: Part<u16>,
        minimums: Part<u16>,
        marks: Part<u16>,
    },
    OwnCover {
        head: Head,
        alpha: u16,
        beta: u16,
        operators: Part<u16>,
        rides: Part<u16>,
        presence: Part<u16>,
        minimums: Part<u16>,
        marks: Part<u16>,
    },
}

// Writing

fn put_head(frame: &mut Vec<u16>, head: Head) {
    frame.extend([head.operators, head.rides, head.pairs]);
}

fn put_message(frame: &mut Vec<u16>, message: Message) {
    frame.extend([message.kind, message.operator, message.ride, message.revision]);
    message.stamp.put(frame);
}

fn put_bands(frame: &mut Vec<u16>, bands: &Bands) {
    frame.push(bands.count);
    for band in &bands.bands {
        frame.extend([band.first, band.last, band.alpha, band.beta]);
    }
}

fn put_part<T: Word>(frame: &mut Vec<u16>, part: &Part<T>) {
    let mode = part.fill.is_some() as u16 + 2 * !part.words.is_empty() as u16;
    frame.extend([part.len as u16, mode]);
    if let Some(word) = part.fill {
        word.put(frame);
    }
    if !part.words.is_empty() {
        frame.extend([part.from as u16, part.words.len() as u16]);
        for word in &part.words {
            word.put(frame);
        }
    }
}

fn put_parts(frame: &mut Vec<u16>, parts: &Framed) {
    let Parts { operators, rides, stamps, revisions, index, presence_stamps, presence_revisions, presence } = parts;
    put_part(frame, operators);
    put_part(frame, rides);
    put_part(frame, stamps);
    put_part(frame, revisions);
    put_part(frame, index);
    put_part(frame, presence_stamps);
    put_part(frame, presence_revisions);
    put_part(frame, presence);
}

impl Call {
    /// The words of the call's frame, after the count.
    fn words(&self) -> Vec<u16> {
        let mut frame = Vec::new();
        match self {
            Call::Build { head, start, parts } => {
                frame.push(BUILD);
                put_head(&mut frame, *head);
                start.put(&mut frame);
                put_parts(&mut frame, parts);
            }
            Call::Query { head, alpha, beta, index, presence, marks } => {
                frame.push(QUERY);
                put_head(&mut frame, *head);
                frame.extend([*alpha, *beta]);
                put_part(&mut frame, index);
                put_part(&mut frame, presence);
                put_part(&mut frame, marks);
            }
            Call::Peel { head, alpha, beta, steps, operators, rides, presence, minimums, marks } => {
                frame.push(PEEL);
                put_head(&mut frame, *head);
                frame.extend([*alpha, *beta, *steps]);
                put_part(&mut frame, operators);
                put_part(&mut frame, rides);
                put_part(&mut frame, presence);
                put_part(&mut frame, minimums);
                put_part(&mut frame, marks);
            }
            Call::Message { head, message, parts } => {
                frame.push(MESSAGE);
                put_head(&mut frame, *head);
                put_message(&mut frame, *message);
                put_parts(&mut frame, parts);
            }
            Call::Messages { head, messages, parts, answers } => {
                frame.push(MESSAGES);
                put_head(&mut frame, *head);
                frame.push(messages.len() as u16);
                for message in messages {
                    put_message(&mut frame, *message);
                }
                put_parts(&mut frame, parts);
                put_part(&mut frame, answers);
            }
            Call::CrowdLimits { guests, bands } => {
                frame.extend([CROWD_LIMITS, *guests]);
                put_bands(&mut frame, bands);
            }
            Call::CrowdCover { head, guests, bands, operators, rides, presence, minimums, marks } => {
                frame.push(CROWD_COVER);
                put_head(&mut frame, *head);
                frame.push(*guests);
                put_bands(&mut frame, bands);
                put_part(&mut frame, operators);
                put_part(&mut frame, rides);
                put_part(&mut frame, presence);
                put_part(&mut frame, minimums);
                put_part(&mut frame, marks);
            }
            Call::OwnCover { head, alpha, beta, operators, rides, presence, minimums, marks } => {
                frame.push(OWN_COVER);
                put_head(&mut frame, *head);
                frame.extend([*alpha, *beta]);
                put_part(&mut frame, operators);
                put_part(&mut frame, rides);
                put_part(&mut frame, presence);
                put_part(&mut frame, minimums);
                put_part(&mut frame, marks);
            }
        }
        frame
    }

    /// Appends the call's frame to a stream.
    pub fn write(&self, stream: &mut Vec<u8>) {
        let words = self.words();
        let count = u16::try_from(words.len()).expect("a frame has at most 65535 words");
        for word in std::iter::once(count).chain(words) {
            stream.extend(word.to_le_bytes());
        }
    }
}

/// Ends a stream.
pub fn write_end(stream: &mut Vec<u8>) {
    stream.extend(0u16.to_le_bytes());
}

// Replaying

/// The calls that a stream is replayed on.
pub trait Board {
    fn build(&mut self, head: Head, parts: &mut Slices, start: u32) -> u16;
    fn query(
        &mut self,
        head: Head,
        index: &[u16],
        presence: &[u16],
        alpha: u16,
        beta: u16,
        marks: &mut [u16],
    ) -> Counts;
    #[allow(clippy::too_many_arguments)]
    fn peel(
        &mut self,
        head: Head,
        operators: &[u16],
        rides: &[u16],
        presence: &[u16],
        minimums: &[u16],
        marks: &mut [u16],
        alpha: u16,
        beta: u16,
        steps: u16,
    ) -> Peeled;
    fn message(&mut self, head: &mut Head, parts: &mut Slices, message: Message) -> Answer;
    fn messages(&mut self, head: &mut Head, parts: &mut Slices, messages: &[Message], answers: &mut [u16]) -> u16;
    fn crowd_limits(&mut self, bands: Bands, guests: u16) -> CrowdLimits;
    #[allow(clippy::too_many_arguments)]
    fn crowd_cover(
        &mut self,
        head: Head,
        operators: &[u16],
        rides: &[u16],
        presence: &[u16],
        bands: Bands,
        guests: u16,
        minimums: &[u16],
        marks: &mut [u16],
    ) -> Counts;
    #[allow(clippy::too_many_arguments)]
    fn own_cover(
        &mut self,
        head: Head,
        operators: &[u16],
        rides: &[u16],
        presence: &[u16],
        minimums: &[u16],
        alpha: u16,
        beta: u16,
        marks: &mut [u16],
    ) -> Counts;
}

/// The calls of this package.
pub struct Reference;

impl Board for Reference {
    fn build(&mut self, head: Head, parts: &mut Slices, start: u32) -> u16 {
        crate::build(head, parts, start)
    }

    fn query(
        &mut self,
        head: Head,
        index: &[u16],
        presence: &[u16],
        alpha: u16,
        beta: u16,
        marks: &mut [u16],
    ) -> Counts {
        crate::query(head, index, presence, alpha, beta, marks)
    }

    fn peel(
        &mut self,
        head: Head,
        operators: &[u16],
        rides: &[u16],
        presence: &[u16],
        minimums: &[u16],
        marks: &mut [u16],
        alpha: u16,
        beta: u16,
        steps: u16,
    ) -> Peeled {
        crate::peel(head, operators, rides, presence, minimums, marks, alpha, beta, steps)
    }

    fn message(&mut self, head: &mut Head, parts: &mut Slices, message: Message) -> Answer {
        crate::message(head, parts, message)
    }

    fn messages(&mut self, head: &mut Head, parts: &mut Slices, messages: &[Message], answers: &mut [u16]) -> u16 {
        crate::messages(head, parts, messages, answers)
    }

    fn crowd_limits(&mut self, bands: Bands, guests: u16) -> CrowdLimits {
        crate::crowd::crowd_limits(&bands, guests)
    }

    fn crowd_cover(
        &mut self,
        head: Head,
        operators: &[u16],
        rides: &[u16],
        presence: &[u16],
        bands: Bands,
        guests: u16,
        minimums: &[u16],
        marks: &mut [u16],
    ) -> Counts {
        crate::crowd::crowd_cover(head, operators, rides, presence, &bands, guests, minimums, marks)
    }

    fn own_cover(
        &mut self,
        head: Head,
        operators: &[u16],
        rides: &[u16],
        presence: &[u16],
        minimums: &[u16],
        alpha: u16,
        beta: u16,
        marks: &mut [u16],
    ) -> Counts {
        crate::own_cover(head, operators, rides, presence, minimums, alpha, beta, marks)
    }
}

/// The memory that calls are lent parts of. It stays from call to call.
#[derive(Clone)]
pub struct Memory {
    pub parts: Vectors,
    pub minimums: Vec<u16>,
    pub marks: Vec<u16>,
    pub answers: Vec<u16>,
}

impl Default for Memory {
    fn default() -> Self {
        let parts = PLACES.map(|places| vec![0; places], |places| vec![0; places]);
        let (minimums, marks, answers) = (vec![0; MINIMUM_PLACES], vec![0; MARK_PLACES], vec![0; ANSWER_PLACES]);
        Memory { parts, minimums, marks, answers }
    }
}

/// The first `len` places of a memory part, set as a frame says.
fn lend<'a, T: Word>(memory: &'a mut [T], part: &Part<T>) -> &'a mut [T] {
    let lent = &mut memory[..part.len];
    if let Some(word) = part.fill {
        lent.fill(word);
    }
    lent[part.from..part.from + part.words.len()].copy_from_slice(&part.words);
    lent
}

fn lend_parts<'a>(memory: &'a mut Vectors, parts: &Framed) -> Slices<'a> {
    let both = memory.lend().zip(parts.each_ref());
    both.map(|(memory, part)| lend(memory, part), |(memory, part)| lend(memory, part))
}

/// What a call answered: its numbers, the first of them document 01's, and the checksum of all that it was lent.
#[derive(Clone, Debug, PartialEq, Eq)]
pub struct Outcome {
    pub numbers: Vec<u16>,
    pub checksum: u64,
}

impl std::fmt::Display for Outcome {
    fn fmt(&self, f: &mut std::fmt::Formatter) -> std::fmt::Result {
        for number in &self.numbers {
            write!(f, "{number} ")?;
        }
        write!(f, "{}", self.checksum)
    }
}

fn checksum<T: Word>(before: u64, words: &[T]) -> u64 {
    words.iter().fold(before, |sum, word| (sum * 65_599 + word.value()) % 2_147_483_647)
}

/// That of what a peel or a cover is lent.
fn words_checksum(parts: [&mut [u16]; 5]) -> u64 {
    parts.iter().fold(0, |sum, words| checksum(sum, words))
}

fn head_checksum(head: Head) -> u64 {
    checksum(0, &[head.operators, head.rides, head.pairs])
}

fn parts_checksum(before: u64, parts: &Slices) -> u64 {
    let Parts { operators, rides, stamps, revisions, index, presence_stamps, presence_revisions, presence } = parts;
    let mut sum = before;
    sum = checksum(sum, operators);
    sum = checksum(sum, rides);
    sum = checksum(sum, stamps);
    sum = checksum(sum, revisions);
    sum = checksum(sum, index);
    sum = checksum(sum, presence_stamps);
    sum = checksum(sum, presence_revisions);
    checksum(sum, presence)
}

impl Call {
    /// Makes the call. Gives what it answered, and the head that it left: of zeros after a look-up, which has none.
    pub fn run(&self, board: &mut impl Board, memory: &mut Memory) -> (Outcome, Head) {
        match self {
            Call::Build { head, start, parts } => {
                let mut parts = lend_parts(&mut memory.parts, parts);
                let code = board.build(*head, &mut parts, *start);
                (Outcome { numbers: vec![code], checksum: parts_checksum(0, &parts) }, *head)
            }
            Call::Query { head, alpha, beta, index, presence, marks } => {
                let index = lend(&mut memory.parts.index, index);
                let presence = lend(&mut memory.parts.presence, presence);
                let marks = lend(&mut memory.marks, marks);
                let counts = board.query(*head, index, presence, *alpha, *beta, marks);
                let numbers = vec![counts.code, counts.operators, counts.rides];
                let sum = checksum(checksum(0, index), presence);
                (Outcome { numbers, checksum: checksum(sum, marks) }, *head)
            }
            Call::Peel { head, alpha, beta, steps, operators, rides, presence, minimums, marks } => {
                let operators = lend(&mut memory.parts.operators, operators);
                let rides = lend(&mut memory.parts.rides, rides);
                let presence = lend(&mut memory.parts.presence, presence);
                let minimums = lend(&mut memory.minimums, minimums);
                let marks = lend(&mut memory.marks, marks);
                let peeled = board.peel(*head, operators, rides, presence, minimums, marks, *alpha, *beta, *steps);
                let numbers = vec![peeled.code, peeled.settled, peeled.steps];
                let checksum = words_checksum([operators, rides, presence, minimums, marks]);
                (Outcome { numbers, checksum }, *head)
            }
            Call::Message { head, message, parts } => {
                let mut head = *head;
                let mut parts = lend_parts(&mut memory.parts, parts);
                let answer = board.message(&mut head, &mut parts, *message);
                let sum = parts_checksum(head_checksum(head), &parts);
                (Outcome { numbers: vec![answer.code, answer.differ], checksum: sum }, head)
            }
            Call::Messages { head, messages, parts, answers } => {
                let mut head = *head;
                let mut parts = lend_parts(&mut memory.parts, parts);
                let answers = lend(&mut memory.answers, answers);
                let code = board.messages(&mut head, &mut parts, messages, answers);
                let sum = parts_checksum(head_checksum(head), &parts);
                (Outcome { numbers: vec![code], checksum: checksum(sum, answers) }, head)
            }
            Call::CrowdLimits { guests, bands } => {
                let limits = board.crowd_limits(*bands, *guests);
                let numbers = vec![limits.code, limits.alpha, limits.beta];
                (Outcome { numbers, checksum: 0 }, Head { operators: 0, rides: 0, pairs: 0 })
            }
            Call::CrowdCover { head, guests, bands, operators, rides, presence, minimums, marks } => {
                let operators = lend(&mut memory.parts.operators, operators);
                let rides = lend(&mut memory.parts.rides, rides);
                let presence = lend(&mut memory.parts.presence, presence);
                let minimums = lend(&mut memory.minimums, minimums);
                let marks = lend(&mut memory.marks, marks);
                let counts = board.crowd_cover(*head, operators, rides, presence, *bands, *guests, minimums, marks);
                let numbers = vec![counts.code, counts.operators, counts.rides];
                let checksum = words_checksum([operators, rides, presence, minimums, marks]);
                (Outcome { numbers, checksum }, *head)
            }
            Call::OwnCover { head, alpha, beta, operators, rides, presence, minimums, marks } => {
                let operators = lend(&mut memory.parts.operators, operators);
                let rides = lend(&mut memory.parts.rides, rides);
                let presence = lend(&mut memory.parts.presence, presence);
                let minimums = lend(&mut memory.minimums, minimums);
                let marks = lend(&mut memory.marks, marks);
                let counts = board.own_cover(*head, operators, rides, presence, minimums, *alpha, *beta, marks);
                let numbers = vec![counts.code, counts.operators, counts.rides];
                let checksum = words_checksum([operators, rides, presence, minimums, marks]);
                (Outcome { numbers, checksum }, *head)
            }
        }
    }
}

/// Reads words one after another.
pub struct Cursor<'a> {
    bytes: &'a [u8],
}

impl<'a> Cursor<'a> {
    pub fn new(bytes: &'a [u8]) -> Self {
        Cursor { bytes }
    }

    fn word(&mut self) -> u16 {
        let word = u16::from_le_bytes([self.bytes[0], self.bytes[1]]);
        self.bytes = &self.bytes[2..];
        word
    }

    fn head(&mut self) -> Head {
        Head { operators: self.word(), rides: self.word(), pairs: self.word() }
    }

    fn message(&mut self) -> Message {
        let (kind, operator, ride, revision) = (self.word(), self.word(), self.word(), self.word());
        Message { kind, operator, ride, revision, stamp: u32::get(self) }
    }

    fn bands(&mut self) -> Bands {
        let mut bands = Bands { count: self.word(), ..Bands::default() };
        for band in &mut bands.bands {
            *band = Band { first: self.word(), last: self.word(), alpha: self.word(), beta: self.word() };
        }
        bands
    }

    fn part<T: Word + Clone + Default>(&mut self) -> Part<T> {
        let mut part = Part { len: self.word() as usize, ..Part::default() };
        let mode = self.word();
        if mode % 2 == 1 {
            part.fill = Some(T::get(self));
        }
        if mode / 2 == 1 {
            part.from = self.word() as usize;
            let count = self.word();
            part.words = (0..count).map(|_| T::get(self)).collect();
        }
        part
    }

    fn parts(&mut self) -> Framed {
        Parts {
            operators: self.part(),
            rides: self.part(),
            stamps: self.part(),
            revisions: self.part(),
            index: self.part(),
            presence_stamps: self.part(),
            presence_revisions: self.part(),
            presence: self.part(),
        }
    }

    /// The next call, or none at the stream's end.
    pub fn call(&mut self) -> Option<Call> {
        if self.word() == 0 {
            return None;
        }
        Some(match self.word() {
            BUILD => Call::Build { head: self.head(), start: u32::get(self), parts: self.parts() },
            QUERY => Call::Query {
                head: self.head(),
                alpha: self.word(),
                beta: self.word(),
                index: self.part(),
                presence: self.part(),
                marks: self.part(),
            },
            PEEL => Call::Peel {
                head: self.head(),
                alpha: self.word(),
                beta: self.word(),
                steps: self.word(),
                operators: self.part(),
                rides: self.part(),
                presence: self.part(),
                minimums: self.part(),
                marks: self.part(),
            },
            MESSAGE => Call::Message { head: self.head(), message: self.message(), parts: self.parts() },
            MESSAGES => {
                let head = self.head();
                let count = self.word();
                let messages = (0..count).map(|_| self.message()).collect();
                Call::Messages { head, messages, parts: self.parts(), answers: self.part() }
            }
            CROWD_LIMITS => Call::CrowdLimits { guests: self.word(), bands: self.bands() },
            CROWD_COVER => Call::CrowdCover {
                head: self.head(),
                guests: self.word(),
                bands: self.bands(),
                operators: self.part(),
                rides: self.part(),
                presence: self.part(),
                minimums: self.part(),
                marks: self.part(),
            },
            OWN_COVER => Call::OwnCover {
                head: self.head(),
                alpha: self.word(),
                beta: self.word(),
                operators: self.part(),
                rides: self.part(),
                presence: self.part(),
                minimums: self.part(),
                marks: self.part(),
            },
            kind => panic!("a frame of kind {kind}"),
        })
    }
}

/// Replays a stream, call by call, and gives a line for each.
pub fn lines<'a, B: Board>(stream: &'a [u8], board: &'a mut B) -> impl Iterator<Item = String> + 'a {
    let mut memory = Memory::default();
    let mut cursor = Cursor::new(stream);
    std::iter::from_fn(move || cursor.call().map(|call| call.run(board, &mut memory).0.to_string()))
}

/// Replays a whole stream: the lines of its calls.
pub fn replay(stream: &[u8], board: &mut impl Board) -> String {
    lines(stream, board).map(|line| line + "\n").collect()
}

/// Replays a stream of inputs of the program `cover`: the outputs, one after another.
pub fn replay_cover(stream: &[u8], mut cover: impl FnMut(&[u8]) -> Vec<u8>) -> Vec<u8> {
    let mut rest = stream;
    let mut output = Vec::new();
    while let [low, high, after @ ..] = rest {
        let (input, next) = after.split_at(u16::from_le_bytes([*low, *high]) as usize);
        output.extend(cover(input));
        rest = next;
    }
    output
}
