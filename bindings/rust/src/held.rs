//! A board over memory that the caller lends for as long as the board lives.

use crate::parts::MARK_PLACES;
use crate::{build, crowd_cover, message, messages, own_cover, peel, preview, query};
use crate::{index_places, mark_places, pair_places};
use crate::{Answers, Bands, Clearances, Counts, Head, Message, Parts, Peeled, Refusal, Words, PRESENT};

/// What a board has of an operator's or a ride's presence.
#[derive(Clone, Copy, Debug, PartialEq, Eq)]
pub struct Presence {
    /// Whether the operator is on, or the ride in: its word is [`PRESENT`].
    pub present: bool,
    /// The stamp of its last message, 0 where none was heard of.
    pub stamp: u32,
    /// The revision of its last message, 0 where none was heard of.
    pub revision: u16,
}

/// A board in lent memory. While it lives its own calls alone write that memory, so that of 1 to 6 only an argument of
/// the caller's that is too short (3) refuses a call: marks, an answer list or spare memory.
#[derive(Debug)]
pub struct Board<'m> {
    head: Head,
    parts: Parts<'m>,
}

impl<'m> Board<'m> {
    /// Builds a board of these pairs, strictly ascending by operator and then ride, in lent memory. They count as granted
    /// at the stamp `start`, from 1, with revision 0. Every operator is on and every ride in.
    ///
    /// Refuses with 1 to 5 and 9. A board that stood in the memory is then as it was, and [`Board::attach`] takes it up.
    pub fn build(
        mut parts: Parts<'m>,
        operators: u16,
        rides: u16,
        pairs: &[(u16, u16)],
        start: u32,
    ) -> Result<Board<'m>, Refusal> {
        parts.check_build(operators, rides, pairs, start)?;
        let head = Head { operators, rides, pairs: pairs.len() as u16 };
        for (place, pair) in pairs.iter().enumerate() {
            (parts.operators[place], parts.rides[place]) = *pair;
        }
        build(head, &mut parts, start)?;
        Ok(Board { head, parts })
    }

    /// Takes up the board that stands in lent memory, as after a restart, with the head that was stored beside it.
    /// Writes nothing.
    ///
    /// Refuses with 1 to 6. They say nothing of the index, nor of a stamp that is not 0, nor of a revision, nor of presence:
    /// whoever's word is not [`PRESENT`] is off or out. A damaged index gives wrong covers until a taken message fills it
    /// anew; a [`peel`](Board::peel) from all ones finds a cover without it.
    pub fn attach(parts: Parts<'m>, head: Head) -> Result<Board<'m>, Refusal> {
        let mut board = Board { head, parts };
        // A list call checks the board before its first message; this one has none.
        board.messages(&[], &mut [])?;
        Ok(board)
    }

    /// The sizes and the pair count as they are now. With [`words`](Board::words) it is what to store of a board.
    pub fn head(&self) -> Head {
        self.head
    }

    /// The listed pairs, ascending: every clearance, also of those who are off or out.
    pub fn pairs(&self) -> impl Iterator<Item = (u16, u16)> + '_ {
        let (operators, rides) = (self.parts.operators.iter(), self.parts.rides.iter());
        operators.copied().zip(rides.copied()).take(self.head.pairs as usize)
    }

    /// The stamp of a pair's last message, 0 where none was heard of; `None` out of range.
    pub fn stamp(&self, operator: u16, ride: u16) -> Option<u32> {
        self.place(operator, ride).map(|place| self.parts.stamps[place])
    }

    /// The revision of a pair's last message, 0 where none was heard of; `None` out of range.
    pub fn revision(&self, operator: u16, ride: u16) -> Option<u16> {
        self.place(operator, ride).map(|place| self.parts.revisions[place])
    }

    /// Whether an operator is on, and its last stamp and revision; `None` out of range.
    pub fn operator_presence(&self, operator: u16) -> Option<Presence> {
        (operator < self.head.operators).then(|| self.presence_at(operator as usize))
    }

    /// Whether a ride is in, and its last stamp and revision; `None` out of range.
    pub fn ride_presence(&self, ride: u16) -> Option<Presence> {
        (ride < self.head.rides).then(|| self.presence_at(self.head.operators as usize + ride as usize))
    }

    fn presence_at(&self, place: usize) -> Presence {
        let Parts { presence_stamps, presence_revisions, presence, .. } = &self.parts;
        let present = presence[place] == PRESENT;
        Presence { present, stamp: presence_stamps[place], revision: presence_revisions[place] }
    }

    /// The place of a pair among the stamps, and among the revisions; `None` out of range.
    fn place(&self, operator: u16, ride: u16) -> Option<usize> {
        let in_range = operator < self.head.operators && ride < self.head.rides;
        in_range.then(|| operator as usize * self.head.rides as usize + ride as usize)
    }

    /// The levels of row alpha, operators first, then rides; `None` where the index has no such row. There is no row 0: a
    /// query with alpha 0 goes by row 1.
    pub fn row(&self, alpha: u16) -> Option<&[u16]> {
        let width = mark_places(self.head.operators, self.head.rides);
        let in_range = 1 <= alpha && alpha <= self.head.rides;
        in_range.then(|| &self.parts.index[(alpha as usize - 1) * width..alpha as usize * width])
    }

    /// The parts to the lengths that the board uses.
    pub fn words(&self) -> Words<'_> {
        let Head { operators, rides, .. } = self.head;
        let (places, nodes) = (pair_places(operators, rides), mark_places(operators, rides));
        let parts = &self.parts;
        Words {
            operators: &parts.operators[..places],
            rides: &parts.rides[..places],
            stamps: &parts.stamps[..places],
            revisions: &parts.revisions[..places],
            index: &parts.index[..index_places(operators, rides)],
            presence_stamps: &parts.presence_stamps[..nodes],
            presence_revisions: &parts.presence_revisions[..nodes],
            presence: &parts.presence[..nodes],
        }
    }

    /// What a peel and the covers that need no index read.
    fn clearances(&self) -> Clearances<'_> {
        self.parts.words().clearances()
    }

    /// Query: writes the marks of cover (alpha, beta), and counts them. A limit of 0 is no limit. Nobody who is off or out is
    /// marked.
    pub fn query(&self, alpha: u16, beta: u16, marks: &mut [u16]) -> Result<Counts, Refusal> {
        query(self.head, self.parts.index, self.parts.presence, alpha, beta, marks)
    }

    /// Cover (alpha, beta), with marks of its own. A limit of 0 is no limit: alpha 0 takes in every operator who is on, beta 0
    /// every ride that is in, so that a dispatch permit needs a beta from 1. Minimums of rides don't count here: where there
    /// are any, permits come from [`cover_with`](Board::cover_with) or [`cover_for`](Board::cover_for).
    pub fn cover(&self, alpha: u16, beta: u16) -> Result<Cover, Refusal> {
        let mut marks = [0; MARK_PLACES];
        let counts = self.query(alpha, beta, &mut marks)?;
        Ok(Cover { head: self.head, counts, marks })
    }

    /// Peel: clears the marks of those that fall short, in at most `steps` steps. The limit of a ride is its minimum, or beta
    /// where that is 0; the list has a place for each ride at least, and zeros where no ride has a minimum. Whoever is off or
    /// out falls short of every limit, and takes a step too; nobody else falls short of a limit of 0. It does not read the
    /// index.
    pub fn peel(
        &self,
        minimums: &[u16],
        marks: &mut [u16],
        alpha: u16,
        beta: u16,
        steps: u16,
    ) -> Result<Peeled, Refusal> {
        peel(self.head, self.clearances(), minimums, marks, alpha, beta, steps)
    }

    /// Own cover: writes the marks of the cover with minimums, and counts them. The limits are those of a
    /// [`peel`](Board::peel). It does not read the index, nor the marks that come in.
    pub fn own_cover(&self, minimums: &[u16], alpha: u16, beta: u16, marks: &mut [u16]) -> Result<Counts, Refusal> {
        own_cover(self.head, self.clearances(), minimums, alpha, beta, marks)
    }

    /// The cover with minimums, with marks of its own. A dispatch permit needs a minimum of its ride, or a beta from 1.
    ///
    /// ```
    /// use board::{Board, Memory};
    ///
    /// let mut memory = Box::new(Memory::new());
    /// let board = Board::build(memory.parts(), 3, 2, &[(0, 0), (1, 0), (1, 1), (2, 0)], 10)?;
    /// assert!(board.cover_with(&[0, 0], 1, 2)?.rides().eq([0]));
    /// assert!(board.cover_with(&[0, 1], 1, 2)?.rides().eq([0, 1]));
    /// assert!(board.cover_with(&[4, 1], 1, 2)?.rides().eq([1]));
    /// # Ok::<(), board::Refusal>(())
    /// ```
    pub fn cover_with(&self, minimums: &[u16], alpha: u16, beta: u16) -> Result<Cover, Refusal> {
        let mut marks = [0; MARK_PLACES];
        let counts = self.own_cover(minimums, alpha, beta, &mut marks)?;
        Ok(Cover { head: self.head, counts, marks })
    }

    /// Crowd cover: writes the marks of the cover for a guest count, and counts them. It is the
    /// [`own_cover`](Board::own_cover) for the limits of the band.
    pub fn crowd_cover(
        &self,
        bands: Bands,
        guests: u16,
        minimums: &[u16],
        marks: &mut [u16],
    ) -> Result<Counts, Refusal> {
        crowd_cover(self.head, self.clearances(), bands, guests, minimums, marks)
    }

    /// The cover for a guest count, with marks of its own. A dispatch permit needs a minimum of its ride, or a band with beta
    /// from 1: [`crowd_limits`](crate::crowd_limits) gives it.
    ///
    /// ```
    /// use board::{Band, Bands, Board, Memory};
    ///
    /// let mut memory = Box::new(Memory::new());
    /// let board = Board::build(memory.parts(), 2, 2, &[(0, 0), (1, 0), (1, 1)], 10)?;
    /// let quiet = Band { first: 0, last: 7_999, alpha: 1, beta: 1 };
    /// let busy = Band { first: 8_000, last: 20_000, alpha: 1, beta: 2 };
    /// let bands = Bands::new(&[quiet, busy]);
    /// assert!(board.cover_for(bands, 1_500, &[0, 0])?.rides().eq([0, 1]));
    /// assert!(board.cover_for(bands, 1_500, &[0, 2])?.rides().eq([0]));
    /// assert!(board.cover_for(bands, 18_000, &[0, 0])?.rides().eq([0]));
    /// assert!(board.cover_for(bands, 18_000, &[0, 1])?.rides().eq([0, 1]));
    /// # Ok::<(), board::Refusal>(())
    /// ```
    pub fn cover_for(&self, bands: Bands, guests: u16, minimums: &[u16]) -> Result<Cover, Refusal> {
        let mut marks = [0; MARK_PLACES];
        let counts = self.crowd_cover(bands, guests, minimums, &mut marks)?;
        Ok(Cover { head: self.head, counts, marks })
    }

    /// Takes one message; the number of index words that differ before and after.
    pub fn message(&mut self, one: Message) -> Result<u16, Refusal> {
        message(&mut self.head, &mut self.parts, one)
    }

    /// Takes a list of messages in order, over an answer list at least as long.
    pub fn messages<'a>(&mut self, list: &[Message], answers: &'a mut [u16]) -> Result<Answers<'a>, Refusal> {
        messages(&mut self.head, &mut self.parts, list, answers)
    }

    /// What a message would do: the number of index words that would differ, and the board as the message would leave it,
    /// in spare memory as long as this board needs. This board stays as it is. What the spare memory holds does not
    /// matter.
    ///
    /// Refuses as [`message`](Board::message) would, and with 3 where the spare memory is too short. A refusal leaves
    /// every word of the spare memory.
    ///
    /// ```
    /// use board::{Board, Memory, Message};
    ///
    /// let (mut memory, mut spare) = (Box::new(Memory::new()), Box::new(Memory::new()));
    /// let board = Board::build(memory.parts(), 2, 1, &[(0, 0), (1, 0)], 10)?;
    /// let (_, without) = board.preview(Message::withdrawal(0, 0, 20), spare.parts())?;
    /// assert!(board.cover(1, 2)?.has_ride(0));
    /// assert!(!without.cover(1, 2)?.has_ride(0));
    /// # Ok::<(), board::Refusal>(())
    /// ```
    pub fn preview<'s>(&self, one: Message, mut spare: Parts<'s>) -> Result<(u16, Board<'s>), Refusal> {
        let mut head = Head::default();
        let differ = preview(self.head, self.parts.words(), one, &mut head, &mut spare)?;
        Ok((differ, Board { head, parts: spare }))
    }
}

/// A cover: who is in it.
#[derive(Clone, Copy, Debug, PartialEq, Eq)]
pub struct Cover {
    head: Head,
    counts: Counts,
    marks: [u16; MARK_PLACES],
}

impl Cover {
    /// How many operators and rides are in it.
    pub fn counts(&self) -> Counts {
        self.counts
    }

    /// Whether an operator is in it; an operator that the board doesn't have is not.
    pub fn has_operator(&self, operator: u16) -> bool {
        operator < self.head.operators && self.marks[operator as usize] == 1
    }

    /// Whether a ride is in it; a ride that the board doesn't have is not. A ride whose limit is from 1 may dispatch where it
    /// is in the cover. Under a limit of 0 every ride in service is in it, which permits nothing.
    pub fn has_ride(&self, ride: u16) -> bool {
        ride < self.head.rides && self.marks[self.head.operators as usize + ride as usize] == 1
    }

    /// The operators in the cover, ascending.
    pub fn operators(&self) -> impl Iterator<Item = u16> + '_ {
        (0..self.head.operators).filter(|&operator| self.has_operator(operator))
    }

    /// The rides in the cover, ascending.
    pub fn rides(&self) -> impl Iterator<Item = u16> + '_ {
        (0..self.head.rides).filter(|&ride| self.has_ride(ride))
    }
}
