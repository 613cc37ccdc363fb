//! The nine calls over lent slices. The library's calls accept every argument: they check what they use, and refuse. What
//! they ask of a C program, that a part is as long as it says, aligned and apart from the others, a Rust slice is by its
//! type. So no call here is `unsafe`. Those that take all parts are inlined: else a caller's stack has them twice.

use crate::exported;
use crate::{Answers, Clearances, Parts, Refusal, Words, BANDS_MOST};

/// Head: the sizes, and the number of pairs.
#[derive(Clone, Copy, Debug, Default, PartialEq, Eq)]
#[repr(C)]
pub struct Head {
    /// Operators, up to 200.
    pub operators: u16,
    /// Rides, up to 60.
    pub rides: u16,
    /// Listed pairs, up to operators × rides.
    pub pairs: u16,
}

/// The kind of a message that clears an operator for a ride.
pub const GRANT: u16 = 1;
/// The kind of a message that takes a clearance away.
pub const WITHDRAWAL: u16 = 2;
/// The kind of a message that an operator has come on shift.
pub const OPERATOR_ON: u16 = 3;
/// The kind of a message that an operator has gone off shift.
pub const OPERATOR_OFF: u16 = 4;
/// The kind of a message that a ride has come into service.
pub const RIDE_IN: u16 = 5;
/// The kind of a message that a ride has gone out of service.
pub const RIDE_OUT: u16 = 6;

/// Message: for one pair a grant or a withdrawal; for one operator on or off; for one ride in or out. The kind is a number,
/// since a radio can send any.
#[derive(Clone, Copy, Debug, Default, PartialEq, Eq)]
#[repr(C)]
pub struct Message {
    /// [`GRANT`] or [`WITHDRAWAL`], [`OPERATOR_ON`] or [`OPERATOR_OFF`], [`RIDE_IN`] or [`RIDE_OUT`]; any other is refused
    /// with 7.
    pub kind: u16,
    /// The operator, below the head's operators. A message for a ride does not use it, and has 0 here, else 15.
    pub operator: u16,
    /// The ride, below the head's rides. A message for an operator does not use it, and has 0 here, else 15.
    pub ride: u16,
    /// Which correction within its stamp it is, up to 255: at equal stamps the later has the larger revision. At both equal
    /// a withdrawal is later than a grant, off later than on, and out later than in.
    pub revision: u16,
    /// When it was sent, from 1: of two messages for one pair, operator or ride the later has the larger stamp.
    pub stamp: u32,
}

impl Message {
    /// A grant of a pair, sent at `stamp`, with revision 0.
    pub const fn grant(operator: u16, ride: u16, stamp: u32) -> Message {
        Message { kind: GRANT, operator, ride, revision: 0, stamp }
    }

    /// A withdrawal of a pair, sent at `stamp`, with revision 0.
    pub const fn withdrawal(operator: u16, ride: u16, stamp: u32) -> Message {
        Message { kind: WITHDRAWAL, operator, ride, revision: 0, stamp }
    }

    /// An operator on shift, sent at `stamp`, with revision 0.
    pub const fn operator_on(operator: u16, stamp: u32) -> Message {
        Message { kind: OPERATOR_ON, operator, ride: 0, revision: 0, stamp }
    }

    /// An operator off shift, sent at `stamp`, with revision 0.
    pub const fn operator_off(operator: u16, stamp: u32) -> Message {
        Message { kind: OPERATOR_OFF, operator, ride: 0, revision: 0, stamp }
    }

    /// A ride in service, sent at `stamp`, with revision 0.
    pub const fn ride_in(ride: u16, stamp: u32) -> Message {
        Message { kind: RIDE_IN, operator: 0, ride, revision: 0, stamp }
    }

    /// A ride out of service, sent at `stamp`, with revision 0.
    pub const fn ride_out(ride: u16, stamp: u32) -> Message {
        Message { kind: RIDE_OUT, operator: 0, ride, revision: 0, stamp }
    }

    /// The message with another revision.
    #[must_use]
    pub const fn with_revision(self, revision: u16) -> Message {
        Message { revision, ..self }
    }
}

/// Band: the limits for the guest counts from `first` to `last`, both included.
#[derive(Clone, Copy, Debug, Default, PartialEq, Eq)]
#[repr(C)]
pub struct Band {
    /// The first guest count, at most the last.
    pub first: u16,
    /// The last guest count, up to 20,000.
    pub last: u16,
    /// The limit for operators.
    pub alpha: u16,
    /// The limit for rides. A dispatch permit needs one from 1.
    pub beta: u16,
}

/// A table of one to eight bands in any order. Every guest count from 0 to 20,000 falls in exactly one of them.
#[derive(Clone, Copy, Debug, Default, PartialEq, Eq)]
#[repr(C)]
pub struct Bands {
    /// How many bands there are.
    pub count: u16,
    /// The bands. Those past the count are not read.
    pub bands: [Band; BANDS_MOST],
}

impl Bands {
    /// The table of these bands. One of no band, or of more than 8, is refused with 16 wherever it is used.
    pub const fn new(bands: &[Band]) -> Bands {
        let count = if bands.len() < u16::MAX as usize { bands.len() as u16 } else { u16::MAX };
        let mut table = Bands { count, bands: [Band { first: 0, last: 0, alpha: 0, beta: 0 }; BANDS_MOST] };
        let mut place = 0;
        while place < bands.len() && place < BANDS_MOST {
            table.bands[place] = bands[place];
            place += 1;
        }
        table
    }
}

/// The limits of a band.
#[derive(Clone, Copy, Debug, PartialEq, Eq)]
pub struct Limits {
    /// The limit for operators.
    pub alpha: u16,
    /// The limit for rides.
    pub beta: u16,
}

/// How many operators and rides a query, an own cover or a crowd cover marked.
#[derive(Clone, Copy, Debug, PartialEq, Eq)]
pub struct Counts {
    /// Operators marked.
    pub operators: u16,
    /// Rides marked.
    pub rides: u16,
}

/// Whether a peel settled, and the steps that it took.
#[derive(Clone, Copy, Debug, PartialEq, Eq)]
pub struct Peeled {
    /// Nobody falls short. Where it is false, all allowed steps were taken and somebody still does.
    pub settled: bool,
    /// Steps taken, at most those allowed.
    pub steps: u16,
}

/// Build: zeroes the tails of the pair arrays and the revisions, sets the stamps of listed pairs to `start` and the others
/// to 0, sets every operator on and every ride in, with stamp and revision 0, and fills the index.
#[inline]
pub fn build(head: Head, parts: &mut Parts, start: u32) -> Result<(), Refusal> {
    let Parts { operators, rides, stamps, revisions, index, presence_stamps, presence_revisions, presence } = parts;
    Refusal::check(unsafe {
        exported::board_build(
            head,
            operators.as_mut_ptr(),
            operators.len(),
            rides.as_mut_ptr(),
            rides.len(),
            start,
            stamps.as_mut_ptr(),
            stamps.len(),
            revisions.as_mut_ptr(),
            revisions.len(),
            index.as_mut_ptr(),
            index.len(),
            presence_stamps.as_mut_ptr(),
            presence_stamps.len(),
            presence_revisions.as_mut_ptr(),
            presence_revisions.len(),
            presence.as_mut_ptr(),
            presence.len(),
        )
    })
}

/// Query: marks who is in cover (alpha, beta), and counts them. Nobody who is off or out by the presence words is marked. A
/// limit of 0 is no limit: alpha 0 marks every operator who is on, and beta 0 every ride that is in, also one that no
/// operator is cleared for. A dispatch permit needs a beta from 1. A query knows no minimums: where rides have them, permits
/// come from an [`own_cover`] or a [`crowd_cover`].
///
/// Index and presence words are those of one board, as its last build or message left them. With words of another board
/// the marks are no cover.
pub fn query(
    head: Head,
    index: &[u16],
    presence: &[u16],
    alpha: u16,
    beta: u16,
    marks: &mut [u16],
) -> Result<Counts, Refusal> {
    let counts = unsafe {
        exported::board_query(
            head,
            index.as_ptr(),
            index.len(),
            presence.as_ptr(),
            presence.len(),
            alpha,
            beta,
            marks.as_mut_ptr(),
            marks.len(),
        )
    };
    Refusal::check(counts.code)?;
    Ok(Counts { operators: counts.operators, rides: counts.rides })
}

/// Peel: clears the marks of those that fall short, the lowest-numbered operator first, then rides, in at most `steps`
/// steps. A ride's limit is its own minimum, at the place of its number, also where that is smaller than beta; where the
/// minimum is 0 it is beta. The list of minimums may be longer than the rides, and holds zeros where no ride has one.
///
/// Whoever is off or out by the presence words falls short of every limit, and takes a step too. Nobody else falls short of
/// a limit of 0, so that a dispatch permit needs a minimum of its ride, or a beta from 1.
pub fn peel(
    head: Head,
    clearances: Clearances,
    minimums: &[u16],
    marks: &mut [u16],
    alpha: u16,
    beta: u16,
    steps: u16,
) -> Result<Peeled, Refusal> {
    let Clearances { operators, rides, presence } = clearances;
    let peeled = unsafe {
        exported::board_peel(
            head,
            operators.as_ptr(),
            operators.len(),
            rides.as_ptr(),
            rides.len(),
            presence.as_ptr(),
            presence.len(),
            minimums.as_ptr(),
            minimums.len(),
            marks.as_mut_ptr(),
            marks.len(),
            alpha,
            beta,
            steps,
        )
    };
    Refusal::check(peeled.code)?;
    Ok(Peeled { settled: peeled.settled == 1, steps: peeled.steps })
}

/// Own cover: marks the cover with minimums, and counts it as a query does. A ride's limit is that of a [`peel`]. The cover
/// is found from the pair arrays and the presence words; the marks that come in are not read. A dispatch permit needs a
/// minimum of its ride, or a beta from 1.
///
/// Refuses with 1 to 5; a list of minimums shorter than the rides is 3.
pub fn own_cover(
    head: Head,
    clearances: Clearances,
    minimums: &[u16],
    alpha: u16,
    beta: u16,
    marks: &mut [u16],
) -> Result<Counts, Refusal> {
    let Clearances { operators, rides, presence } = clearances;
    let counts = unsafe {
        exported::board_own_cover(
            head,
            operators.as_ptr(),
            operators.len(),
            rides.as_ptr(),
            rides.len(),
            presence.as_ptr(),
            presence.len(),
            minimums.as_ptr(),
            minimums.len(),
            alpha,
            beta,
            marks.as_mut_ptr(),
            marks.len(),
        )
    };
    Refusal::check(counts.code)?;
    Ok(Counts { operators: counts.operators, rides: counts.rides })
}

/// Look-up: the limits of the band that a guest count falls in. A table that is accepted for one guest count is accepted
/// for every one from 0 to 20,000.
///
/// ```
/// use board::{crowd_limits, Band, Bands, Limits, Refusal};
///
/// const QUIET: Band = Band { first: 0, last: 7_999, alpha: 1, beta: 2 };
/// const BUSY: Band = Band { first: 8_000, last: 20_000, alpha: 2, beta: 3 };
/// assert_eq!(crowd_limits(Bands::new(&[BUSY, QUIET]), 7_999), Ok(Limits { alpha: 1, beta: 2 }));
/// assert_eq!(crowd_limits(Bands::new(&[BUSY]), 8_000), Err(Refusal::BandsGap));
/// ```
pub fn crowd_limits(bands: Bands, guests: u16) -> Result<Limits, Refusal> {
    let limits = unsafe { exported::board_crowd_limits(bands, guests) };
    Refusal::check(limits.code)?;
    Ok(Limits { alpha: limits.alpha, beta: limits.beta })
}

/// Crowd cover: marks the cover for a guest count, and counts it as a query does. It is the [`own_cover`] for the limits of
/// the band: a ride's own minimum goes first, also where it is smaller than the band's beta. A dispatch permit needs a
/// minimum of its ride, or a band with beta from 1.
///
/// Refuses with 1 to 5 as an own cover does, then as [`crowd_limits`] does.
pub fn crowd_cover(
    head: Head,
    clearances: Clearances,
    bands: Bands,
    guests: u16,
    minimums: &[u16],
    marks: &mut [u16],
) -> Result<Counts, Refusal> {
    let Clearances { operators, rides, presence } = clearances;
    let counts = unsafe {
        exported::board_crowd_cover(
            head,
            operators.as_ptr(),
            operators.len(),
            rides.as_ptr(),
            rides.len(),
            presence.as_ptr(),
            presence.len(),
            bands,
            guests,
            minimums.as_ptr(),
            minimums.len(),
            marks.as_mut_ptr(),
            marks.len(),
        )
    };
    Refusal::check(counts.code)?;
    Ok(Counts { operators: counts.operators, rides: counts.rides })
}

/// Message: takes one message, if it is later than the last of its pair, operator or ride; the number of index words that
/// differ before and after.
#[inline]
pub fn message(head: &mut Head, parts: &mut Parts, message: Message) -> Result<u16, Refusal> {
    let Parts { operators, rides, stamps, revisions, index, presence_stamps, presence_revisions, presence } = parts;
    let answer = unsafe {
        exported::board_message(
            head,
            operators.as_mut_ptr(),
            operators.len(),
            rides.as_mut_ptr(),
            rides.len(),
            stamps.as_mut_ptr(),
            stamps.len(),
            revisions.as_mut_ptr(),
            revisions.len(),
            index.as_mut_ptr(),
            index.len(),
            presence_stamps.as_mut_ptr(),
            presence_stamps.len(),
            presence_revisions.as_mut_ptr(),
            presence_revisions.len(),
            presence.as_mut_ptr(),
            presence.len(),
            message,
        )
    };
    Refusal::check(answer.code)?;
    Ok(answer.differ)
}

/// Message list: takes messages in order; the number of each goes to its place of the answer list. The result reads
/// those numbers.
#[inline]
pub fn messages<'a>(
    head: &mut Head,
    parts: &mut Parts,
    messages: &[Message],
    answers: &'a mut [u16],
) -> Result<Answers<'a>, Refusal> {
    let Parts { operators, rides, stamps, revisions, index, presence_stamps, presence_revisions, presence } = parts;
    Refusal::check(unsafe {
        exported::board_messages(
            head,
            operators.as_mut_ptr(),
            operators.len(),
            rides.as_mut_ptr(),
            rides.len(),
            stamps.as_mut_ptr(),
            stamps.len(),
            revisions.as_mut_ptr(),
            revisions.len(),
            index.as_mut_ptr(),
            index.len(),
            presence_stamps.as_mut_ptr(),
            presence_stamps.len(),
            presence_revisions.as_mut_ptr(),
            presence_revisions.len(),
            presence.as_mut_ptr(),
            presence.len(),
            messages.as_ptr(),
            messages.len(),
            answers.as_mut_ptr(),
            answers.len(),
        )
    })?;
    Ok(Answers::new(&answers[..messages.len()]))
}

/// Preview: what a message would do. Where it would be taken, the spare memory gets every word that [`message`] would
/// leave on a copy of the board, and the result is the number of index words that differ before and after. The spare
/// parts need the lengths that the board needs; what they and the spare head hold does not matter.
///
/// Refuses as the message would, and with 3 where a spare part is too short. All spare memory is then as it was.
#[inline]
pub fn preview(
    head: Head,
    words: Words,
    message: Message,
    spare_head: &mut Head,
    spare: &mut Parts,
) -> Result<u16, Refusal> {
    let Words { operators, rides, stamps, revisions, index, presence_stamps, presence_revisions, presence } = words;
    let answer = unsafe {
        exported::board_preview(
            head,
            operators.as_ptr(),
            operators.len(),
            rides.as_ptr(),
            rides.len(),
            stamps.as_ptr(),
            stamps.len(),
            revisions.as_ptr(),
            revisions.len(),
            index.as_ptr(),
            index.len(),
            presence_stamps.as_ptr(),
            presence_stamps.len(),
            presence_revisions.as_ptr(),
            presence_revisions.len(),
            presence.as_ptr(),
            presence.len(),
            message,
            spare_head,
            spare.operators.as_mut_ptr(),
            spare.operators.len(),
            spare.rides.as_mut_ptr(),
            spare.rides.len(),
            spare.stamps.as_mut_ptr(),
            spare.stamps.len(),
            spare.revisions.as_mut_ptr(),
            spare.revisions.len(),
            spare.index.as_mut_ptr(),
            spare.index.len(),
            spare.presence_stamps.as_mut_ptr(),
            spare.presence_stamps.len(),
            spare.presence_revisions.as_mut_ptr(),
            spare.presence_revisions.len(),
            spare.presence.as_mut_ptr(),
            spare.presence.len(),
        )
    };
    Refusal::check(answer.code)?;
    Ok(answer.differ)
}
