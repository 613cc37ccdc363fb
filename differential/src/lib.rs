//! The proved library's calls, as the static library exports them, behind the reference's trait and one for previews, and
//! the functions of `libkernel.a` behind one for covers under limits.

pub mod guarded;
pub mod kernel;

use board::exported;
use kernel::Degrees;
use reference::crowd::{Band, Bands, CrowdLimits};
use reference::frames::Board;
use reference::{Answer, Counts, Head, Message, Parts, Peeled, Slices, Views};

/// The calls that are compared: those that a stream has, and previews.
pub trait Library: Board {
    fn preview(
        &mut self,
        head: Head,
        parts: &Views,
        message: Message,
        spare_head: &mut Head,
        spare: &mut Slices,
    ) -> Answer;
}

/// The cover under a list of limits, which is no call of the board. `kernel` says what a caller sees to.
pub trait Kernel {
    /// Fills both tables, lent as zeros, and gives the degrees.
    fn tables(
        &mut self,
        head: Head,
        operators: &[u16],
        rides: &[u16],
        here: &[u8],
        by_operator: &mut [u8],
        by_ride: &mut [u8],
    ) -> Degrees;

    /// Over tables.
    fn cover(
        &mut self,
        head: Head,
        by_operator: &[u8],
        by_ride: &[u8],
        degrees: Degrees,
        limits: &[u16],
        marks: &mut [u16],
    );

    /// From pair arrays.
    fn pair_cover(
        &mut self,
        head: Head,
        operators: &[u16],
        rides: &[u16],
        here: &[u8],
        limits: &[u16],
        marks: &mut [u16],
    );
}

fn head_of(head: Head) -> board::Head {
    board::Head { operators: head.operators, rides: head.rides, pairs: head.pairs }
}

fn message_of(message: Message) -> board::Message {
    let Message { kind, operator, ride, revision, stamp } = message;
    board::Message { kind, operator, ride, revision, stamp }
}

fn bands_of(table: Bands) -> board::Bands {
    let bands = table.bands.map(|Band { first, last, alpha, beta }| board::Band { first, last, alpha, beta });
    board::Bands { count: table.count, bands }
}

fn counts_of(counts: exported::Counts) -> Counts {
    Counts { code: counts.code, operators: counts.operators, rides: counts.rides }
}

/// The head and the message of the two packages lie alike in memory, so that a lent one is passed as it stands.
const _: () = {
    use std::mem::{align_of, offset_of, size_of};
    assert!(size_of::<Head>() == size_of::<board::Head>() && align_of::<Head>() == align_of::<board::Head>());
    assert!(offset_of!(Head, operators) == offset_of!(board::Head, operators));
    assert!(offset_of!(Head, rides) == offset_of!(board::Head, rides));
    assert!(offset_of!(Head, pairs) == offset_of!(board::Head, pairs));
    assert!(size_of::<Message>() == size_of::<board::Message>());
    assert!(align_of::<Message>() == align_of::<board::Message>());
    assert!(offset_of!(Message, kind) == offset_of!(board::Message, kind));
    assert!(offset_of!(Message, operator) == offset_of!(board::Message, operator));
    assert!(offset_of!(Message, ride) == offset_of!(board::Message, ride));
    assert!(offset_of!(Message, revision) == offset_of!(board::Message, revision));
    assert!(offset_of!(Message, stamp) == offset_of!(board::Message, stamp));
};

/// The proved library. Its calls have no `requires`, so that every argument is allowed. In each call below the parts
/// are distinct, as Rust's references are, and live until the call returns.
pub struct Proved;

impl Board for Proved {
    fn build(&mut self, head: Head, parts: &mut Slices, start: u32) -> u16 {
        let Parts { operators, rides, stamps, revisions, index, presence_stamps, presence_revisions, presence } = parts;
        unsafe {
            exported::board_build(
                head_of(head),
                operators.as_mut_ptr(),
                operators.len(),
                rides.as_mut_ptr(),
                rides.len(),
                start,
                stamps.as_mut_ptr(),
                stamps.len(),
                revisions.as_mut_ptr(),
                revisions.len(),
                index.as_mut_ptr(),
                index.len(),
                presence_stamps.as_mut_ptr(),
                presence_stamps.len(),
                presence_revisions.as_mut_ptr(),
                presence_revisions.len(),
                presence.as_mut_ptr(),
                presence.len(),
            )
        }
    }

    fn query(
        &mut self,
        head: Head,
        index: &[u16],
        presence: &[u16],
        alpha: u16,
        beta: u16,
        marks: &mut [u16],
    ) -> Counts {
        let counts = unsafe {
            exported::board_query(
                head_of(head),
                index.as_ptr(),
                index.len(),
                presence.as_ptr(),
                presence.len(),
                alpha,
                beta,
                marks.as_mut_ptr(),
                marks.len(),
            )
        };
        counts_of(counts)
    }

    fn peel(
        &mut self,
        head: Head,
        operators: &[u16],
        rides: &[u16],
        presence: &[u16],
        minimums: &[u16],
        marks: &mut [u16],
        alpha: u16,
        beta: u16,
        steps: u16,
    ) -> Peeled {
        let peeled = unsafe {
            exported::board_peel(
                head_of(head),
                operators.as_ptr(),
                operators.len(),
                rides.as_ptr(),
                rides.len(),
                presence.as_ptr(),
                presence.len(),
                minimums.as_ptr(),
                minimums.len(),
                marks.as_mut_ptr(),
                marks.len(),
                alpha,
                beta,
                steps,
            )
        };
        Peeled { code: peeled.code, settled: peeled.settled, steps: peeled.steps }
    }

    fn own_cover(
        &mut self,
        head: Head,
        operators: &[u16],
        rides: &[u16],
        presence: &[u16],
        minimums: &[u16],
        alpha: u16,
        beta: u16,
        marks: &mut [u16],
    ) -> Counts {
        let counts = unsafe {
            exported::board_own_cover(
                head_of(head),
                operators.as_ptr(),
                operators.len(),
                rides.as_ptr(),
                rides.len(),
                presence.as_ptr(),
                presence.len(),
                minimums.as_ptr(),
                minimums.len(),
                alpha,
                beta,
                marks.as_mut_ptr(),
                marks.len(),
            )
        };
        counts_of(counts)
    }

    fn message(&mut self, head: &mut Head, parts: &mut Slices, message: Message) -> Answer {
        let Parts { operators, rides, stamps, revisions, index, presence_stamps, presence_revisions, presence } = parts;
        let answer = unsafe {
            exported::board_message(
                (head as *mut Head).cast(),
                operators.as_mut_ptr(),
                operators.len(),
                rides.as_mut_ptr(),
                rides.len(),
                stamps.as_mut_ptr(),
                stamps.len(),
                revisions.as_mut_ptr(),
                revisions.len(),
                index.as_mut_ptr(),
                index.len(),
                presence_stamps.as_mut_ptr(),
                presence_stamps.len(),
                presence_revisions.as_mut_ptr(),
                presence_revisions.len(),
                presence.as_mut_ptr(),
                presence.len(),
                message_of(message),
            )
        };
        Answer { code: answer.code, differ: answer.differ }
    }

    fn messages(&mut self, head: &mut Head, parts: &mut Slices, messages: &[Message], answers: &mut [u16]) -> u16 {
        let Parts { operators, rides, stamps, revisions, index, presence_stamps, presence_revisions, presence } = parts;
        unsafe {
            exported::board_messages(
                (head as *mut Head).cast(),
                operators.as_mut_ptr(),
                operators.len(),
                rides.as_mut_ptr(),
                rides.len(),
                stamps.as_mut_ptr(),
                stamps.len(),
                revisions.as_mut_ptr(),
                revisions.len(),
                index.as_mut_ptr(),
                index.len(),
                presence_stamps.as_mut_ptr(),
                presence_stamps.len(),
                presence_revisions.as_mut_ptr(),
                presence_revisions.len(),
                presence.as_mut_ptr(),
                presence.len(),
                messages.as_ptr().cast(),
                messages.len(),
                answers.as_mut_ptr(),
                answers.len(),
            )
        }
    }

    fn crowd_limits(&mut self, bands: Bands, guests: u16) -> CrowdLimits {
        let limits = unsafe { exported::board_crowd_limits(bands_of(bands), guests) };
        CrowdLimits { code: limits.code, alpha: limits.alpha, beta: limits.beta }
    }

    fn crowd_cover(
        &mut self,
        head: Head,
        operators: &[u16],
        rides: &[u16],
        presence: &[u16],
        bands: Bands,
        guests: u16,
        minimums: &[u16],
        marks: &mut [u16],
    ) -> Counts {
        let counts = unsafe {
            exported::board_crowd_cover(
                head_of(head),
                operators.as_ptr(),
                operators.len(),
                rides.as_ptr(),
                rides.len(),
                presence.as_ptr(),
                presence.len(),
                bands_of(bands),
                guests,
                minimums.as_ptr(),
                minimums.len(),
                marks.as_mut_ptr(),
                marks.len(),
            )
        };
        counts_of(counts)
    }
}

impl Library for Proved {
    fn preview(
        &mut self,
        head: Head,
        parts: &Views,
        message: Message,
        spare_head: &mut Head,
        spare: &mut Slices,
    ) -> Answer {
        let Parts { operators, rides, stamps, revisions, index, presence_stamps, presence_revisions, presence } = parts;
        let answer = unsafe {
            exported::board_preview(
                head_of(head),
                operators.as_ptr(),
                operators.len(),
                rides.as_ptr(),
                rides.len(),
                stamps.as_ptr(),
                stamps.len(),
                revisions.as_ptr(),
                revisions.len(),
                index.as_ptr(),
                index.len(),
                presence_stamps.as_ptr(),
                presence_stamps.len(),
                presence_revisions.as_ptr(),
                presence_revisions.len(),
                presence.as_ptr(),
                presence.len(),
                message_of(message),
                (spare_head as *mut Head).cast(),
                spare.operators.as_mut_ptr(),
                spare.operators.len(),
                spare.rides.as_mut_ptr(),
                spare.rides.len(),
                spare.stamps.as_mut_ptr(),
                spare.stamps.len(),
                spare.revisions.as_mut_ptr(),
                spare.revisions.len(),
                spare.index.as_mut_ptr(),
                spare.index.len(),
                spare.presence_stamps.as_mut_ptr(),
                spare.presence_stamps.len(),
                spare.presence_revisions.as_mut_ptr(),
                spare.presence_revisions.len(),
                spare.presence.as_mut_ptr(),
                spare.presence.len(),
            )
        };
        Answer { code: answer.code, differ: answer.differ }
    }
}

/// What is required of a caller is what `sequences::covers` gives.
impl Kernel for Proved {
    fn tables(
        &mut self,
        head: Head,
        operators: &[u16],
        rides: &[u16],
        here: &[u8],
        by_operator: &mut [u8],
        by_ride: &mut [u8],
    ) -> Degrees {
        unsafe { kernel::tables(head_of(head), operators, rides, here, by_operator, by_ride) }
    }

    fn cover(
        &mut self,
        head: Head,
        by_operator: &[u8],
        by_ride: &[u8],
        degrees: Degrees,
        limits: &[u16],
        marks: &mut [u16],
    ) {
        unsafe { kernel::cover(head_of(head), by_operator, by_ride, degrees, limits, marks) }
    }

    fn pair_cover(
        &mut self,
        head: Head,
        operators: &[u16],
        rides: &[u16],
        here: &[u8],
        limits: &[u16],
        marks: &mut [u16],
    ) {
        unsafe { kernel::pair_cover(head_of(head), operators, rides, here, limits, marks) }
    }
}
