//! Large boards, and limits for them.

use crate::draft::{limit, presence_of, whole_parts, Draft};
use crate::random::Random;
use reference::frames::{Framed, Part};
use reference::samples::Pair;
use reference::PRESENT;

/// Tables of 200 by 60, and a few near that.
pub fn large_tables(random: &mut Random) -> Vec<(u16, u16, Vec<Pair>)> {
    let mut tables = Vec::new();
    for pairs in [0, 25, 300, 3_000, 6_000, 6_000, 12_000, 11_900] {
        tables.push((200, 60, random.table_of(200, 60, pairs)));
    }
    tables.push((199, 59, random.table_of(199, 59, 5_000)));
    tables.push((61, 60, random.table_of(61, 60, 1_500)));
    tables.push((200, 7, random.table_of(200, 7, 700)));
    // Each operator with as many rides as its number allows: every level differs.
    let stairs: Vec<Pair> =
        (0..200).flat_map(|o| (0..60).map(move |r| (o, r))).filter(|(o, r)| o + 3 * r < 200).collect();
    tables.push((200, 60, stairs));
    tables
}

/// A limit that is 0, or at least one of these.
pub fn large_limit(random: &mut Random, most: u16, these: [u16; 3]) -> u16 {
    match limit(random, most) {
        0 => 0,
        limit => limit.max(random.pick(&these)),
    }
}

/// A board of 200 by 60 with 2,000 pairs.
pub fn large_draft(random: &mut Random) -> Draft {
    let pairs = random.table_of(200, 60, 2_000);
    Draft::new(random, 200, 60, &pairs)
}

/// The parts of a board that stays from turn to turn, but for who is on and in: everybody at first, and others at these
/// turns.
pub fn turn_parts(random: &mut Random, draft: &Draft, turn: usize, others_at: &[usize]) -> Framed {
    if turn == 0 {
        let parts = draft.parts();
        return Framed { presence: Part::filled(parts.presence.len, PRESENT), ..parts };
    }
    let mut parts = whole_parts(random, draft.head);
    if others_at.contains(&turn) {
        parts.presence = Part::changed(parts.presence.len, 0, &presence_of(random, draft.head.nodes()));
    }
    parts
}
