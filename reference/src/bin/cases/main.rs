//! Writes the streams that are replayed, and what replaying them gives, to where the repository has them, below the folder
//! named by its first argument. The same seed gives the same files; a second argument is a seed other than that of the
//! stored files. This file says which cases a stream has, how many and in which order, and what they must have given.

mod build;
mod cover;
mod crowd;
mod crowd_cover;
mod damage;
mod deliveries;
mod draft;
mod large;
mod message_samples;
mod messages;
mod minimums;
mod own_cover;
mod peel;
mod query;
mod random;
mod stream;
mod tables;
mod tally;

use random::Random;
use reference::frames::{write_end, Call};
use std::path::Path;
use stream::Stream;
use tally::{Tally, ABSENCES, CROWDS, MINIMUMS, SHORT_LISTS, TAKEN, ZEROS};

const SEED: u64 = 20_250_101;

/// Makes these calls in turn, so many times.
fn repeat(random: &mut Random, stream: &mut Stream, times: usize, cases: &[fn(&mut Random) -> Call]) {
    for case in (0..times).flat_map(|_| cases) {
        stream.call(case(random));
    }
}

fn calls(random: &mut Random) -> Stream {
    let mut stream = Stream::default();
    tables::sample_calls(random, &mut stream);
    tables::samples_from_0(random, &mut stream);
    build::sample_revisions(random, &mut stream);
    tables::sample_presence(random, &mut stream);
    repeat(random, &mut stream, 2_100, &[build::build_case, query::query_case, peel::peel_case]);
    tables::large_refusals(random, &mut stream);
    tables::large_calls(random, &mut stream);
    crowd_cover::sample_crowds(random, &mut stream);
    repeat(random, &mut stream, 160, &[crowd::crowd_limits_case]);
    repeat(random, &mut stream, 300, &[crowd_cover::crowd_cover_case]);
    crowd_cover::large_crowds(random, &mut stream);
    own_cover::sample_minimums(random, &mut stream);
    repeat(random, &mut stream, 400, &[own_cover::own_cover_case]);
    own_cover::large_own_covers(random, &mut stream);
    crowd_cover::sample_crowd_minimums(random, &mut stream);
    repeat(random, &mut stream, 100, &[crowd_cover::crowd_cover_case]);
    write_end(&mut stream.bytes);
    has_all_calls(&stream.tally);
    stream
}

fn has_all_calls(tally: &Tally) {
    tally.covers("build", &[0, 1, 2, 3, 4, 5, 9], 60);
    tally.covers("query", &[0, 1, 2, 3], 60);
    tally.covers("peel", &[0, 1, 2, 3, 4, 5, 12], 60);
    tally.covers_kinds("query", &ZEROS, 30);
    tally.covers_kinds("peel", &ZEROS[..6], 30);
    tally.covers_kinds("query", &ABSENCES[..5], 30);
    tally.covers_kinds("peel", &ABSENCES[..4], 30);
    tally.covers_kinds("peel", &ABSENCES[5..], 30);
    tally.covers("crowd limits", &[0, 16, 17, 18], 20);
    tally.covers("crowd cover", &[0, 1, 2, 3, 4, 5, 16, 17, 18], 10);
    tally.covers_kinds("crowd limits", &CROWDS[..6], 5);
    tally.covers_kinds("crowd cover", &CROWDS, 5);
    tally.covers_kinds("crowd cover", &ZEROS[..6], 3);
    tally.covers_kinds("crowd cover", &ABSENCES[..4], 5);
    tally.covers_kinds("crowd cover", &MINIMUMS, 10);
    tally.covers_kinds("crowd cover", &SHORT_LISTS, 5);
    tally.covers_kinds("peel", &MINIMUMS[..13], 30);
    tally.covers_kinds("peel", &SHORT_LISTS[..2], 20);
    tally.covers("own cover", &[0, 1, 2, 3, 4, 5], 10);
    tally.covers_kinds("own cover", &ZEROS[..6], 5);
    tally.covers_kinds("own cover", &ABSENCES[..4], 5);
    tally.covers_kinds("own cover", &MINIMUMS, 10);
    tally.covers_kinds("own cover", &SHORT_LISTS[..2], 10);
}

fn deliveries(random: &mut Random) -> Stream {
    let mut stream = Stream::default();
    deliveries::sample_deliveries(random, &mut stream);
    message_samples::sample_corrections(random, &mut stream);
    message_samples::sample_turns(random, &mut stream);
    repeat(random, &mut stream, 1_250, &[messages::message_case, messages::messages_case]);
    for _ in 0..720 {
        deliveries::delivery_case(random, &mut stream);
    }
    deliveries::large_deliveries(random, &mut stream);
    write_end(&mut stream.bytes);
    has_all_deliveries(&stream.tally);
    stream
}

fn has_all_deliveries(tally: &Tally) {
    tally.covers("build", &[0], 30);
    tally.covers("query", &[0], 30);
    tally.covers("peel", &[0], 30);
    tally.covers("message", &[0, 1, 2, 3, 4, 5, 6, 7, 8, 9, 10, 14, 15], 30);
    tally.covers("message list", &[0, 1, 2, 3, 4, 5, 6], 30);
    tally.covers("message of a list", &[0, 7, 8, 9, 10, 14, 15], 30);
    tally.covers_kinds("message", &TAKEN, 30);
    tally.covers_kinds("message of a list", &TAKEN[..6], 30);
}

/// Writes a file below the root, whose folder it makes where it is missing.
fn write(root: &Path, file: &str, bytes: &[u8]) {
    let path = root.join(file);
    std::fs::create_dir_all(path.parent().expect("a folder")).expect("the folder can be made");
    std::fs::write(&path, bytes).expect("the file can be written");
    println!("{file}: {} bytes", bytes.len());
}

fn main() {
    let root = std::env::args().nth(1).expect("the folder to write to");
    let root = Path::new(&root);
    let seed = std::env::args().nth(2).map_or(SEED, |seed| seed.parse().expect("a seed that is a number"));
    let calls = calls(&mut Random(seed));
    let deliveries = deliveries(&mut Random(seed.wrapping_add(1)));
    let (inputs, outputs, tally) = cover::covers(&mut Random(seed.wrapping_add(2)));
    for (name, stream) in [("calls", calls), ("deliveries", deliveries)] {
        write(root, &format!("reference/stored/{name}"), &stream.bytes);
        write(root, &format!("reference/stored/{name}.expected"), stream.text.as_bytes());
        stream.tally.print();
    }
    write(root, "crates/replay_cover/stdin", &inputs);
    write(root, "crates/replay_cover/stdout", &outputs);
    tally.print();
}
