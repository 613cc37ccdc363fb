//! The stored calls of `reference/stored`, replayed over the exported calls: every line is compared.

use crate::faults::{Fault, WrongBands, WrongCover, WrongMinimums};
use crate::faulty::Faulty;
use differential::Proved;
use reference::frames::{lines, Board};

/// A stream and the lines that its calls give.
struct Stored {
    name: &'static str,
    stream: Vec<u8>,
    expected: String,
}

fn read(file: &str) -> Vec<u8> {
    let path = format!("{}/../reference/stored/{file}", env!("CARGO_MANIFEST_DIR"));
    std::fs::read(&path).unwrap_or_else(|error| panic!("{path}: {error}"))
}

/// The stored stream of this name, of so many calls.
fn stored(name: &'static str, calls: usize) -> Stored {
    let expected = String::from_utf8(read(&format!("{name}.expected"))).unwrap();
    assert_eq!(expected.lines().count(), calls, "{name}");
    Stored { name, stream: read(name), expected }
}

fn calls() -> Stored {
    stored("calls", 8_533)
}

fn deliveries() -> Stored {
    stored("deliveries", 16_185)
}

impl Stored {
    /// The lines that a board gives otherwise than stored: stream, number of the line and both texts.
    fn differences<'a, B: Board>(&'a self, board: &'a mut B) -> impl Iterator<Item = String> + 'a {
        let mut given = lines(&self.stream, board);
        let mut expected = self.expected.lines();
        let both = std::iter::from_fn(move || match (given.next(), expected.next()) {
            (None, None) => None,
            (given, stored) => Some((given, stored)),
        });
        let differing = (1..).zip(both).filter(|(_, (given, stored))| given.as_deref() != *stored);
        differing.map(|(line, (given, stored))| {
            let [given, stored] = [given.as_deref(), stored].map(|line| line.unwrap_or("nothing"));
            format!("{}, line {line}: given {given}, stored {stored}", self.name)
        })
    }
}

#[test]
fn each_stored_call_gives_its_line() {
    let found: Vec<_> =
        [calls(), deliveries()].iter().flat_map(|stored| stored.differences(&mut Proved).collect::<Vec<_>>()).collect();
    assert!(found.is_empty(), "{} lines differ, the first is {}", found.len(), found[0]);
}

/// One fault in each call that the streams have; previews are not in them.
#[test]
fn faults_are_found_by_stored_calls() {
    let (calls, deliveries) = (calls(), deliveries());
    for (stored, fault) in [
        (&calls, Fault::BuildIndex),
        (&calls, Fault::QueryCount),
        (&calls, Fault::PeelMinimums(WrongMinimums::NextPlace)),
        (&calls, Fault::OwnCover(WrongCover::SweptOnce)),
        (&calls, Fault::LookUp(WrongBands::LastExcluded)),
        (&calls, Fault::CrowdBeforeBoard(16)),
        (&deliveries, Fault::MessageDiffer),
        (&deliveries, Fault::ListAnswer),
    ] {
        assert!(stored.differences(&mut Faulty::new(fault)).next().is_some(), "{fault:?} is not found");
    }
}
