//! Covers under random lists of limits. What is lent meets what the functions require: they test nothing.

use super::{any_marks, length, table, Size};
use crate::compared::{Compared, LimitList, PairTable};
use crate::numbers::Numbers;
use differential::Kernel;
use reference::Head;

/// A random pair table, with everybody here, most, few or nobody. Words past the pairs and bytes past the nodes are any.
fn pair_table(numbers: &mut Numbers, size: Size) -> PairTable {
    let (n, m) = size.numbers(numbers);
    let pairs = table(numbers, n, m);
    let head = Head { operators: n, rides: m, pairs: pairs.len() as u16 };
    let (mut operators, mut rides): (Vec<u16>, Vec<u16>) = pairs.into_iter().unzip();
    for part in [&mut operators, &mut rides] {
        let places = length(numbers, part.len());
        part.resize_with(places, || numbers.word());
    }
    let away = numbers.of(&[0, 0, 10, 10, 30, 80, 100]);
    let mut here: Vec<u8> = (0..head.nodes()).map(|_| (away <= numbers.below(100)) as u8).collect();
    let bytes = length(numbers, here.len());
    here.resize_with(bytes, || numbers.word() as u8);
    PairTable { head, operators, rides, here }
}

/// How the limits of one list are made of the degrees.
#[derive(Clone, Copy)]
enum Limits {
    /// One for all operators and one for all rides, none of them above the highest degree.
    Sides([u16; 2]),
    /// From 0 to 3.
    Small,
    /// Up to two thirds of the degree.
    Below,
    /// From one above the degree to so many below it.
    Near(usize),
}

impl Limits {
    fn new(numbers: &mut Numbers, head: Head, degrees: &[u8]) -> Limits {
        let (operators, rides) = degrees.split_at(head.operators as usize);
        match numbers.below(7) {
            0..=2 => Limits::Sides([operators, rides].map(|side| {
                let highest = side.iter().copied().max().unwrap_or(0);
                numbers.below(highest as usize + 1) as u16
            })),
            3 => Limits::Small,
            4 => Limits::Below,
            _ => Limits::Near(numbers.of(&[0, 1, 2, 5, 20])),
        }
    }

    fn of(self, numbers: &mut Numbers, is_ride: bool, degree: u8) -> u16 {
        let degree = degree as usize;
        match self {
            Limits::Sides(sides) => sides[is_ride as usize],
            Limits::Small => numbers.below(4) as u16,
            Limits::Below => numbers.below(2 * degree / 3 + 1) as u16,
            Limits::Near(below) => (degree + 1).saturating_sub(numbers.below(below + 2)) as u16,
        }
    }
}

/// Limits around and above a byte, and none. No degree reaches those from 255.
const OTHERS: [u16; 10] = [0, 0, 200, 201, 254, 255, 256, 257, 65280, 65535];

/// A list for a pair table with these degrees, and marks of any content, both as long as needed or a little longer. In some
/// lists a few limits are others, and in half of them whoever isn't here has a limit that it falls short of.
fn limit_list(numbers: &mut Numbers, table: &PairTable, degrees: &[u8]) -> LimitList {
    let nodes = degrees.len();
    let limits = Limits::new(numbers, table.head, degrees);
    let others = numbers.of(&[0, 0, 5, 30]);
    let raised = numbers.one_in(2).then(|| numbers.of(&[1, nodes as u16 + 1, 256, 65535]));
    let mut limits: Vec<u16> = (0..nodes)
        .map(|node| match raised {
            Some(limit) if table.here[node] == 0 => limit,
            _ if numbers.below(100) < others => numbers.of(&OTHERS),
            _ => limits.of(numbers, table.head.operators as usize <= node, degrees[node]),
        })
        .collect();
    let places = length(numbers, nodes);
    limits.resize_with(places, || numbers.word());
    LimitList { limits, marks: any_marks(numbers, nodes) }
}

/// A pair table and some lists: a cover over tables for each, one after another, and one from the pairs for half of them.
pub fn covers<B: Kernel>(compared: &mut Compared<B>, numbers: &mut Numbers, size: Size) {
    let table = pair_table(numbers, size);
    let degrees = table.degrees();
    let filled = compared.tables(&table);
    for _ in 0..1 + numbers.below(5) {
        let list = limit_list(numbers, &table, &degrees);
        compared.cover(&table, &filled, &list);
        if numbers.one_in(2) {
            compared.pair_cover(&table, &list);
        }
    }
}
