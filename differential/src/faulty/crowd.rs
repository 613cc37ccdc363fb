//! Look-ups and crowd covers, with a fault.

use super::found::{refused, Lent};
use super::own::Asked;
use super::Faulty;
use crate::faults::{Fault, WrongBands, WrongMinimums};
use reference::crowd::{crowd_cover, crowd_limits, Band, Bands, CrowdLimits, BANDS_MOST, GUESTS_MOST};
use reference::Counts;

/// The bands of a table that are read.
fn read(table: &Bands) -> &[Band] {
    &table.bands[..(table.count as usize).min(BANDS_MOST)]
}

fn falls_in(band: &Band, guests: u16) -> bool {
    (band.first..=band.last).contains(&guests)
}

/// Whether two of the bands share a guest count.
fn has_overlap(bands: &[Band]) -> bool {
    let share = |one: &Band, other: &Band| one.first <= other.last && other.first <= one.last;
    bands.iter().enumerate().any(|(place, one)| bands[..place].iter().any(|other| share(one, other)))
}

/// Whether a guest count falls in no band: the lowest that does is 0 or follows the last one of a band.
fn has_gap(bands: &[Band]) -> bool {
    let nexts = bands.iter().map(|band| band.last.saturating_add(1)).chain([0]);
    nexts.filter(|next| *next <= GUESTS_MOST).any(|next| !bands.iter().any(|band| falls_in(band, next)))
}

/// The guest counts of all bands, added up.
fn widths(bands: &[Band]) -> u32 {
    bands.iter().map(|band| (band.last - band.first) as u32 + 1).sum()
}

/// Takes out the bands that are unwanted beside those that stay.
fn take_out(table: &mut Bands, is_unwanted: fn(Band, &[Band]) -> bool) {
    let mut bands = read(table).to_vec();
    let is_one =
        |bands: &[Band], place: usize| is_unwanted(bands[place], &[&bands[..place], &bands[place + 1..]].concat());
    while let Some(place) = (0..bands.len()).find(|place| is_one(&bands, *place)) {
        bands.remove(place);
    }
    table.count = bands.len() as u16;
    table.bands[..bands.len()].copy_from_slice(&bands);
}

/// Where the last guest count of a band is the first of another, takes it from the band.
fn part_touching(bands: &mut [Band]) {
    for place in 0..bands.len() {
        let Band { first, last, .. } = bands[place];
        if first < last && bands.iter().any(|other| other.first == last) {
            bands[place].last -= 1;
        }
    }
}

/// Gives gaps of up to so many guest counts between two bands to the lower one.
fn close_gaps(bands: &mut [Band], most: u16) {
    for place in 0..bands.len() {
        let last = bands[place].last;
        let next = bands.iter().map(|band| band.first).filter(|first| *first > last).min();
        if let Some(next) = next.filter(|next| next - last - 1 <= most) {
            bands[place].last = next - 1;
        }
    }
}

/// Gives the guest counts before the first band to it.
fn close_low(bands: &mut [Band]) {
    if let Some(lowest) = bands.iter_mut().min_by_key(|band| band.first) {
        lowest.first = 0;
    }
}

/// Gives the guest counts to 20,000 after the last band to it.
fn close_high(bands: &mut [Band]) {
    if let Some(highest) = bands.iter_mut().max_by_key(|band| band.last) {
        highest.last = highest.last.max(GUESTS_MOST);
    }
}

/// A table that is rightly read as this one, which has this number, is read here.
fn read_as(wrong: WrongBands, number: u16, table: &Bands) -> Bands {
    let mut table = *table;
    table.count = match (wrong, table.count) {
        (WrongBands::PastCountRead, 1..=8) => 8,
        (WrongBands::NineIsEight, 9) => 8,
        (WrongBands::ZeroIsOne, 0) => 1,
        (WrongBands::CountLowByte, count) => count % 256,
        (_, count) => count,
    };
    if table.count as usize > BANDS_MOST {
        return table;
    }
    match (wrong, number) {
        (WrongBands::InsideAccepted, 17) => take_out(&mut table, |one, others| {
            others.iter().any(|other| other.first <= one.first && one.last <= other.last)
        }),
        (WrongBands::EmptySkipped, 16) => take_out(&mut table, |one, _| one.first > one.last),
        _ => {}
    }
    let bands = &mut table.bands[..table.count as usize];
    match (wrong, number) {
        (WrongBands::TouchAccepted, 17) => part_touching(bands),
        (WrongBands::GapLowAccepted, 18) => close_low(bands),
        (WrongBands::GapHighAccepted, 18) => close_high(bands),
        (WrongBands::GapInsideAccepted, 18) => close_gaps(bands, GUESTS_MOST),
        (WrongBands::GapOfOneAccepted, 18) => close_gaps(bands, 1),
        (WrongBands::EndsExchanged, 16) => bands.iter_mut().for_each(|band| {
            (band.first, band.last) = (band.first.min(band.last), band.first.max(band.last));
        }),
        (WrongBands::BandAboveAccepted, 16) => {
            let above = bands.iter_mut().filter(|band| band.last == GUESTS_MOST + 1);
            above.for_each(|band| band.last = GUESTS_MOST);
        }
        _ => {}
    }
    table
}

/// A look-up with a fault.
fn looked_up(wrong: WrongBands, table: &Bands, guests: u16) -> CrowdLimits {
    let guests = if wrong == WrongBands::AboveAccepted && guests == GUESTS_MOST + 1 { GUESTS_MOST } else { guests };
    let table = read_as(wrong, crowd_limits(table, guests).code, table);
    let limits = crowd_limits(&table, guests);
    let (code, bands) = (limits.code, read(&table));
    let refused = |code: u16| CrowdLimits { code, alpha: 0, beta: 0 };
    let of = |band: Band| CrowdLimits { code: 0, alpha: band.alpha, beta: band.beta };
    let place = bands.iter().position(|band| falls_in(band, guests));
    match (wrong, code, place) {
        (WrongBands::GapFirst, 17, _) if has_gap(bands) => refused(18),
        (WrongBands::OverlapFirst, 16, _) if has_overlap(bands) => refused(17),
        (WrongBands::WidthsEnough, 17, _) if widths(bands) == 20_001 => of(bands[place.unwrap_or(0)]),
        (WrongBands::PastCountCloses, 18, _) if bands.len() < BANDS_MOST => {
            let longer = crowd_limits(&Bands { count: table.count + 1, ..table }, guests);
            Some(longer).filter(|longer| longer.code == 0).unwrap_or(limits)
        }
        (WrongBands::PastCountShares, 0 | 18, _) if has_overlap(&table.bands) => refused(17),
        (WrongBands::MostRefused, _, _) if guests == GUESTS_MOST => refused(16),
        (WrongBands::AboveIsGap, 16, _) if guests > GUESTS_MOST && crowd_limits(&table, 0).code == 0 => refused(18),
        (WrongBands::LimitsThoughRefused, 16.., _) => CrowdLimits { code, ..of(table.bands[0]) },
        (WrongBands::LimitsOfNext, 0, Some(place)) => of(bands[(place + 1) % bands.len()]),
        (WrongBands::LimitsOfFirst, 0, _) => of(bands[0]),
        (WrongBands::BetaOfFirst, 0, _) => CrowdLimits { beta: bands[0].beta, ..limits },
        (WrongBands::LimitsExchanged, 0, _) => CrowdLimits { code, alpha: limits.beta, beta: limits.alpha },
        (WrongBands::LastExcluded, 0, Some(place)) if bands[place].last == guests => {
            bands.iter().find(|band| falls_in(band, guests + 1)).map_or(limits, |next| of(*next))
        }
        _ => limits,
    }
}

/// A table of one band.
fn whole(limits: CrowdLimits) -> Bands {
    let mut table = Bands { count: 1, ..Bands::default() };
    table.bands[0] = Band { first: 0, last: GUESTS_MOST, alpha: limits.alpha, beta: limits.beta };
    table
}

/// What a crowd cover is asked for, and the minimums that it is lent.
#[derive(Clone, Copy)]
pub struct Crowd<'a> {
    pub table: &'a Bands,
    pub guests: u16,
    pub minimums: &'a [u16],
}

impl Crowd<'_> {
    /// The reference's crowd cover.
    fn cover(self, lent: Lent, marks: &mut [u16]) -> Counts {
        let Lent { head, operators, rides, presence } = lent;
        crowd_cover(head, operators, rides, presence, self.table, self.guests, self.minimums, marks)
    }

    /// The same with a faulty look-up.
    fn cover_looked_up(self, wrong: WrongBands, lent: Lent, marks: &mut [u16]) -> Counts {
        let limits = looked_up(wrong, self.table, self.guests);
        let mut left = marks.to_vec();
        let counts = Crowd { table: &whole(limits), guests: 0, ..self }.cover(lent, &mut left);
        if counts.code == 0 && limits.code != 0 {
            return refused(limits.code);
        }
        marks.copy_from_slice(&left);
        counts
    }
}

impl Faulty {
    pub(super) fn look_up(&self, table: &Bands, guests: u16) -> CrowdLimits {
        match self.0 {
            Fault::LookUp(wrong) => looked_up(wrong, table, guests),
            _ => crowd_limits(table, guests),
        }
    }

    /// The minimums of the call before are given too.
    pub(super) fn cover_for(&self, lent: Lent, crowd: Crowd, others: &[u16], marks: &mut [u16]) -> Counts {
        let limits = crowd_limits(crowd.table, crowd.guests);
        let asked = Asked { lent, minimums: crowd.minimums, alpha: limits.alpha, beta: limits.beta };
        match self.0 {
            Fault::CrowdLookUp(wrong) => crowd.cover_looked_up(wrong, lent, marks),
            Fault::CrowdBeforeBoard(first) if limits.code == first => refused(first),
            Fault::CrowdMinimums(wrong) => {
                let cover = |Asked { lent, minimums, .. }: Asked, marks: &mut [u16]| {
                    Crowd { minimums, ..crowd }.cover(lent, marks)
                };
                asked.cover(wrong, cover, marks)
            }
            Fault::CrowdCover(wrong) => {
                let limits = asked.limits(WrongMinimums::None);
                lent.spoiled(wrong, &limits, |lent, marks| crowd.cover(lent, marks), marks)
            }
            Fault::CrowdTableUnread if limits.code != 0 && asked.is_of_all() => {
                let first = crowd.table.bands[0];
                let limits = CrowdLimits { code: 0, alpha: first.alpha, beta: first.beta };
                Crowd { table: &whole(limits), guests: 0, ..crowd }.cover(lent, marks)
            }
            Fault::CrowdOtherMinimums if lent.head.rides as usize <= others.len() => {
                Crowd { minimums: others, ..crowd }.cover(lent, marks)
            }
            _ => crowd.cover(lent, marks),
        }
    }
}
