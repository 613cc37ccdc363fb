//! Document 02, 2.6 and 2.8, limits by crowd: a table of bands, the look-up, and the cover for a guest count. Every guest
//! count is looked at.

use crate::{first_of, lent_number, show_cover, Counts, Head};

/// The largest number of guests.
pub const GUESTS_MOST: u16 = 20_000;

/// The most bands that a table has.
pub const BANDS_MOST: usize = 8;

/// A band: its first and last guest count, and the limits for them.
#[derive(Clone, Copy, Debug, Default, PartialEq, Eq)]
#[repr(C)]
pub struct Band {
    pub first: u16,
    pub last: u16,
    pub alpha: u16,
    pub beta: u16,
}

/// A crowd table. Bands past the count are not read.
#[derive(Clone, Copy, Debug, Default, PartialEq, Eq)]
#[repr(C)]
pub struct Bands {
    pub count: u16,
    pub bands: [Band; BANDS_MOST],
}

/// What a look-up answers: the number, and the limits of the band that the guest count falls in.
#[derive(Clone, Copy, Debug, PartialEq, Eq)]
#[repr(C)]
pub struct CrowdLimits {
    pub code: u16,
    pub alpha: u16,
    pub beta: u16,
}

impl Bands {
    /// The bands that are read. The count is at most 8.
    fn read(&self) -> &[Band] {
        &self.bands[..self.count as usize]
    }

    /// How many bands each guest count falls in. No band has one above 20,000.
    fn held(&self) -> Vec<u8> {
        let mut held = vec![0; GUESTS_MOST as usize + 1];
        for band in self.read() {
            held[band.first as usize..=band.last as usize].iter_mut().for_each(|bands| *bands += 1);
        }
        held
    }
}

/// 16: a band count outside 1 to 8, a band whose first count exceeds its last, or any guest count above 20,000, the one
/// asked for included.
fn malformed(bands: &Bands, guests: u16) -> bool {
    !(1..=BANDS_MOST).contains(&(bands.count as usize))
        || bands.read().iter().any(|band| band.first > band.last)
        || bands.read().iter().any(|band| band.first > GUESTS_MOST || band.last > GUESTS_MOST)
        || guests > GUESTS_MOST
}

/// 16; otherwise an overlap gives 17; otherwise a gap gives 18.
fn crowd_number(bands: &Bands, guests: u16) -> u16 {
    first_of(&[
        (16, &|| malformed(bands, guests)),
        (17, &|| bands.held().iter().any(|bands| *bands > 1)),
        (18, &|| bands.held().contains(&0)),
    ])
}

/// The limits of the band that the guest count falls in.
pub fn crowd_limits(bands: &Bands, guests: u16) -> CrowdLimits {
    let code = crowd_number(bands, guests);
    if code != 0 {
        return CrowdLimits { code, alpha: 0, beta: 0 };
    }
    let band = bands.read().iter().find(|band| (band.first..=band.last).contains(&guests)).expect("there is no gap");
    CrowdLimits { code, alpha: band.alpha, beta: band.beta }
}

/// The cover for a guest count: that for the limits of its band, where a ride's own minimum goes first.
#[allow(clippy::too_many_arguments)]
pub fn crowd_cover(
    head: Head,
    operators: &[u16],
    rides: &[u16],
    presence: &[u16],
    bands: &Bands,
    guests: u16,
    minimums: &[u16],
    marks: &mut [u16],
) -> Counts {
    let code = lent_number(head, operators, rides, presence, minimums, marks);
    let limits = crowd_limits(bands, guests);
    let code = if code != 0 { code } else { limits.code };
    if code != 0 {
        return Counts { code, operators: 0, rides: 0 };
    }
    show_cover(head, operators, rides, presence, minimums, (limits.alpha, limits.beta), marks)
}
