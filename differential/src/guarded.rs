//! Memory between two pages that nobody may touch. A part lent from it lies against one of them, so that a read or a
//! write past that end stops the program; the other end is filled, and a write there is found afterwards.

use std::ffi::{c_int, c_long, c_void};

extern "C" {
    fn mmap(at: *mut c_void, bytes: usize, access: c_int, flags: c_int, file: c_int, offset: c_long) -> *mut c_void;
    fn mprotect(at: *mut c_void, bytes: usize, access: c_int) -> c_int;
}

const NONE: c_int = 0;
const READ: c_int = 1;
const READ_WRITE: c_int = 3;
const PRIVATE_ANONYMOUS: c_int = 0x22;
pub const PAGE: usize = 4096;
const FILL: u8 = 0x5A;

/// Room for so many places, and the part that is lent of it now. It stays until the program ends.
pub struct Region<T> {
    first: *mut u8,
    bytes: usize,
    lent: *mut T,
    length: usize,
}

/// Which end of a region a part lies against.
#[derive(Clone, Copy, Debug, PartialEq, Eq)]
pub enum End {
    Low,
    High,
}

impl<T: Copy> Region<T> {
    pub fn new(places: usize) -> Region<T> {
        let bytes = (places * size_of::<T>()).next_multiple_of(PAGE).max(PAGE);
        let first = unsafe {
            let at = mmap(std::ptr::null_mut(), bytes + 2 * PAGE, NONE, PRIVATE_ANONYMOUS, -1, 0);
            assert!(at as isize != -1, "no memory");
            at.cast::<u8>().add(PAGE)
        };
        let mut region = Region { first, bytes, lent: first.cast(), length: 0 };
        region.place(&[], End::Low);
        region
    }

    fn allow(&mut self, access: c_int) {
        let answer = unsafe { mprotect(self.first.cast(), self.bytes, access) };
        assert!(answer == 0, "mprotect");
    }

    /// Copies the words to one end of the region, and fills the rest.
    fn place(&mut self, words: &[T], end: End) {
        let length = size_of_val(words);
        assert!(length <= self.bytes && PAGE % align_of::<T>() == 0 && size_of::<T>() % align_of::<T>() == 0);
        self.allow(READ_WRITE);
        unsafe {
            std::ptr::write_bytes(self.first, FILL, self.bytes);
            let at = if end == End::Low { self.first } else { self.first.add(self.bytes - length) };
            std::ptr::copy_nonoverlapping(words.as_ptr().cast(), at, length);
            self.lent = at.cast();
        }
        self.length = words.len();
    }

    /// Lends the words, to be written.
    pub fn lend_mut(&mut self, words: &[T], end: End) -> &mut [T] {
        self.place(words, end);
        unsafe { std::slice::from_raw_parts_mut(self.lent, self.length) }
    }

    /// Lends the words, to be read: a write stops the program.
    pub fn lend(&mut self, words: &[T], end: End) -> &[T] {
        self.place(words, end);
        self.allow(READ);
        unsafe { std::slice::from_raw_parts(self.lent, self.length) }
    }

    /// Whether everything beside the part is as it was filled.
    pub fn is_intact(&self) -> bool {
        let all = unsafe { std::slice::from_raw_parts(self.first, self.bytes) };
        let from = self.lent as usize - self.first as usize;
        let to = from + self.length * size_of::<T>();
        let changed = |part: &[u8]| part.iter().fold(0, |bits, byte| bits | (byte ^ FILL));
        changed(&all[..from]) == 0 && changed(&all[to..]) == 0
    }
}

#[cfg(test)]
mod tests {
    use super::{End, Region};
    use std::os::unix::process::ExitStatusExt;
    use std::process::Command;

    const SEGMENTATION_FAULT: i32 = 11;

    #[test]
    fn what_is_written_beside_a_part_is_found() {
        let mut region = Region::new(10);
        for (end, place) in [(End::Low, 3), (End::High, -1)] {
            let part = region.lend_mut(&[1u16, 2, 3], end).as_mut_ptr();
            assert!(region.is_intact());
            unsafe { *part.offset(place) = 0 };
            assert!(!region.is_intact());
        }
    }

    /// In a process of its own: writes a word past the end that a part lies against.
    #[test]
    fn past_the_end_stops_the_program() {
        let name = "guarded::tests::past_the_end_stops_the_program";
        let ends = [("low", End::Low, -1), ("high", End::High, 3)];
        if let Ok(wanted) = std::env::var("WRITE_PAST") {
            let (_, end, place) = ends.into_iter().find(|(word, ..)| *word == wanted).unwrap();
            let mut region = Region::new(10);
            let part = region.lend_mut(&[1u16, 2, 3], end).as_mut_ptr();
            unsafe { part.offset(place).write_volatile(0) };
            return;
        }
        for (word, ..) in ends {
            let program = std::env::current_exe().unwrap();
            let run = Command::new(program).args([name, "--exact"]).env("WRITE_PAST", word).output().unwrap();
            assert_eq!(run.status.signal(), Some(SEGMENTATION_FAULT), "{word}");
        }
    }
}
