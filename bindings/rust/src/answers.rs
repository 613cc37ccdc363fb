//! The answer list of a message list, read.

use crate::Refusal;
use core::iter::{Copied, Map};
use core::slice::Iter;

/// What each message of a list was answered, in the list's order: `Ok` where it was taken. It borrows the answer list.
#[derive(Clone, Copy, Debug, PartialEq, Eq)]
pub struct Answers<'a> {
    numbers: &'a [u16],
}

impl<'a> Answers<'a> {
    pub(crate) fn new(numbers: &'a [u16]) -> Answers<'a> {
        Answers { numbers }
    }

    /// The answer to the message at a place of the list; `None` past its end.
    pub fn get(&self, place: usize) -> Option<Result<(), Refusal>> {
        self.numbers.get(place).copied().map(Refusal::check)
    }

    /// The answers from the first to the last.
    pub fn iter(&self) -> <Self as IntoIterator>::IntoIter {
        self.into_iter()
    }
}

impl<'a> IntoIterator for Answers<'a> {
    type Item = Result<(), Refusal>;
    type IntoIter = Map<Copied<Iter<'a, u16>>, fn(u16) -> Result<(), Refusal>>;

    fn into_iter(self) -> Self::IntoIter {
        self.numbers.iter().copied().map(Refusal::check)
    }
}
