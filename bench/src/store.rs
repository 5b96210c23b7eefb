//! What every program of document 01 offers: the five calls on a lent image.

/// The answer of a call: the paper's number, and the numbers given back with it.
/// "Numbers a row doesn't name are 0."
#[derive(Clone, Copy, Debug, PartialEq, Eq, Default)]
pub struct Answer {
    pub number: u32,
    pub stores: u32,
    pub turns: u32,
    pub length: u32,
}

impl Answer {
    /// An answer that names no other number: a refusal.
    pub const fn refusal(number: u32) -> Answer {
        Answer { number, stores: 0, turns: 0, length: 0 }
    }
    /// Answer 0 of a call that stores.
    pub const fn done(stores: u32, turns: u32) -> Answer {
        Answer { number: DONE, stores, turns, length: 0 }
    }
    /// Answer 11: "gives stores equal to the allowance, turns 0".
    pub const fn cut(allowance: u32) -> Answer {
        Answer { number: CUT, stores: allowance, turns: 0, length: 0 }
    }
}

pub const DONE: u32 = 0;
pub const GEOMETRY: u32 = 1;
pub const NO_STORE: u32 = 2;
pub const UNFINISHED: u32 = 3;
pub const RESERVED_ID: u32 = 4;
pub const EMPTY: u32 = 5;
pub const TOO_LONG: u32 = 6;
pub const NO_ROOM: u32 = 7;
pub const ABSENT: u32 = 8;
pub const BAD_DATA: u32 = 9;
pub const SHORT_BUFFER: u32 = 10;
pub const CUT: u32 = 11;

/// The largest allowance: "up to 4,294,967,295".
pub const ENOUGH: u32 = u32::MAX;

/// A program of document 01. The image is the only state: nothing is kept between calls
/// (`&mut self` is there for traces and scratch only).
pub trait Store {
    fn name(&self) -> String;
    fn format(&mut self, image: &mut [u8], sector_size: usize, count: usize, allowance: u32) -> Answer;
    fn mount(&mut self, image: &mut [u8], sector_size: usize, count: usize, allowance: u32) -> Answer;
    fn read(&mut self, image: &[u8], sector_size: usize, count: usize, id: u32, buffer: &mut [u8]) -> Answer;
    fn write(
        &mut self,
        image: &mut [u8],
        sector_size: usize,
        count: usize,
        id: u32,
        value: &[u8],
        allowance: u32,
    ) -> Answer;
    fn delete(&mut self, image: &mut [u8], sector_size: usize, count: usize, id: u32, allowance: u32) -> Answer;
}
