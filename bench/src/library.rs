//! Safe wrappers over the static library libc_api.a. This is the only place that knows its C
//! face, and the only unsafe code of the package.
//!
//! ```c
//! uint32_t gust_format(uint8_t *image, size_t image_len, size_t sector_size, size_t count,
//!                      uint32_t allowance, uint64_t *numbers, size_t numbers_len);
//! ```
//! and so on: image, value and buffer are pointer and length; the result is the paper's
//! answer number; `numbers` is a lent array of three: stores, turns, length, set on every
//! answer.

use crate::store::{Answer, Store};

/// The type of the three lent numbers; to be changed here alone if the face changes.
type Number = u64;

extern "C" {
    fn gust_format(
        image: *mut u8,
        image_len: usize,
        sector_size: usize,
        count: usize,
        allowance: u32,
        numbers: *mut Number,
        numbers_len: usize,
    ) -> u32;
    fn gust_mount(
        image: *mut u8,
        image_len: usize,
        sector_size: usize,
        count: usize,
        allowance: u32,
        numbers: *mut Number,
        numbers_len: usize,
    ) -> u32;
    fn gust_read(
        image: *const u8,
        image_len: usize,
        sector_size: usize,
        count: usize,
        id: u32,
        buffer: *mut u8,
        buffer_len: usize,
        numbers: *mut Number,
        numbers_len: usize,
    ) -> u32;
    fn gust_write(
        image: *mut u8,
        image_len: usize,
        sector_size: usize,
        count: usize,
        id: u32,
        value: *const u8,
        value_len: usize,
        allowance: u32,
        numbers: *mut Number,
        numbers_len: usize,
    ) -> u32;
    fn gust_delete(
        image: *mut u8,
        image_len: usize,
        sector_size: usize,
        count: usize,
        id: u32,
        allowance: u32,
        numbers: *mut Number,
        numbers_len: usize,
    ) -> u32;
}

/// What the numbers hold before a call: one that is not set shows as a difference.
const UNSET: Number = 0xDEAD_BEEF;

fn answer(call: impl FnOnce(*mut Number, usize) -> u32) -> Answer {
    let mut numbers = [UNSET; 3];
    let number = call(numbers.as_mut_ptr(), numbers.len());
    let [stores, turns, length] = numbers.map(|n| u32::try_from(n).unwrap_or(u32::MAX));
    Answer { number, stores, turns, length }
}

/// The proved library.
#[derive(Default)]
pub struct Library;

impl Library {
    pub fn new() -> Library {
        Library
    }
}

// Safety, of every call below: each pointer comes from a slice that lives through the call,
// with its own length beside it; the library reads and writes within these lengths only, and
// keeps no pointer.
impl Store for Library {
    fn name(&self) -> String {
        "library".into()
    }

    fn format(&mut self, image: &mut [u8], sector_size: usize, count: usize, allowance: u32) -> Answer {
        answer(|n, l| unsafe { gust_format(image.as_mut_ptr(), image.len(), sector_size, count, allowance, n, l) })
    }

    fn mount(&mut self, image: &mut [u8], sector_size: usize, count: usize, allowance: u32) -> Answer {
        answer(|n, l| unsafe { gust_mount(image.as_mut_ptr(), image.len(), sector_size, count, allowance, n, l) })
    }

    fn read(&mut self, image: &[u8], sector_size: usize, count: usize, id: u32, buffer: &mut [u8]) -> Answer {
        answer(|n, l| unsafe {
            gust_read(image.as_ptr(), image.len(), sector_size, count, id, buffer.as_mut_ptr(), buffer.len(), n, l)
        })
    }

    fn write(
        &mut self,
        image: &mut [u8],
        sector_size: usize,
        count: usize,
        id: u32,
        value: &[u8],
        allowance: u32,
    ) -> Answer {
        answer(|n, l| unsafe {
            gust_write(
                image.as_mut_ptr(),
                image.len(),
                sector_size,
                count,
                id,
                value.as_ptr(),
                value.len(),
                allowance,
                n,
                l,
            )
        })
    }

    fn delete(&mut self, image: &mut [u8], sector_size: usize, count: usize, id: u32, allowance: u32) -> Answer {
        answer(|n, l| unsafe { gust_delete(image.as_mut_ptr(), image.len(), sector_size, count, id, allowance, n, l) })
    }
}
