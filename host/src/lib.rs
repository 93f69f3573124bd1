//! A safe wrapper over the C face (`include/zembrulish.h`), and beside it what the tests hold that face to: `answers`, the list of answers,
//! `reference`, an independent codec, `oracle`, the same by trying continuations, and `ordinary`, decoders to measure against.
//!
//! ```
//! let mut out = [0; 16];
//! let answer = zembrulish::read(zembrulish::BASE64, zembrulish::STRICT, b"Zm9vYg==", &mut out);
//! assert_eq!((answer.number, answer.bytes(&out)), (0, &b"foob"[..]));
//! ```

pub mod answers;
pub mod oracle;
pub mod ordinary;
pub mod reference;

pub const BASE64: u32 = 0;
pub const BASE64URL: u32 = 1;
pub const BASE32: u32 = 2;
pub const BASE32HEX: u32 = 3;
pub const HEX: u32 = 4;
pub const LOWER_HEX: u32 = 5;

/// No laxity at all.
pub const STRICT: u32 = 0;
/// Bytes 13 and 10 are dropped.
pub const LINES: u32 = 1;
/// Bytes 32 and 9 are dropped.
pub const BLANK: u32 = 2;
/// Padding may be wholly absent.
pub const NOPAD: u32 = 4;
/// Spare bits may be other than zero.
pub const SPARE: u32 = 8;
/// Letters of the other case are read too (base32, base32hex and the two of hex only).
pub const CASE: u32 = 16;

/// The longest text, in bytes.
pub const LIMIT: usize = 16_777_216;

/// A place in a text: the index of a byte, or the text's length.
#[derive(Clone, Copy, Debug, PartialEq, Eq, PartialOrd, Ord)]
pub struct Place(pub u64);

/// A number of bytes decoded, written or needed.
#[derive(Clone, Copy, Debug, PartialEq, Eq, PartialOrd, Ord)]
pub struct Count(pub u64);

/// What a call answers.
#[derive(Clone, Copy, Debug, PartialEq, Eq)]
pub struct Answer {
    /// 0 for accepted or written; every other number is a refusal (see `meaning`).
    pub number: u32,
    /// Where: the length of the text where the number is 0, else the byte or the end that is blamed.
    pub position: Place,
    /// The good bytes, the bytes written, or, where the number is 3, the room needed.
    pub count: Count,
}

impl Answer {
    /// The answer's number in words.
    pub fn meaning(&self) -> &'static str {
        answers::ANSWERS.get(self.number as usize).map_or("unknown", |row| row.meaning)
    }

    /// The bytes that the call put at the front of `out`: none where it found no room.
    pub fn bytes<'a>(&self, out: &'a [u8]) -> &'a [u8] {
        match self.number {
            3 => &[],
            _ => &out[..self.count.0 as usize],
        }
    }
}

/// The C face as it is. A slice of Rust is a pointer that is never null and a length, which is what the face asks for.
mod face {
    extern "C" {
        pub fn zem_judge_answer(alphabet: u32, options: u32, text: *const u8, len: usize) -> u32;
        pub fn zem_judge_position(alphabet: u32, options: u32, text: *const u8, len: usize) -> u64;
        pub fn zem_judge_count(alphabet: u32, options: u32, text: *const u8, len: usize) -> u64;
        pub fn zem_read(alphabet: u32, options: u32, text: *const u8, len: usize, out: *mut u8, room: usize) -> u32;
        pub fn zem_read_position(alphabet: u32, options: u32, text: *const u8, len: usize, room: usize) -> u64;
        pub fn zem_read_count(alphabet: u32, options: u32, text: *const u8, len: usize, room: usize) -> u64;
        pub fn zem_write(alphabet: u32, src: *const u8, len: usize, out: *mut u8, room: usize) -> u32;
        pub fn zem_write_position(alphabet: u32, src: *const u8, len: usize, room: usize) -> u64;
        pub fn zem_write_count(alphabet: u32, src: *const u8, len: usize, room: usize) -> u64;
    }
}

/// Judges a text: the answer, its position and the number of good bytes.
pub fn judge(alphabet: u32, options: u32, text: &[u8]) -> Answer {
    // SAFETY: the pointer and the length are those of one slice, borrowed for the call.
    unsafe {
        Answer {
            number: face::zem_judge_answer(alphabet, options, text.as_ptr(), text.len()),
            position: Place(face::zem_judge_position(alphabet, options, text.as_ptr(), text.len())),
            count: Count(face::zem_judge_count(alphabet, options, text.as_ptr(), text.len())),
        }
    }
}

/// Reads a text into `out`, all of which is room. Bytes of `out` past the count stay as they were.
pub fn read(alphabet: u32, options: u32, text: &[u8], out: &mut [u8]) -> Answer {
    let number = read_number(alphabet, options, text, out);
    // SAFETY: the pointer and the length are those of one slice, borrowed for the call; the room is a number alone.
    unsafe {
        Answer {
            number,
            position: Place(face::zem_read_position(alphabet, options, text.as_ptr(), text.len(), out.len())),
            count: Count(face::zem_read_count(alphabet, options, text.as_ptr(), text.len(), out.len())),
        }
    }
}

/// Writes the written form of `src` into `out`, all of which is room. Bytes of `out` past the count stay as they were.
pub fn write(alphabet: u32, src: &[u8], out: &mut [u8]) -> Answer {
    let number = write_number(alphabet, src, out);
    // SAFETY: the pointer and the length are those of one slice, borrowed for the call; the room is a number alone.
    unsafe {
        Answer {
            number,
            position: Place(face::zem_write_position(alphabet, src.as_ptr(), src.len(), out.len())),
            count: Count(face::zem_write_count(alphabet, src.as_ptr(), src.len(), out.len())),
        }
    }
}

/// The number of `judge` alone: one call of the face in the place of three.
pub fn judge_number(alphabet: u32, options: u32, text: &[u8]) -> u32 {
    // SAFETY: the pointer and the length are those of one slice, borrowed for the call.
    unsafe { face::zem_judge_answer(alphabet, options, text.as_ptr(), text.len()) }
}

/// `read` without position and count: one call of the face in the place of three.
pub fn read_number(alphabet: u32, options: u32, text: &[u8], out: &mut [u8]) -> u32 {
    // SAFETY: each pointer goes with the length of its own slice; `out` is borrowed alone, so the two do not overlap.
    unsafe { face::zem_read(alphabet, options, text.as_ptr(), text.len(), out.as_mut_ptr(), out.len()) }
}

/// `write` without position and count: one call of the face in the place of three.
pub fn write_number(alphabet: u32, src: &[u8], out: &mut [u8]) -> u32 {
    // SAFETY: each pointer goes with the length of its own slice; `out` is borrowed alone, so the two do not overlap.
    unsafe { face::zem_write(alphabet, src.as_ptr(), src.len(), out.as_mut_ptr(), out.len()) }
}
