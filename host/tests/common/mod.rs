//! What the tests share: a generator whose seed is printed, and the comparison of the C face with the reference.
#![allow(dead_code)]

use zembrulish::reference::{self, Judged};
use zembrulish::{judge, judge_number, read, write, Answer};

/// xorshift64*, enough to vary inputs.
pub struct Random(u64);

impl Random {
    pub fn new(seed: u64) -> Random {
        // Neighbouring seeds must not give neighbouring streams, and the state must not be zero.
        let mixed = (seed ^ 0x9E37_79B9_7F4A_7C15).wrapping_mul(0xBF58_476D_1CE4_E5B9);
        let mut random = Random(mixed | 1);
        for _ in 0..4 {
            random.next();
        }
        random
    }

    pub fn next(&mut self) -> u64 {
        self.0 ^= self.0 >> 12;
        self.0 ^= self.0 << 25;
        self.0 ^= self.0 >> 27;
        self.0.wrapping_mul(0x2545_F491_4F6C_DD1D)
    }

    /// A number below `n`.
    pub fn below(&mut self, n: usize) -> usize {
        ((self.next() >> 16) % n as u64) as usize
    }

    pub fn one_of<T: Copy>(&mut self, of: &[T]) -> T {
        of[self.below(of.len())]
    }

    pub fn bytes(&mut self, n: usize) -> Vec<u8> {
        (0..n).map(|_| (self.next() >> 32) as u8).collect()
    }
}

/// Runs a case for each of `many` seeds in a row, and names the seed of a case that fails. ZEM_SEED gives the first seed; else it is the time.
pub fn cases(what: &str, many: u64, case: impl Fn(&mut Random) + std::panic::RefUnwindSafe) {
    let given = std::env::var("ZEM_SEED").ok().map(|s| s.parse().expect("ZEM_SEED is a number"));
    let now = || std::time::SystemTime::now().duration_since(std::time::UNIX_EPOCH).map_or(1, |d| d.as_micros() as u64);
    let first: u64 = given.unwrap_or_else(now);
    println!("{what}: {many} cases from ZEM_SEED={first}");
    for seed in first..first + many {
        let run = || case(&mut Random::new(seed));
        if std::panic::catch_unwind(run).is_err() {
            panic!("{what}: a case failed; repeat it with ZEM_SEED={seed}");
        }
    }
}

/// A buffer's bytes before a call: a pattern in which no two neighbours are alike, so that a changed byte shows.
pub fn pattern(n: usize) -> Vec<u8> {
    (0..n).map(|i| (i as u8).wrapping_mul(37) ^ 0xA5).collect()
}

/// Bytes before and after the lent part of a buffer, which no call may change either.
const GUARD: usize = 16;

/// Calls on a buffer with room in the middle, then compares the answer and the whole buffer, guards too.
fn on_buffer(room: usize, call: impl Fn(&mut [u8]) -> Answer, expect: impl Fn(&mut [u8]) -> Answer, told: impl Fn() -> String) {
    let mut got = pattern(room + 2 * GUARD);
    let mut want = got.clone();
    let answer = call(&mut got[GUARD..GUARD + room]);
    let wanted = expect(&mut want[GUARD..GUARD + room]);
    assert_eq!(answer, wanted, "{}, room {room}", told());
    if got != want {
        let at = got.iter().zip(&want).position(|(x, y)| x != y).expect("a byte that differs") as isize - GUARD as isize;
        panic!("{}, room {room}: the buffer differs at {at}", told());
    }
}

/// A text as it can be printed, cut where it is long.
fn shown(text: &[u8]) -> String {
    let front = text.escape_ascii().to_string();
    match front.len() {
        0..=200 => format!("\"{front}\""),
        _ => format!("\"{}..\" ({} bytes)", &front[..200], text.len()),
    }
}

/// The rooms to try where `needed` bytes are to be put: all from none to more than enough, or for a long text those about the edges.
pub fn rooms(needed: usize) -> Vec<usize> {
    match needed {
        0..=24 => (0..=needed + 2).collect(),
        _ => vec![0, 1, needed / 2, needed - 1, needed, needed + 1, needed + 100],
    }
}

/// Judge and reader beside the reference, on one text and choice, with the rooms given by the number of good bytes.
pub fn compare_text_in(alphabet: u32, options: u32, text: &[u8], rooms: impl Fn(usize) -> Vec<usize>) -> Judged {
    let told = || format!("alphabet {alphabet}, options {options}, text {}", shown(text));
    let judged = reference::judge(alphabet, options, text);
    assert_eq!(judge(alphabet, options, text), judged.answer(), "judge: {}", told());
    assert_eq!(judge_number(alphabet, options, text), judged.number, "judge: {}", told());
    for room in rooms(judged.good.len()) {
        let call = |out: &mut [u8]| read(alphabet, options, text, out);
        let expect = |out: &mut [u8]| reference::read(&judged, out);
        on_buffer(room, call, expect, || format!("read: {}", told()));
    }
    judged
}

pub fn compare_text(alphabet: u32, options: u32, text: &[u8]) -> Judged {
    compare_text_in(alphabet, options, text, rooms)
}

/// Writer beside the reference, on one source.
pub fn compare_source(alphabet: u32, src: &[u8]) {
    let form = reference::form(alphabet, src);
    for room in rooms(form.len()) {
        let call = |out: &mut [u8]| write(alphabet, src, out);
        let expect = |out: &mut [u8]| reference::write(alphabet, src, &form, out);
        on_buffer(room, call, expect, || format!("write: alphabet {alphabet}, source {}", shown(src)));
    }
}

/// Every choice to try: alphabets 0 to 5 with options 0 to 31, and some beyond.
pub fn choices() -> Vec<(u32, u32)> {
    let alphabets = (0..=6).chain([7, 255, 256, 1 << 16, u32::MAX]);
    let options = || (0..=32).chain([33, 63, 64, 256, 1 << 16, 1 << 31, u32::MAX]);
    alphabets.flat_map(|a| options().map(move |o| (a, o))).collect()
}
