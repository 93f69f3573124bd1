//! The calls of the C face, on texts and sources of four sizes in base64, base32 and hex.

use crate::race::race;
use std::hint::black_box;
use zembrulish::reference::{written, ALPHABETS};
use zembrulish::{judge_number, ordinary, read_number, write_number, BASE32, BASE64, HEX, LINES, STRICT};

/// Times of one call in seconds, on an input of `size` bytes.
pub struct Row {
    pub call: &'static str,
    pub alphabet: &'static str,
    pub size: usize,
    pub ours: f64,
    pub bytewise: f64,
    pub grouped: f64,
    pub copied: f64,
}

pub const SIZES: [usize; 4] = [16, 1 << 10, 64 << 10, 8 << 20];
pub const NAMES: [(u32, &str); 3] = [(BASE64, "base64"), (BASE32, "base32"), (HEX, "hex")];

/// Bytes without a pattern that a processor could learn.
pub fn noise(n: usize) -> Vec<u8> {
    let mut x = 0x2545_F491_4F6C_DD1Du64;
    let mut next = || {
        x ^= x << 13;
        x ^= x >> 7;
        x ^= x << 17;
        (x >> 24) as u8
    };
    (0..n).map(|_| next()).collect()
}

/// A text of `size` bytes in whole groups, or as near below it as they come.
fn text(alphabet: u32, size: usize) -> Vec<u8> {
    let a = &ALPHABETS[alphabet as usize];
    written(alphabet as usize, &noise(size / a.group * a.group * a.bits / 8))
}

/// The same in lines of 76, CR LF after each, in not more than `size` bytes.
fn lines(alphabet: u32, size: usize) -> Vec<u8> {
    let group = ALPHABETS[alphabet as usize].group;
    let fits = |digits: &usize| digits + 2 * digits.div_ceil(76) <= size;
    let digits = (0..=size / group).rev().map(|n| n * group).find(fits).unwrap_or(0);
    text(alphabet, digits).chunks(76).flat_map(|line| [line, b"\r\n"].concat()).collect()
}

type Contestant<'a> = Box<dyn FnMut() + 'a>;

fn row(call: &'static str, alphabet: &'static str, size: usize, mut contestants: [Contestant; 4]) -> Row {
    let times = race(&mut contestants);
    eprintln!("{call} {alphabet} {size}: {:.2} times (a)", times[0] / times[1]);
    Row { call, alphabet, size, ours: times[0], bytewise: times[1], grouped: times[2], copied: times[3] }
}

fn copy<'a>(from: &'a [u8], to: &'a mut [u8]) -> Contestant<'a> {
    Box::new(|| black_box(&mut *to)[..from.len()].copy_from_slice(black_box(from)))
}

fn judging(alphabet: (u32, &'static str), size: usize) -> Row {
    let (a, name) = alphabet;
    let text = text(a, size);
    let mut to = vec![0; text.len()];
    assert_eq!(judge_number(a, STRICT, &text), 0);
    let ours: Contestant = Box::new(|| _ = black_box(judge_number(a, STRICT, black_box(&text))));
    let bytewise: Contestant = Box::new(|| _ = black_box(ordinary::judge::<false>(a, STRICT, black_box(&text))));
    let grouped: Contestant = Box::new(|| _ = black_box(ordinary::judge::<true>(a, STRICT, black_box(&text))));
    row("judge", name, size, [ours, bytewise, grouped, copy(&text, &mut to)])
}

fn reading(call: &'static str, alphabet: (u32, &'static str), options: u32, size: usize, text: &[u8]) -> Row {
    let (a, name) = alphabet;
    let (mut one, mut two, mut three, mut four) = (vec![0; text.len()], vec![0; text.len()], vec![0; text.len()], vec![0; text.len()]);
    assert_eq!(read_number(a, options, text, &mut one), 0);
    let ours: Contestant = Box::new(|| _ = black_box(read_number(a, options, black_box(text), black_box(&mut one))));
    let bytewise: Contestant = Box::new(|| _ = black_box(ordinary::read::<false>(a, options, black_box(text), black_box(&mut two))));
    let grouped: Contestant = Box::new(|| _ = black_box(ordinary::read::<true>(a, options, black_box(text), black_box(&mut three))));
    row(call, name, size, [ours, bytewise, grouped, copy(text, &mut four)])
}

fn writing(alphabet: (u32, &'static str), size: usize) -> Row {
    let (a, name) = alphabet;
    let src = noise(size);
    let room = 2 * size + 8;
    let (mut one, mut two, mut three, mut four) = (vec![0; room], vec![0; room], vec![0; room], vec![0; room]);
    assert_eq!(write_number(a, &src, &mut one), 0);
    let ours: Contestant = Box::new(|| _ = black_box(write_number(a, black_box(&src), black_box(&mut one))));
    let bytewise: Contestant = Box::new(|| _ = black_box(ordinary::write::<false>(a, black_box(&src), black_box(&mut two))));
    let grouped: Contestant = Box::new(|| _ = black_box(ordinary::write::<true>(a, black_box(&src), black_box(&mut three))));
    row("write", name, size, [ours, bytewise, grouped, copy(&src, &mut four)])
}

pub fn rows() -> Vec<Row> {
    let mut rows = Vec::new();
    for alphabet in NAMES {
        rows.extend(SIZES.map(|size| judging(alphabet, size)));
        rows.extend(SIZES.map(|size| reading("read", alphabet, STRICT, size, &text(alphabet.0, size))));
        rows.extend(SIZES.map(|size| reading("read lines", alphabet, LINES, size, &lines(alphabet.0, size))));
        rows.extend(SIZES.map(|size| writing(alphabet, size)));
    }
    rows
}
