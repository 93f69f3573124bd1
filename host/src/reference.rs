//! An independent codec in plain Rust, written from document 01's definitions and from no other code.
//!
//! Three parts: the definitions (written form, canonical, cleaning, accepted), the reader's rule (a) to (f) byte by byte with
//! what it says at the text's end, and the whole calls and the program as 01 tells them.

use crate::{Answer, Count, Place, BLANK, CASE, LIMIT, LINES, NOPAD, SPARE};

/// A row of 01's table of alphabets, with its tails: digits in the last group, pads, spare bits.
pub struct Alphabet {
    pub digits: &'static [u8],
    pub bits: usize,
    pub group: usize,
    pub tails: &'static [(usize, usize, usize)],
}

const TAILS_64: &[(usize, usize, usize)] = &[(2, 2, 4), (3, 1, 2)];
const TAILS_32: &[(usize, usize, usize)] = &[(2, 6, 2), (4, 4, 4), (5, 3, 1), (7, 1, 3)];

pub const ALPHABETS: [Alphabet; 6] = [
    Alphabet { digits: b"ABCDEFGHIJKLMNOPQRSTUVWXYZabcdefghijklmnopqrstuvwxyz0123456789+/", bits: 6, group: 4, tails: TAILS_64 },
    Alphabet { digits: b"ABCDEFGHIJKLMNOPQRSTUVWXYZabcdefghijklmnopqrstuvwxyz0123456789-_", bits: 6, group: 4, tails: TAILS_64 },
    Alphabet { digits: b"ABCDEFGHIJKLMNOPQRSTUVWXYZ234567", bits: 5, group: 8, tails: TAILS_32 },
    Alphabet { digits: b"0123456789ABCDEFGHIJKLMNOPQRSTUV", bits: 5, group: 8, tails: TAILS_32 },
    Alphabet { digits: b"0123456789ABCDEF", bits: 4, group: 2, tails: &[] },
    Alphabet { digits: b"0123456789abcdef", bits: 4, group: 2, tails: &[] },
];

impl Alphabet {
    /// The value of a digit, none for every other byte.
    pub fn value(&self, c: u8) -> Option<usize> {
        self.digits.iter().position(|d| *d == c)
    }

    /// Whether the alphabet has a pad: every alphabet with tails.
    pub fn pads(&self) -> bool {
        !self.tails.is_empty()
    }

    /// The longest source whose written form is within the limit.
    pub fn longest_source(&self) -> usize {
        LIMIT * self.bits / 8
    }
}

/// Answer 1's rule: alphabets to 5, options to 31, CASE for alphabets 2 to 5 only.
pub fn allowed(alphabet: u32, options: u32) -> bool {
    alphabet <= 5 && options <= 31 && !(options & CASE != 0 && alphabet <= 1)
}

// ---- The definitions

/// Bit k of the bytes as one string of bits, highest bit of each byte first; zero past the end.
fn bit(bytes: &[u8], k: usize) -> usize {
    bytes.get(k / 8).map_or(0, |x| usize::from(x >> (7 - k % 8) & 1))
}

/// The written form: runs of b bits, the last filled with zeros, a digit for each, then = to a multiple of g.
pub fn written(alphabet: usize, bytes: &[u8]) -> Vec<u8> {
    let a = &ALPHABETS[alphabet];
    let runs = (8 * bytes.len()).div_ceil(a.bits);
    let mut text = Vec::with_capacity(runs + a.group);
    for run in 0..runs {
        let value = (0..a.bits).fold(0, |v, k| v * 2 + bit(bytes, run * a.bits + k));
        text.push(a.digits[value]);
    }
    while text.len() % a.group != 0 {
        text.push(b'=');
    }
    text
}

/// The bytes whose written form the text is, where there are any: what its digits give, written again and compared.
pub fn canonical(alphabet: usize, text: &[u8]) -> Option<Vec<u8>> {
    let a = &ALPHABETS[alphabet];
    let pads = text.iter().rev().take_while(|c| **c == b'=').count();
    let mut bytes = Vec::with_capacity(text.len() * a.bits / 8);
    let (mut held, mut width) = (0, 0);
    for c in &text[..text.len() - pads] {
        held = held << a.bits | a.value(*c)?;
        width += a.bits;
        if width >= 8 {
            width -= 8;
            bytes.push((held >> width) as u8);
            held &= (1 << width) - 1;
        }
    }
    (written(alphabet, &bytes) == text).then_some(bytes)
}

fn dropped(options: u32, c: u8) -> bool {
    options & LINES != 0 && matches!(c, 13 | 10) || options & BLANK != 0 && matches!(c, 32 | 9)
}

fn turned(alphabet: usize, options: u32, c: u8) -> u8 {
    match alphabet {
        _ if options & CASE == 0 => c,
        5 => c.to_ascii_lowercase(),
        _ => c.to_ascii_uppercase(),
    }
}

/// Cleaning, in 01's four steps.
pub fn clean(alphabet: usize, options: u32, text: &[u8]) -> Vec<u8> {
    let a = &ALPHABETS[alphabet];
    let kept = text.iter().filter(|c| !dropped(options, **c));
    let mut t: Vec<u8> = kept.map(|c| turned(alphabet, options, *c)).collect();
    if options & NOPAD != 0 && a.pads() && !t.contains(&b'=') {
        while t.len() % a.group != 0 {
            t.push(b'=');
        }
    }
    if options & SPARE != 0 && t.len() % a.group == 0 {
        let run = t.iter().rev().take_while(|c| **c == b'=').count();
        let tail = a.tails.iter().find(|(_, pads, _)| *pads == run);
        if let (Some((_, _, spare)), Some(before)) = (tail, t.len().checked_sub(run + 1)) {
            if let Some(value) = a.value(t[before]) {
                t[before] = a.digits[value >> spare << spare];
            }
        }
    }
    t
}

/// The bytes of an accepted text, none where the text is not accepted. The limit is not asked here.
pub fn accepted(alphabet: usize, options: u32, text: &[u8]) -> Option<Vec<u8>> {
    canonical(alphabet, &clean(alphabet, options, text))
}

// ---- The reader's rule

/// What the judge finds: answer, position and the good bytes themselves.
#[derive(Clone, Debug, PartialEq, Eq)]
pub struct Judged {
    pub number: u32,
    pub position: usize,
    pub good: Vec<u8>,
}

impl Judged {
    pub fn answer(&self) -> Answer {
        answer(self.number, self.position, self.good.len())
    }
}

pub fn answer(number: u32, position: usize, count: usize) -> Answer {
    Answer { number, position: Place(position as u64), count: Count(count as u64) }
}

/// What stands between two bytes of a text.
struct Reading {
    digits: usize,
    pads: usize,
    held: usize,
    width: usize,
    good: Vec<u8>,
}

impl Reading {
    fn in_group(&self, a: &Alphabet) -> usize {
        self.digits % a.group
    }

    fn tail(&self, a: &Alphabet) -> Option<usize> {
        a.tails.iter().find(|(digits, _, _)| *digits == self.in_group(a)).map(|(_, pads, _)| *pads)
    }

    fn put(&mut self, a: &Alphabet, value: usize) {
        self.digits += 1;
        self.held = self.held << a.bits | value;
        self.width += a.bits;
        if self.width >= 8 {
            self.width -= 8;
            self.good.push((self.held >> self.width) as u8);
            self.held &= (1 << self.width) - 1;
        }
    }
}

/// The reader's rule on a whole text whose choice is allowed: 01's (a) to (f), and what stands at the end.
pub fn ruled(alphabet: usize, options: u32, text: &[u8]) -> Judged {
    let a = &ALPHABETS[alphabet];
    let values: Vec<Option<usize>> = (0..=255).map(|c| a.value(turned(alphabet, options, c))).collect();
    let mut r = Reading { digits: 0, pads: 0, held: 0, width: 0, good: Vec::new() };
    for (i, c) in text.iter().enumerate() {
        let refused = |number, r: Reading| Judged { number, position: i, good: r.good };
        if i == LIMIT {
            return refused(2, r);
        }
        if dropped(options, *c) {
            continue;
        }
        match values[usize::from(*c)] {
            Some(_) if r.pads > 0 => return refused(7, r),
            Some(value) => r.put(a, value),
            None if *c != b'=' || !a.pads() => return refused(4, r),
            None if r.pads > 0 && r.tail(a) == Some(r.pads) => return refused(7, r),
            None if r.pads == 0 && r.tail(a).is_none() => return refused(5, r),
            None if r.pads == 0 && r.held != 0 && options & SPARE == 0 => return refused(6, r),
            None => r.pads += 1,
        }
    }
    let unpadded = r.pads == 0 && r.in_group(a) > 0;
    let number = match () {
        () if r.pads > 0 && r.tail(a) != Some(r.pads) => 8,
        () if unpadded && (options & NOPAD == 0 || r.tail(a).is_none()) => 8,
        () if unpadded && r.held != 0 && options & SPARE == 0 => 6,
        () => 0,
    };
    Judged { number, position: text.len(), good: r.good }
}

// ---- The whole calls

/// The judge, for any numbers.
pub fn judge(alphabet: u32, options: u32, text: &[u8]) -> Judged {
    if !allowed(alphabet, options) {
        return Judged { number: 1, position: 0, good: Vec::new() };
    }
    ruled(alphabet as usize, options, text)
}

/// The whole reader on a judged text: no room, or the good bytes at the front and every later byte as before.
pub fn read(judged: &Judged, out: &mut [u8]) -> Answer {
    if judged.good.len() > out.len() {
        return answer(3, 0, judged.good.len());
    }
    out[..judged.good.len()].copy_from_slice(&judged.good);
    judged.answer()
}

/// The whole writer, for any number. `form` is the source's written form, taken once for many rooms.
pub fn write(alphabet: u32, src: &[u8], form: &[u8], out: &mut [u8]) -> Answer {
    if alphabet > 5 {
        return answer(1, 0, 0);
    }
    if src.len() > ALPHABETS[alphabet as usize].longest_source() {
        return answer(2, 0, 0);
    }
    if form.len() > out.len() {
        return answer(3, 0, form.len());
    }
    out[..form.len()].copy_from_slice(form);
    answer(0, form.len(), form.len())
}

/// The written form, empty where the alphabet is none of the six or the source is too long.
pub fn form(alphabet: u32, src: &[u8]) -> Vec<u8> {
    match ALPHABETS.get(alphabet as usize) {
        Some(a) if src.len() <= a.longest_source() => written(alphabet as usize, src),
        _ => Vec::new(),
    }
}

// ---- The program

/// The first line `V A OO` and byte 10, as verb, alphabet and options; none for any other line, also one whose choice is answer 1.
fn first_line(input: &[u8]) -> Option<(u8, u32, u32)> {
    let &[verb, b' ', alphabet, b' ', tens, ones, 10] = input.get(..7)? else { return None };
    let digit = |c: u8| c.is_ascii_digit().then(|| u32::from(c - b'0'));
    let (alphabet, options) = (digit(alphabet)?, 10 * digit(tens)? + digit(ones)?);
    let known = matches!(verb, b'J' | b'D') || verb == b'E' && options == 0;
    (known && allowed(alphabet, options)).then_some((verb, alphabet, options))
}

/// All that the program writes on all that it is given.
pub fn program(input: &[u8]) -> Vec<u8> {
    let Some((verb, alphabet, options)) = first_line(input) else { return b"1 0 0\n".to_vec() };
    let data = &input[7..];
    if verb == b'E' {
        // Past the limit: the digits of the longest source, which fill whole groups in every alphabet.
        let longest = ALPHABETS[alphabet as usize].longest_source();
        return written(alphabet as usize, &data[..data.len().min(longest)]);
    }
    let judged = judge(alphabet, options, data);
    match verb {
        b'D' => judged.good,
        _ => format!("{} {} {}\n", judged.number, judged.position, judged.good.len()).into_bytes(),
    }
}
