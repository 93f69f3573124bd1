//! Two ordinary decoders and encoders in safe Rust, to measure against: one goes a byte at a time, one by whole groups.
//! They give the same answers as the C face (the tests hold them to `reference`), and use static tables and an accumulator,
//! as one writes such a codec by hand.

use crate::reference::{answer, ALPHABETS};
use crate::{Answer, BLANK, CASE, LIMIT, LINES, NOPAD, SPARE};

const NONE: u8 = 255;

/// The reverse tables of the six alphabets, each byte's value or `NONE`.
static STRICT_VALUES: [[u8; 256]; 6] = tables(false);
/// The same with the other case read too.
static CASED_VALUES: [[u8; 256]; 6] = tables(true);

const fn tables(cased: bool) -> [[u8; 256]; 6] {
    let mut all = [[NONE; 256]; 6];
    let mut a = 0;
    while a < 6 {
        let digits = ALPHABETS[a].digits;
        let mut v = 0;
        while v < digits.len() {
            let c = digits[v];
            all[a][c as usize] = v as u8;
            if cased && a >= 2 && c.is_ascii_alphabetic() {
                all[a][(c ^ 32) as usize] = v as u8;
            }
            v += 1;
        }
        a += 1;
    }
    all
}

/// Where decoded bytes go: into a buffer, or only counted.
trait Sink {
    fn put(&mut self, bytes: &[u8]);
    fn count(&self) -> usize;
}

struct Counted(usize);

impl Sink for Counted {
    #[inline]
    fn put(&mut self, bytes: &[u8]) {
        self.0 += bytes.len();
    }
    fn count(&self) -> usize {
        self.0
    }
}

struct Filled<'a> {
    out: &'a mut [u8],
    at: usize,
}

impl Sink for Filled<'_> {
    #[inline]
    fn put(&mut self, bytes: &[u8]) {
        self.out[self.at..self.at + bytes.len()].copy_from_slice(bytes);
        self.at += bytes.len();
    }
    fn count(&self) -> usize {
        self.at
    }
}

/// The digits of a last group that a tail may have, as a set of bits, and the group's length.
fn shape<const BITS: u32>() -> (u32, u32) {
    match BITS {
        6 => (0b1100, 4),
        5 => (0b1011_0100, 8),
        _ => (0, 2),
    }
}

/// Decodes at one width. `GROUPS` takes whole groups at once wherever the text has them.
fn decode<const BITS: u32, const GROUPS: bool>(table: &[u8; 256], options: u32, whole: &[u8], sink: &mut impl Sink) -> (u32, usize) {
    let (tails, group) = shape::<BITS>();
    let text = &whole[..whole.len().min(LIMIT)];
    let (mut held, mut width, mut digits, mut pads) = (0u32, 0, 0, 0);
    let mut i = 0;
    while i < text.len() {
        if GROUPS && digits == 0 && pads == 0 {
            i += whole_groups::<BITS>(table, &text[i..], sink);
            if i >= text.len() {
                break;
            }
        }
        let c = text[i];
        let value = table[usize::from(c)];
        if value != NONE {
            if pads > 0 {
                return (7, i);
            }
            held = held << BITS | u32::from(value);
            width += BITS;
            if width >= 8 {
                width -= 8;
                sink.put(&[(held >> width) as u8]);
                held &= (1 << width) - 1;
            }
            digits = (digits + 1) % group;
        } else if options & LINES != 0 && (c == b'\r' || c == b'\n') || options & BLANK != 0 && (c == b' ' || c == b'\t') {
        } else if c != b'=' || tails == 0 {
            return (4, i);
        } else if pads > 0 {
            if digits + pads == group {
                return (7, i);
            }
            pads += 1;
        } else if tails >> digits & 1 == 0 {
            return (5, i);
        } else if held != 0 && options & SPARE == 0 {
            return (6, i);
        } else {
            pads = 1;
        }
        i += 1;
    }
    if whole.len() > LIMIT {
        return (2, LIMIT);
    }
    let number = match () {
        () if digits == 0 || pads > 0 && digits + pads == group => 0,
        () if pads > 0 || options & NOPAD == 0 || tails >> digits & 1 == 0 => 8,
        () if held != 0 && options & SPARE == 0 => 6,
        () => 0,
    };
    (number, whole.len())
}

/// Decodes whole groups of digits from the front of the text, and answers how many bytes of it that took.
#[inline]
fn whole_groups<const BITS: u32>(table: &[u8; 256], text: &[u8], sink: &mut impl Sink) -> usize {
    let at = |c: u8| table[usize::from(c)];
    let mut taken = 0;
    match BITS {
        6 => {
            for g in text.chunks_exact(4) {
                let v = [at(g[0]), at(g[1]), at(g[2]), at(g[3])];
                if v[0] | v[1] | v[2] | v[3] == NONE {
                    break;
                }
                sink.put(&[v[0] << 2 | v[1] >> 4, v[1] << 4 | v[2] >> 2, v[2] << 6 | v[3]]);
                taken += 4;
            }
        }
        5 => {
            for g in text.chunks_exact(8) {
                let v = [at(g[0]), at(g[1]), at(g[2]), at(g[3]), at(g[4]), at(g[5]), at(g[6]), at(g[7])];
                if v.iter().fold(0, |x, y| x | y) == NONE {
                    break;
                }
                let bits = v.iter().fold(0u64, |x, y| x << 5 | u64::from(*y)).to_be_bytes();
                sink.put(&bits[3..]);
                taken += 8;
            }
        }
        _ => {
            for g in text.chunks_exact(2) {
                let (high, low) = (at(g[0]), at(g[1]));
                if high | low == NONE {
                    break;
                }
                sink.put(&[high << 4 | low]);
                taken += 2;
            }
        }
    }
    taken
}

fn bits_of(alphabet: u32) -> usize {
    ALPHABETS[alphabet as usize].bits
}

fn decode_into<const GROUPS: bool>(alphabet: u32, options: u32, text: &[u8], sink: &mut impl Sink) -> Answer {
    let a = alphabet as usize;
    let table = if options & CASE != 0 { &CASED_VALUES[a] } else { &STRICT_VALUES[a] };
    let (number, position) = match bits_of(alphabet) {
        6 => decode::<6, GROUPS>(table, options, text, sink),
        5 => decode::<5, GROUPS>(table, options, text, sink),
        _ => decode::<4, GROUPS>(table, options, text, sink),
    };
    answer(number, position, sink.count())
}

fn allowed(alphabet: u32, options: u32) -> bool {
    alphabet <= 5 && options <= 31 && (options & CASE == 0 || alphabet >= 2)
}

/// The judge, a byte at a time or by groups.
pub fn judge<const GROUPS: bool>(alphabet: u32, options: u32, text: &[u8]) -> Answer {
    if !allowed(alphabet, options) {
        return answer(1, 0, 0);
    }
    decode_into::<GROUPS>(alphabet, options, text, &mut Counted(0))
}

/// The whole reader, a byte at a time or by groups. It counts first only where the room might not do.
pub fn read<const GROUPS: bool>(alphabet: u32, options: u32, text: &[u8], out: &mut [u8]) -> Answer {
    if !allowed(alphabet, options) {
        return answer(1, 0, 0);
    }
    if out.len() < text.len().min(LIMIT) * bits_of(alphabet) / 8 {
        let needed = judge::<GROUPS>(alphabet, options, text).count.0 as usize;
        if needed > out.len() {
            return answer(3, 0, needed);
        }
    }
    decode_into::<GROUPS>(alphabet, options, text, &mut Filled { out, at: 0 })
}

/// The whole writer, a byte at a time or by groups.
pub fn write<const GROUPS: bool>(alphabet: u32, src: &[u8], out: &mut [u8]) -> Answer {
    if alphabet > 5 {
        return answer(1, 0, 0);
    }
    let a = &ALPHABETS[alphabet as usize];
    if src.len() > a.longest_source() {
        return answer(2, 0, 0);
    }
    let needed = match a.bits {
        6 => src.len().div_ceil(3) * 4,
        5 => src.len().div_ceil(5) * 8,
        _ => src.len() * 2,
    };
    let Some(text) = out.get_mut(..needed) else { return answer(3, 0, needed) };
    match a.bits {
        6 => encode_64::<GROUPS>(a.digits.try_into().expect("64 digits"), src, text),
        5 => encode_32::<GROUPS>(a.digits.try_into().expect("32 digits"), src, text),
        _ => encode_16(a.digits.try_into().expect("16 digits"), src, text),
    }
    answer(0, needed, needed)
}

/// Writes base64: whole groups of three first if asked, then a byte at a time, then the tail.
fn encode_64<const GROUPS: bool>(digits: &[u8; 64], src: &[u8], text: &mut [u8]) {
    let digit = |v: u32| digits[(v & 63) as usize];
    let mut from = 0;
    let mut at = 0;
    if GROUPS {
        for (s, t) in src.chunks_exact(3).zip(text.chunks_exact_mut(4)) {
            let v = u32::from(s[0]) << 16 | u32::from(s[1]) << 8 | u32::from(s[2]);
            t.copy_from_slice(&[digit(v >> 18), digit(v >> 12), digit(v >> 6), digit(v)]);
        }
        from = src.len() / 3 * 3;
        at = src.len() / 3 * 4;
    }
    rest::<6>(digit, &src[from..], &mut text[at..]);
}

/// Writes base32 in the same way.
fn encode_32<const GROUPS: bool>(digits: &[u8; 32], src: &[u8], text: &mut [u8]) {
    let digit = |v: u32| digits[(v & 31) as usize];
    let mut from = 0;
    let mut at = 0;
    if GROUPS {
        for (s, t) in src.chunks_exact(5).zip(text.chunks_exact_mut(8)) {
            let v = s.iter().fold(0u64, |v, x| v << 8 | u64::from(*x));
            for (k, d) in t.iter_mut().enumerate() {
                *d = digit((v >> (35 - 5 * k)) as u32);
            }
        }
        from = src.len() / 5 * 5;
        at = src.len() / 5 * 8;
    }
    rest::<5>(digit, &src[from..], &mut text[at..]);
}

/// Writes hex, where a byte is a group.
fn encode_16(digits: &[u8; 16], src: &[u8], text: &mut [u8]) {
    for (x, t) in src.iter().zip(text.chunks_exact_mut(2)) {
        t.copy_from_slice(&[digits[usize::from(x >> 4)], digits[usize::from(x & 15)]]);
    }
}

/// Writes a byte at a time with an accumulator, the last digit, and pads to the end of the text.
#[inline]
fn rest<const BITS: u32>(digit: impl Fn(u32) -> u8, src: &[u8], text: &mut [u8]) {
    let (mut held, mut width, mut at) = (0u32, 0, 0);
    for x in src {
        held = held << 8 | u32::from(*x);
        width += 8;
        while width >= BITS {
            width -= BITS;
            text[at] = digit(held >> width);
            at += 1;
        }
    }
    if width > 0 {
        text[at] = digit(held << (BITS - width));
        at += 1;
    }
    text[at..].fill(b'=');
}
