//! The C face on texts and sources of every length to 20,000 bytes of text, in each alphabet: clean, damaged at the end, and in lines. What is wanted
//! is found once for the longest text, and is a start of it for every shorter one.

mod common;

use common::pattern;
use zembrulish::reference::{answer, written, ALPHABETS};
use zembrulish::{judge, judge_number, read, read_number, write, Answer, LINES, STRICT};

const MOST: usize = 20_000;
const WIDTH: usize = 76;

/// The longest source, its text, and buffers for all calls.
struct Sweep {
    alphabet: u32,
    src: Vec<u8>,
    form: Vec<u8>,
    out: Vec<u8>,
}

impl Sweep {
    fn new(alphabet: u32) -> Sweep {
        let bits = ALPHABETS[alphabet as usize].bits;
        let src = pattern(MOST * bits / 8);
        let form = written(alphabet as usize, &src);
        assert_eq!(form.len(), MOST, "20,000 digits are whole groups in every alphabet");
        Sweep { alphabet, src, form, out: vec![0xEE; MOST + 64] }
    }

    /// Reads a text with room for `good` bytes, which are the start of the source, and compares answer, bytes and the guard after them.
    fn reads(&mut self, options: u32, text: &[u8], good: usize, wanted: Answer) {
        let answer = read(self.alphabet, options, text, &mut self.out[..good]);
        let asked = || format!("alphabet {}, options {options}, a text of {} bytes", self.alphabet, text.len());
        assert_eq!(answer, wanted, "{}", asked());
        assert!(answer.bytes(&self.out[..good]) == &self.src[..good], "{}: other bytes", asked());
        self.guard(good);
    }

    fn guard(&mut self, wrote: usize) {
        let end = self.out.len().min(wrote + 64);
        assert!(self.out[wrote..end].iter().all(|c| *c == 0xEE), "a byte past the {wrote} written is changed");
        self.out[..wrote].fill(0xEE);
    }

    /// The text of the first n bytes: whole groups of the longest text, and the rest anew.
    fn text(&self, n: usize) -> Vec<u8> {
        let a = &ALPHABETS[self.alphabet as usize];
        let group = a.group * a.bits / 8;
        let whole = n / group;
        [&self.form[..whole * a.group], &written(self.alphabet as usize, &self.src[whole * group..n])].concat()
    }

    /// Every start of the longest text: whole groups are accepted, and others are cut short there.
    fn starts(&mut self) {
        let a = &ALPHABETS[self.alphabet as usize];
        let form = self.form.clone();
        for n in 0..=MOST {
            let (number, good) = (if n % a.group == 0 { 0 } else { 8 }, n * a.bits / 8);
            self.reads(STRICT, &form[..n], good, answer(number, n, good));
        }
    }

    /// Every source: written, judged, read with a foreign byte at the end, and read in lines.
    fn sources(&mut self) {
        let mut lines = Vec::with_capacity(2 * MOST);
        for n in 0..=self.src.len() {
            let mut text = self.text(n);
            let len = text.len();
            let wrote = write(self.alphabet, &self.src[..n], &mut self.out[..len]);
            assert_eq!(wrote, answer(0, len, len), "alphabet {}, a source of {n} bytes", self.alphabet);
            assert!(wrote.bytes(&self.out[..len]) == &text[..], "alphabet {}, a source of {n} bytes: another text", self.alphabet);
            self.guard(len);
            assert_eq!(judge_number(self.alphabet, STRICT, &text), 0, "alphabet {}, the text of {n} bytes", self.alphabet);
            lines.clear();
            for line in text.chunks(WIDTH) {
                lines.extend_from_slice(line);
                lines.extend_from_slice(b"\r\n");
            }
            assert_eq!(judge(self.alphabet, LINES, &lines), answer(0, lines.len(), n), "alphabet {}, {n} bytes in lines", self.alphabet);
            assert_eq!(read_number(self.alphabet, LINES, &lines, &mut self.out[..n]), 0);
            assert!(self.out[..n] == self.src[..n], "alphabet {}, {n} bytes in lines: other bytes", self.alphabet);
            self.guard(n);
            text.push(b'!');
            self.reads(STRICT, &text, n, answer(4, len, n));
        }
    }
}

macro_rules! sweeps {
    ($($name:ident $alphabet:literal)*) => {
        $(
            #[test]
            fn $name() {
                Sweep::new($alphabet).starts();
                Sweep::new($alphabet).sources();
            }
        )*
    };
}

sweeps! {
    base64 0
    base64url 1
    base32 2
    base32hex 3
    hex 4
    lower_hex 5
}
