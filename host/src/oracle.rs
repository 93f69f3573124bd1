//! 01's continuation rule by trying: what the judge must say of a short text, found from `accepted` alone and from no rule over bytes.
//!
//! A text is continued when something can be added, nothing included, that makes it accepted. What has to be tried is short:
//! digits to the end of a group, then pads. The limit is not asked here, so this serves texts far below it.

use crate::reference::{accepted, Alphabet, Judged, ALPHABETS};
use crate::{CASE, SPARE};

/// Trials of one alphabet: what is added to a text to see whether it goes on.
pub struct Oracle {
    alphabet: usize,
    added: Vec<Vec<u8>>,
}

impl Oracle {
    /// Every addition up to a group over the lowest digit, the highest digit and the pad: for base32 only those of one digit, then pads.
    pub fn new(alphabet: usize) -> Oracle {
        let a = &ALPHABETS[alphabet];
        let (low, high) = (a.digits[0], a.digits[a.digits.len() - 1]);
        let mut added = runs(a, low);
        added.extend(runs(a, high));
        if a.group <= 4 {
            added.extend(all_over(&[low, high, b'='], a.group));
        }
        added.sort_by_key(Vec::len);
        added.dedup();
        Oracle { alphabet, added }
    }

    /// The bytes of every accepted continuation that is tried.
    fn continuations(&self, options: u32, text: &[u8]) -> impl Iterator<Item = Vec<u8>> + '_ {
        let text = text.to_vec();
        self.added.iter().filter_map(move |more| accepted(self.alphabet, options, &[&text[..], more].concat()))
    }

    /// Whether the text has an accepted continuation.
    pub fn continued(&self, options: u32, text: &[u8]) -> bool {
        self.continuations(options, text).next().is_some()
    }

    /// The longest start that the bytes of all accepted continuations share.
    fn shared_start(&self, options: u32, text: &[u8]) -> Vec<u8> {
        let shorter = |one: Vec<u8>, other: Vec<u8>| {
            let same = one.iter().zip(&other).take_while(|(x, y)| x == y).count();
            one[..same].to_vec()
        };
        self.continuations(options, text).reduce(shorter).expect("a continued text")
    }

    /// The judge's answer to a text all of whose bytes but the last are known to go on.
    pub fn judged(&self, options: u32, text: &[u8]) -> Judged {
        if self.continued(options, text) {
            return self.at_the_end(options, text);
        }
        let position = text.len() - 1;
        let number = self.kind(options, &text[..position], text[position]);
        Judged { number, position, good: self.shared_start(options, &text[..position]) }
    }

    /// A text that goes on: accepted, or refused at its end, with 6 where SPARE would have it accepted and 8 elsewhere.
    fn at_the_end(&self, options: u32, text: &[u8]) -> Judged {
        let is_accepted = |options| accepted(self.alphabet, options, text).is_some();
        let number = match () {
            () if is_accepted(options) => 0,
            () if is_accepted(options | SPARE) => 6,
            () => 8,
        };
        Judged { number, position: text.len(), good: self.shared_start(options, text) }
    }

    /// Why a byte is refused after a text that goes on: a byte of no text at all, one after a pad, one that SPARE would take, or else a pad.
    fn kind(&self, options: u32, before: &[u8], byte: u8) -> u32 {
        let a = &ALPHABETS[self.alphabet];
        let other_case = options & CASE != 0 && a.value(byte ^ 32).is_some() && byte.is_ascii_alphabetic();
        let known = a.value(byte).is_some() || other_case || byte == b'=' && a.pads();
        match () {
            () if !known => 4,
            () if before.contains(&b'=') => 7,
            () if self.continued(options | SPARE, &[before, &[byte]].concat()) => 6,
            () => 5,
        }
    }
}

/// The digit up to a group of times, then pads up to a group.
fn runs(a: &Alphabet, digit: u8) -> Vec<Vec<u8>> {
    let counts = (0..=a.group).flat_map(|i| (0..=a.group).map(move |j| (i, j)));
    counts.map(|(i, j)| [vec![digit; i], vec![b'='; j]].concat()).collect()
}

/// Every text over the bytes, up to a length.
pub fn all_over(bytes: &[u8], most: usize) -> Vec<Vec<u8>> {
    let mut all = vec![Vec::new()];
    let mut from = 0;
    for _ in 0..most {
        let until = all.len();
        for k in from..until {
            for c in bytes {
                all.push([&all[k][..], &[*c]].concat());
            }
        }
        from = until;
    }
    all
}
