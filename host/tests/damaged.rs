//! The C face beside the reference on many sources and texts, valid and damaged, short and long. A failing case names its seed.

mod common;

use common::{cases, compare_source, compare_text, Random};
use zembrulish::ordinary;
use zembrulish::reference::{self, written, ALPHABETS};
use zembrulish::{BLANK, LINES};

/// A length: mostly short, sometimes some thousands, rarely far more.
fn length(random: &mut Random) -> usize {
    let most = random.one_of(&[4, 12, 12, 40, 40, 40, 300, 300, 5_000, 40_000]);
    random.below(most)
}

fn choice(random: &mut Random) -> (u32, u32) {
    match random.below(40) {
        0 => (random.one_of(&[6, 7, 8, 255, 256, u32::MAX]), random.below(40) as u32),
        1 => (random.below(6) as u32, random.one_of(&[32, 33, 48, 64, 255, 256, 1 << 31, u32::MAX])),
        _ => (random.below(6) as u32, random.below(32) as u32),
    }
}

/// A place in the text: anywhere, or near its end, where the tails are.
fn place(random: &mut Random, text: &[u8]) -> usize {
    let most = text.len() + 1;
    match random.below(2) {
        0 => random.below(most),
        _ => text.len() - random.below(most.min(10)),
    }
}

fn insert(random: &mut Random, text: &mut Vec<u8>, what: &[u8]) {
    let at = place(random, text);
    text.splice(at..at, what.iter().copied());
}

/// Breaks the text into lines.
fn break_lines(random: &mut Random, text: &mut Vec<u8>) {
    let width = random.one_of(&[4, 19, 64, 76]);
    let end: &[u8] = random.one_of(&[&b"\r\n"[..], b"\n", b"\r"]);
    *text = text.chunks(width).flat_map(|line| [line, end].concat()).collect();
}

/// Turns the case of letters: of all, or of some.
fn turn_case(random: &mut Random, text: &mut [u8]) {
    let all = random.below(2) == 0;
    for c in text.iter_mut().filter(|c| c.is_ascii_alphabetic()) {
        if all || random.below(3) == 0 {
            *c ^= 32;
        }
    }
}

/// Changes the text's last digit to another, so that spare bits may be set.
fn set_spare_bits(random: &mut Random, alphabet: usize, text: &mut [u8]) {
    if let Some(at) = text.iter().rposition(|c| *c != b'=') {
        text[at] = random.one_of(ALPHABETS[alphabet].digits);
    }
}

/// One kind of damage.
fn damage(random: &mut Random, alphabet: usize, text: &mut Vec<u8>) {
    let pads = text.iter().rev().take_while(|c| **c == b'=').count();
    match random.below(14) {
        0 => break_lines(random, text),
        1 => turn_case(random, text),
        2 => set_spare_bits(random, alphabet, text),
        3 => text.truncate(text.len() - pads),
        4 => text.truncate(text.len() - random.below(pads + 1)),
        5 => text.resize(text.len() + 1 + random.below(8), b'='),
        6 => insert(random, text, b"="),
        7 => insert(random, text, b"\r\n"),
        8 => {
            let blank = random.one_of(b" \t\r\n");
            insert(random, text, &[blank]);
        }
        9 => {
            let foreign = random.next() as u8;
            insert(random, text, &[foreign]);
        }
        10 if !text.is_empty() => {
            let at = random.below(text.len());
            text[at] = random.next() as u8;
        }
        11 if !text.is_empty() => {
            let at = random.below(text.len());
            text.remove(at);
        }
        12 => text.truncate(random.below(text.len() + 1)),
        _ => {
            let digit = random.one_of(ALPHABETS[alphabet].digits);
            insert(random, text, &[digit]);
        }
    }
}

/// A text in one of the alphabets, damaged some times; blanks and breaks strewn in where the options allow them, so that long texts go on.
fn damaged(random: &mut Random, alphabet: usize, options: u32) -> Vec<u8> {
    let n = length(random);
    let mut text = written(alphabet, &random.bytes(n));
    if options & LINES != 0 && random.below(2) == 0 {
        break_lines(random, &mut text);
    }
    for _ in 0..random.below(4) * usize::from(options & BLANK != 0) {
        insert(random, &mut text, b" \t");
    }
    for _ in 0..random.below(4) {
        damage(random, alphabet, &mut text);
    }
    text
}

#[test]
fn damaged_texts() {
    cases("damaged texts", 40_000, |random| {
        let (alphabet, options) = choice(random);
        // The text may be in another alphabet than the one it is read in.
        let own = if random.below(8) == 0 { random.below(6) } else { alphabet as usize % 6 };
        let text = damaged(random, own, options);
        compare_text(alphabet, options, &text);
    });
}

#[test]
fn sources() {
    cases("sources", 8_000, |random| {
        let (alphabet, _) = choice(random);
        let n = length(random);
        compare_source(alphabet, &random.bytes(n));
    });
}

#[test]
fn ordinary_codecs_answer_the_same() {
    // What the benchmarks measure against is held to the reference too.
    cases("ordinary codecs", 20_000, |random| {
        let (alphabet, options) = choice(random);
        let text = damaged(random, alphabet as usize % 6, options);
        let judged = reference::judge(alphabet, options, &text);
        assert_eq!(ordinary::judge::<false>(alphabet, options, &text), judged.answer());
        assert_eq!(ordinary::judge::<true>(alphabet, options, &text), judged.answer());
        let n = length(random);
        let src = random.bytes(n);
        let form = reference::form(alphabet, &src);
        for room in [judged.good.len().saturating_sub(1), judged.good.len(), text.len(), form.len().saturating_sub(1), form.len()] {
            let fresh = common::pattern(room);
            let same = |call: &dyn Fn(&mut [u8]) -> zembrulish::Answer, want: &dyn Fn(&mut [u8]) -> zembrulish::Answer| {
                let (mut got, mut wanted) = (fresh.clone(), fresh.clone());
                assert_eq!(call(&mut got), want(&mut wanted));
                assert!(got == wanted);
            };
            let want_read = |out: &mut [u8]| reference::read(&judged, out);
            let want_write = |out: &mut [u8]| reference::write(alphabet, &src, &form, out);
            same(&|out| ordinary::read::<false>(alphabet, options, &text, out), &want_read);
            same(&|out| ordinary::read::<true>(alphabet, options, &text, out), &want_read);
            same(&|out| ordinary::write::<false>(alphabet, &src, out), &want_write);
            same(&|out| ordinary::write::<true>(alphabet, &src, out), &want_write);
        }
    });
}
