//! The C face at the limit: L bytes of text and one more, the longest source of each alphabet and one byte more.

mod common;

use common::{compare_text_in, pattern};
use zembrulish::reference::{self, answer, written, ALPHABETS};
use zembrulish::{judge, read, write, BASE32, BASE64, BLANK, HEX, LIMIT, LINES, LOWER_HEX, NOPAD, STRICT};

const GOOD: usize = 8_388_608;

/// Rooms about the number of good bytes alone: a long text is read again for each.
fn edges(n: usize) -> Vec<usize> {
    vec![n.saturating_sub(1), n]
}

#[test]
fn limit_digits_of_hex_are_accepted() {
    for alphabet in [HEX, LOWER_HEX] {
        let text = written(alphabet as usize, &pattern(GOOD));
        assert_eq!(judge(alphabet, STRICT, &text), answer(0, LIMIT, GOOD));
        compare_text_in(alphabet, STRICT, &text, edges);
    }
}

#[test]
fn one_byte_more_is_too_long() {
    // Whatever the byte is: a digit, a foreign byte, or one that is dropped.
    for (more, options) in [(b'0', STRICT), (b'-', STRICT), (b'=', STRICT), (10, LINES), (13, LINES), (32, BLANK), (9, LINES + BLANK)] {
        let mut text = written(HEX as usize, &pattern(GOOD));
        text.push(more);
        assert_eq!(judge(HEX, options, &text), answer(2, LIMIT, GOOD), "byte {more}");
        let mut out = vec![0xEE; GOOD + 1];
        assert_eq!(read(HEX, options, &text, &mut out), answer(2, LIMIT, GOOD), "byte {more}");
        assert!(out[..GOOD] == pattern(GOOD) && out[GOOD] == 0xEE);
        let mut small = vec![0xEE; GOOD - 1];
        assert_eq!(read(HEX, options, &text, &mut small), answer(3, 0, GOOD), "byte {more}");
        assert!(small.iter().all(|c| *c == 0xEE));
    }
}

#[test]
fn dropped_bytes_count_for_the_limit() {
    let mut text = vec![10; LIMIT];
    assert_eq!(judge(HEX, LINES, &text), answer(0, LIMIT, 0));
    text.push(10);
    assert_eq!(judge(HEX, LINES, &text), answer(2, LIMIT, 0));
    // An odd digit before the limit is cut short at L, and too long one byte later.
    let mut text = written(HEX as usize, &pattern(GOOD));
    text[LIMIT - 1] = 32;
    assert_eq!(judge(HEX, BLANK, &text), answer(8, LIMIT, GOOD - 1));
    text.push(b'0');
    assert_eq!(judge(HEX, BLANK, &text), answer(2, LIMIT, GOOD - 1));
    // An earlier refusal comes first.
    text[LIMIT - 1] = b'=';
    assert_eq!(judge(HEX, BLANK, &text), answer(4, LIMIT - 1, GOOD - 1));
}

#[test]
fn padding_at_the_limit() {
    // Padding whose last pad is the last byte within the limit, and padding that the limit cuts.
    for (alphabet, n) in [(BASE64, 12_582_912 - 2), (BASE32, 10_485_760 - 4)] {
        let mut text = written(alphabet as usize, &pattern(n));
        assert_eq!(text.len(), LIMIT);
        compare_text_in(alphabet, STRICT, &text, edges);
        text.insert(LIMIT - 1, 10);
        compare_text_in(alphabet, LINES + NOPAD, &text, edges);
    }
}

#[test]
fn the_longest_sources() {
    for (alphabet, longest) in [12_582_912, 12_582_912, 10_485_760, 10_485_760, GOOD, GOOD].into_iter().enumerate() {
        assert_eq!(ALPHABETS[alphabet].longest_source(), longest);
        let mut src = pattern(longest);
        let form = written(alphabet, &src);
        let alphabet = alphabet as u32;
        let fresh = vec![0xEE; LIMIT + 3];
        let mut out = fresh.clone();
        assert_eq!(write(alphabet, &src, &mut out), answer(0, LIMIT, LIMIT));
        assert!(out[..LIMIT] == form && out[LIMIT..] == [0xEE; 3]);
        assert_eq!(write(alphabet, &src, &mut out[..LIMIT - 1]), answer(3, 0, LIMIT));
        assert_eq!(judge(alphabet, STRICT, &form), answer(0, LIMIT, longest));
        src.push(0);
        let mut out = fresh.clone();
        assert_eq!(write(alphabet, &src, &mut out), answer(2, 0, 0));
        assert!(out == fresh, "a refused source writes nothing");
        assert_eq!(write(alphabet, &src, &mut []), answer(2, 0, 0), "too long comes before no room");
        assert_eq!(reference::write(alphabet, &src, &[], &mut []), answer(2, 0, 0));
    }
}
