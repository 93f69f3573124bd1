//! The C face beside the reference on every text over a small set of bytes, up to a length, with every room.

mod common;

use common::{choices, compare_source, compare_text, compare_text_in};
use zembrulish::oracle::all_over;
use zembrulish::reference::allowed;

/// Every sum of options for the alphabets, on every text over the bytes.
fn every_text(alphabets: &[u32], bytes: &[u8], most: usize) {
    for text in all_over(bytes, most) {
        for alphabet in alphabets {
            for options in (0..32).filter(|o| allowed(*alphabet, *o)) {
                compare_text(*alphabet, options, &text);
            }
        }
    }
}

#[test]
fn base64_texts() {
    every_text(&[0, 1], b"Zgh=\n", 5);
    every_text(&[0, 1], b"A/_= ", 4);
}

#[test]
fn base32_texts() {
    every_text(&[2, 3], b"Mb=\n", 6);
}

#[test]
fn base32_tails() {
    // Longer texts, in the four sums of options that matter to a tail; rooms about the edges only.
    for text in all_over(b"AB=", 9) {
        for options in [0, 4, 8, 12] {
            compare_text_in(2, options, &text, |n| vec![n.saturating_sub(1), n]);
        }
    }
}

#[test]
fn hex_texts() {
    every_text(&[4, 5], b"0Aag=\r\t", 4);
}

#[test]
fn every_byte() {
    // Each byte alone, and after the starts of a group that give it another meaning.
    for (alphabet, options) in choices() {
        for start in ["", "A", "AA", "AA=", "AA==", "0", "AAAA", "AAAAAAA", "AAAAAAA="] {
            for c in 0..=255 {
                let text = [start.as_bytes(), &[c]].concat();
                compare_text_in(alphabet, options, &text, |n| vec![n]);
            }
        }
    }
}

#[test]
fn every_choice() {
    for (alphabet, options) in choices() {
        for text in ["", "Zg==", "Zh==", "MY======", "my======", "66", "6f", "6F", "6", "=", "Zg= \r\n="] {
            compare_text(alphabet, options, text.as_bytes());
        }
    }
}

#[test]
fn short_sources() {
    for src in all_over(&[0, 1, 0x66, 0x80, 0xFF], 5) {
        for alphabet in (0..=6).chain([255, u32::MAX]) {
            compare_source(alphabet, &src);
        }
    }
    for c in 0..=255 {
        for alphabet in 0..6 {
            compare_source(alphabet, &[c]);
            compare_source(alphabet, &[0, c, 0xFF]);
        }
    }
}
