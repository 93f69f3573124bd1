//! The reference's rule beside the continuation rule by trying, on every text over a small set of bytes.
//! A text is followed byte by byte as long as it goes on: after a refused byte nothing new can be asked.

mod common;

use zembrulish::oracle::Oracle;
use zembrulish::reference::{allowed, ruled};
use zembrulish::{BLANK, CASE, LINES};

/// Compares the two on the text and on everything that goes on from it, up to `most` bytes.
fn follow(oracle: &Oracle, alphabet: usize, options: u32, bytes: &[u8], text: &mut Vec<u8>, most: usize) -> usize {
    let judged = oracle.judged(options, text);
    assert_eq!(ruled(alphabet, options, text), judged, "alphabet {alphabet}, options {options}, {}", text.escape_ascii());
    let mut seen = 1;
    if judged.number > 3 && judged.position < text.len() || text.len() == most {
        return seen;
    }
    for c in bytes {
        text.push(*c);
        seen += follow(oracle, alphabet, options, bytes, text, most);
        text.pop();
    }
    seen
}

/// Every allowed sum of options out of `among`, on texts to `most` bytes.
fn compare(alphabets: &[usize], bytes: &[u8], among: u32, most: usize) {
    for alphabet in alphabets {
        let oracle = Oracle::new(*alphabet);
        let options = (0..32).filter(|o| o & !among == 0 && allowed(*alphabet as u32, *o));
        let seen: usize = options.map(|o| follow(&oracle, *alphabet, o, bytes, &mut Vec::new(), most)).sum();
        println!("alphabet {alphabet}: {seen} texts");
    }
}

#[test]
fn base64_by_trying() {
    compare(&[0, 1], b"AQgZ=\n", 31 - BLANK, 5);
    compare(&[0, 1], b"A/-= \t", 31, 4);
}

#[test]
fn base32_by_trying() {
    compare(&[2, 3], b"AB=", 31 - LINES - BLANK - CASE, 9);
    compare(&[2, 3], b"Aa2=\r", 31 - BLANK, 5);
}

#[test]
fn hex_by_trying() {
    compare(&[4, 5], b"0AaFg= \n", 31, 4);
}
