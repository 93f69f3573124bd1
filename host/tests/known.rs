//! The texts with known outcomes: every row of 01's table, and all of RFC 4648 section 10, read and written through the C face.

mod common;

use common::compare_text;
use zembrulish::{read, write, BASE32, BASE32HEX, BASE64, BASE64URL, HEX, LOWER_HEX, STRICT};

/// 01's table: alphabet, options, text, then answer, position and good bytes.
const TABLE: &[(u32, u32, &str, u32, u64, &str)] = &[
    (0, 0, "", 0, 0, ""),
    (0, 0, "Zm9vYg==", 0, 8, "foob"),
    (0, 0, "Zh==", 6, 2, "f"),
    (0, 8, "Zh==", 0, 4, "f"),
    (0, 4, "Zm9", 6, 3, "fo"),
    (0, 4, "Zm8", 0, 3, "fo"),
    (0, 0, "Zm9", 8, 3, "fo"),
    (0, 4, "Zg=", 8, 3, "f"),
    (0, 0, "Zg==Zg==", 7, 4, "f"),
    (0, 0, "Z===", 5, 1, ""),
    (0, 0, "Zm9v-", 4, 4, "foo"),
    (0, 1, "Zg=\r\n=", 0, 6, "f"),
    (0, 0, "Zg==\n", 4, 4, "f"),
    (2, 0, "MZXW6YQ=", 0, 8, "foob"),
    (2, 0, "MZ======", 6, 2, "f"),
    (2, 16, "my======", 0, 8, "f"),
    (2, 0, "my======", 4, 0, ""),
    (4, 0, "666", 8, 3, "f"),
    (5, 0, "6F", 4, 1, ""),
];

/// RFC 4648 section 10, with lower hex as the house rule has it.
const VECTORS: &[(u32, [&str; 7])] = &[
    (BASE64, ["", "Zg==", "Zm8=", "Zm9v", "Zm9vYg==", "Zm9vYmE=", "Zm9vYmFy"]),
    (BASE64URL, ["", "Zg==", "Zm8=", "Zm9v", "Zm9vYg==", "Zm9vYmE=", "Zm9vYmFy"]),
    (BASE32, ["", "MY======", "MZXQ====", "MZXW6===", "MZXW6YQ=", "MZXW6YTB", "MZXW6YTBOI======"]),
    (BASE32HEX, ["", "CO======", "CPNG====", "CPNMU===", "CPNMUOG=", "CPNMUOJ1", "CPNMUOJ1E8======"]),
    (HEX, ["", "66", "666F", "666F6F", "666F6F62", "666F6F6261", "666F6F626172"]),
    (LOWER_HEX, ["", "66", "666f", "666f6f", "666f6f62", "666f6f6261", "666f6f626172"]),
];

#[test]
fn the_table() {
    for (alphabet, options, text, number, position, good) in TABLE {
        let mut out = [0; 32];
        let answer = read(*alphabet, *options, text.as_bytes(), &mut out);
        let got = (answer.number, answer.position.0, answer.bytes(&out));
        assert_eq!(got, (*number, *position, good.as_bytes()), "alphabet {alphabet}, options {options}, {text:?}");
        compare_text(*alphabet, *options, text.as_bytes());
    }
}

#[test]
fn rfc_4648_section_10() {
    for (alphabet, texts) in VECTORS {
        for (n, text) in texts.iter().enumerate() {
            let source = &b"foobar"[..n];
            let mut out = [0; 32];
            let answer = write(*alphabet, source, &mut out);
            assert_eq!((answer.number, answer.bytes(&out)), (0, text.as_bytes()));
            let answer = read(*alphabet, STRICT, text.as_bytes(), &mut out);
            assert_eq!((answer.number, answer.bytes(&out)), (0, source));
        }
    }
}
