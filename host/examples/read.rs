//! Decodes the text of its first argument, base64 with line breaks allowed, and prints answer, position, count and bytes.

use zembrulish::{read, BASE64, LINES};

fn main() {
    let text = std::env::args().nth(1).unwrap_or("Zm9vYg==".into());
    let mut out = [0; 64];

    let answer = read(BASE64, LINES, text.as_bytes(), &mut out);
    println!("{} {} {}", answer.number, answer.position.0, answer.count.0);
    if answer.number != 3 {
        println!("{}", String::from_utf8_lossy(answer.bytes(&out)));
    }
    std::process::exit(i32::from(answer.number != 0));
}
