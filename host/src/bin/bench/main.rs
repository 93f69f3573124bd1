//! Measures the C face beside two ordinary Rust codecs and memcpy, and the program beside basenc and cat.
//! Prints the tables and writes them to docs/SPEED.md and docs/speed.svg. Run it by tools/bench.

mod calls;
mod page;
mod programs;
mod race;

use std::path::Path;

fn main() -> std::io::Result<()> {
    let docs = Path::new(env!("CARGO_MANIFEST_DIR")).join("../docs");
    let calls = calls::rows();
    let programs = programs::rows()?;
    let page = page::page(&calls, &programs);
    println!("{page}");
    std::fs::create_dir_all(&docs)?;
    let notes = std::fs::read_to_string(docs.join("SPEED.md")).ok().and_then(|old| Some(old[old.find(page::NOTES)?..].to_string()));
    std::fs::write(docs.join("SPEED.md"), page + &notes.unwrap_or(format!("{}\n", page::NOTES)))?;
    std::fs::write(docs.join("speed.svg"), page::picture(&calls))
}
