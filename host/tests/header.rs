//! `include/zembrulish.h` is held to the library and to the one list of answers, and README.md's table to that list. Wrong headers are tried too.

use std::path::{Path, PathBuf};
use std::process::Command;
use zembrulish::answers::ANSWERS;
use zembrulish::reference::ALPHABETS;
use zembrulish::LIMIT;

fn root() -> PathBuf {
    Path::new(env!("CARGO_MANIFEST_DIR")).join("..")
}

fn header() -> String {
    std::fs::read_to_string(root().join("include/zembrulish.h")).expect("the header")
}

/// The parameters of each function in the order that tests/header/calls.c hands them over in.
const PARAMETERS: [(&str, &str); 9] = [
    ("zem_judge_answer", "alphabet, options, text, len"),
    ("zem_judge_position", "alphabet, options, text, len"),
    ("zem_judge_count", "alphabet, options, text, len"),
    ("zem_read", "alphabet, options, text, len, out, room"),
    ("zem_read_position", "alphabet, options, text, len, room"),
    ("zem_read_count", "alphabet, options, text, len, room"),
    ("zem_write", "alphabet, src, len, out, room"),
    ("zem_write_position", "alphabet, src, len, room"),
    ("zem_write_count", "alphabet, src, len, room"),
];

/// The header's declarations: each function with the names of its parameters, in their order.
fn declared(header: &str) -> Vec<(String, String)> {
    let lines = header.lines().filter(|l| l.starts_with("uint") && l.ends_with(");"));
    let last_word = |words: &str| words.rsplit([' ', '*']).next().unwrap_or("").to_string();
    lines
        .map(|line| {
            let (front, rest) = line.split_once('(').expect("a function");
            let names: Vec<String> = rest.trim_end_matches(");").split(", ").map(last_word).collect();
            (last_word(front), names.join(", "))
        })
        .collect()
}

/// Compiles the C test against a header and runs it: what it prints where something is wrong.
fn tried(name: &str, header: &str) -> Result<(), String> {
    let folder = PathBuf::from(env!("CARGO_TARGET_TMPDIR")).join(format!("header-{name}"));
    std::fs::create_dir_all(&folder).expect("a folder");
    let named = |(f, names): (String, String)| {
        let (_, told) = PARAMETERS.iter().find(|(g, _)| *g == f).ok_or(format!("{f} is called nowhere"))?;
        Ok(format!("#define NAMED_{f}({told}) {f}({names})\n"))
    };
    let calls: Vec<String> = declared(header).into_iter().map(named).collect::<Result<_, String>>()?;
    std::fs::write(folder.join("zembrulish.h"), header).expect("a header");
    std::fs::write(folder.join("named.h"), calls.concat()).expect("the calls");
    let mut cc = Command::new("cc");
    cc.args(["-std=c11", "-O1", "-Wall", "-Wextra", "-Wpedantic", "-Werror", "-I"]).arg(&folder);
    cc.arg(root().join("host/tests/header/calls.c")).arg(root().join("crates/panel/out/libpanel.a")).arg("-o").arg(folder.join("calls"));
    for mut command in [cc, Command::new(folder.join("calls"))] {
        let output = command.output().expect("a start");
        if !output.status.success() {
            return Err(format!("{}{}", String::from_utf8_lossy(&output.stdout), String::from_utf8_lossy(&output.stderr)));
        }
    }
    Ok(())
}

fn words(line: &str) -> String {
    line.split_whitespace().collect::<Vec<_>>().join(" ")
}

/// Holds a header's comment to the list of answers, row by row, and to the longest sources.
fn read_table(header: &str) -> Result<(), String> {
    let lines: Vec<String> = header.lines().map(|l| words(l.trim_start_matches([' ', '*']))).collect();
    let from = lines.iter().position(|l| l == "answer position count").ok_or("there is no table of answers")?;
    let mut rows = lines[from + 1..].iter().take_while(|l| !l.is_empty());
    for (number, row) in ANSWERS.iter().enumerate() {
        let (Some(position), Some(count)) = (row.position, row.count) else { continue };
        let wanted = format!("{number} {} {position} {count}", row.meaning);
        if rows.next() != Some(&wanted) {
            return Err(format!("the header's table has no row \"{wanted}\" in its place"));
        }
        if number == 2 && rows.next().map(String::as_str) != Some("writing: 0 0") {
            return Err("the header's table does not say what a source that is too long gives".into());
        }
    }
    if let Some(row) = rows.next() {
        return Err(format!("a row too many: {row}"));
    }
    let all = lines.join(" ");
    let [longest_64, longest_32, longest_16] = [0, 2, 4].map(|a| ALPHABETS[a].longest_source());
    let told = format!("{longest_64} bytes in base64, {longest_32} in base32 and {longest_16} in hex");
    all.contains(&told).then_some(()).ok_or(format!("the header does not say \"{told}\""))
}

#[test]
fn the_header_is_held_to_the_library() {
    let names: Vec<String> = declared(&header()).into_iter().map(|(f, _)| f).collect();
    assert_eq!(names, PARAMETERS.map(|(f, _)| f), "every function of the header is called, and no other");
    assert_eq!(tried("right", &header()), Ok(()));
    assert!(header().contains(&format!("#define ZEM_LIMIT {LIMIT}u\n")));
}

#[test]
fn its_table_and_that_of_the_page_are_the_list() {
    assert_eq!(read_table(&header()), Ok(()));
    let page = std::fs::read_to_string(root().join("README.md")).expect("README.md");
    for (number, row) in ANSWERS.iter().enumerate() {
        let wanted = format!("| {number} | {}{} | {} |", row.meaning, row.more, row.positions);
        assert!(page.lines().any(|l| l == wanted), "README.md has no row {wanted}");
    }
}

#[test]
fn wrong_headers_fail() {
    let judge = "uint32_t zem_judge_answer(uint32_t alphabet, uint32_t options, const uint8_t *text, size_t len);";
    let wrong = [
        ("limit", "#define ZEM_LIMIT 16777216u", "#define ZEM_LIMIT 4096u"),
        ("names", judge, "uint32_t zem_judge_answer(uint32_t options, uint32_t alphabet, const uint8_t *text, size_t len);"),
        ("order", judge, "uint32_t zem_judge_answer(uint32_t alphabet, uint32_t options, size_t len, const uint8_t *text);"),
        ("type", judge, "uint64_t zem_judge_answer(uint32_t alphabet, uint32_t options, const uint8_t *text, size_t len);"),
        (
            "position",
            "zem_read_position(uint32_t alphabet, uint32_t options, const uint8_t *text, size_t len, size_t room)",
            "zem_read_position(uint32_t alphabet, uint32_t options, const uint8_t *text, size_t room, size_t len)",
        ),
        (
            "count",
            "zem_write_count(uint32_t alphabet, const uint8_t *src, size_t len, size_t room)",
            "zem_write_count(uint32_t alphabet, const uint8_t *src, size_t room, size_t len)",
        ),
        (
            "read",
            "size_t len, uint8_t *out, size_t room);\n\n/* The position that belongs to the answer of zem_read ",
            "size_t room, uint8_t *out, size_t len);\n\n/* The position that belongs to the answer of zem_read ",
        ),
        (
            "write",
            "zem_write(uint32_t alphabet, const uint8_t *src, size_t len, uint8_t *out, size_t room)",
            "zem_write(uint32_t alphabet, const uint8_t *src, size_t room, uint8_t *out, size_t len)",
        ),
    ];
    for (name, old, new) in wrong {
        assert_eq!(header().matches(old).count(), 1, "{name}");
        assert!(tried(name, &header().replace(old, new)).is_err(), "a header with a wrong {name} passes");
    }
    // Rows of the table, each made wrong in one place.
    for (old, new) in [
        ("4 foreign byte ", "5 foreign byte "),
        ("8 cut short ", "8 too short "),
        ("text's end                good", "that byte                 good"),
        ("12582912", "12582911"),
    ] {
        assert!(header().contains(old), "{old}");
        assert!(read_table(&header().replacen(old, new, 1)).is_err(), "a header with {new:?} passes");
    }
}
