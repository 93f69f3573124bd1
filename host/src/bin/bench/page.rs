//! The measured times as a page with two tables, and as a picture.

use crate::calls::{Row as Call, SIZES};
use crate::programs::Row as Program;
use std::fmt::Write;

/// From this line on the page is written by hand, and kept.
pub const NOTES: &str = "## Notes";

/// How many times (a)'s time a read or a write should take at most.
const REACH: f64 = 1.2;

fn sized(n: usize) -> String {
    match n {
        0..=1023 => format!("{n} B"),
        1024..=1_048_575 => format!("{} KiB", n >> 10),
        _ => format!("{} MiB", n >> 20),
    }
}

/// The processor's name, where the system tells it.
fn processor() -> String {
    let told = std::fs::read_to_string("/proc/cpuinfo").unwrap_or_default();
    let line = told.lines().find(|l| l.starts_with("model name")).and_then(|l| l.split(": ").nth(1));
    line.unwrap_or("a processor that does not tell its name").to_string()
}

pub fn page(calls: &[Call], programs: &[Program]) -> String {
    let mut page = format!(
        "# Measured speed\n\nWritten by `tools/bench`, on one computer ({}), in one run: contestants take turns, medians are told.\n",
        processor()
    );
    page += "A ratio is our time over theirs: below 1 we are faster. Sizes are of the text judged or read, or of the source written.\n\n";
    page += "## The calls\n\n(a) is an ordinary safe Rust codec that goes a byte at a time with the same options and answers, (b) one that takes whole groups at once\n";
    page += "(`host/src/ordinary.rs`); `read lines` is text in lines of 76 with CR LF, read with LINES. Ours is `zem_judge_answer`, `zem_read`, `zem_write`.\n\n";
    page += "![Our time and that of (b), over the time of (a)](speed.svg)\n\n";
    page += "| call | alphabet | size | ours, MB/s | to (a) | to (b) | to memcpy |\n|---|---|---:|---:|---:|---:|---:|\n";
    for r in calls {
        let speed = r.size as f64 / r.ours / 1e6;
        let ratios = [r.bytewise, r.grouped, r.copied].map(|t| format!("{:.2}", r.ours / t));
        _ = writeln!(page, "| {} | {} | {} | {speed:.0} | {} |", r.call, r.alphabet, sized(r.size), ratios.join(" | "));
    }
    page += &reached(calls);
    page += "\n## The program\n\nOn the longest text within the limit (E: the longest source), the whole run with its start. `basenc` and `cat` are those of the machine.\n\n";
    page += "| verb | alphabet | way | ours, ms | ours, MB/s | to basenc | to cat |\n|---|---|---|---:|---:|---:|---:|\n";
    for r in programs {
        let basenc = r.basenc.map_or("-".to_string(), |t| format!("{:.2}", r.ours / t));
        let speed = r.bytes as f64 / r.ours / 1e6;
        let ms = r.ours * 1e3;
        _ = writeln!(page, "| {} | {} | {} | {ms:.1} | {speed:.0} | {basenc} | {:.2} |", r.verb, r.alphabet, r.way, r.ours / r.cat);
    }
    let beside: Vec<bool> = programs.iter().filter(|r| r.verb == "D").filter_map(|r| Some(r.ours <= r.basenc?)).collect();
    let met = beside.iter().filter(|met| **met).count();
    _ = writeln!(page, "\nReach: D at least as fast as `basenc -d`. Met in {met} of {} rows.\n", beside.len());
    page
}

/// Which reads and writes are within reach of (a), and the one that is farthest.
fn reached(calls: &[Call]) -> String {
    let asked: Vec<&Call> = calls.iter().filter(|r| r.call != "judge").collect();
    let within = asked.iter().filter(|r| r.ours <= REACH * r.bytewise).count();
    let worst = asked.iter().max_by(|x, y| (x.ours / x.bytewise).total_cmp(&(y.ours / y.bytewise)));
    let worst = worst.map_or(String::new(), |r| format!("{} {} {} at {:.2}", r.call, r.alphabet, sized(r.size), r.ours / r.bytewise));
    format!("\nReach: reads and writes at most {REACH} times (a). Met in {within} of {} rows; the farthest is {worst}.\n", asked.len())
}

/// Bars on a scale of powers of two: for each call and alphabet at the two larger sizes, our time and that of (b) over (a)'s.
pub fn picture(calls: &[Call]) -> String {
    let rows: Vec<&Call> = calls.iter().filter(|r| SIZES[2..].contains(&r.size)).collect();
    let ratios = rows.iter().flat_map(|r| [r.ours / r.bytewise, r.grouped / r.bytewise]);
    let (low, high) = ratios.fold((0.5f64, 2.0f64), |(low, high), x| (low.min(x), high.max(x)));
    let (low, high) = (low.log2().floor(), high.log2().ceil());
    let (left, width, step, top) = (190.0, 560.0, 26.0, 58.0);
    let x = |ratio: f64| left + width * (ratio.log2() - low) / (high - low);
    let bottom = top + step * rows.len() as f64;
    let mut svg = format!(
        "<svg xmlns=\"http://www.w3.org/2000/svg\" width=\"{}\" height=\"{}\" font-family=\"sans-serif\" font-size=\"12\">\n",
        left + width + 30.0,
        bottom + 34.0
    );
    svg += "<rect width=\"100%\" height=\"100%\" fill=\"white\"/>\n";
    svg += "<text x=\"10\" y=\"20\" font-size=\"14\">Time over that of (a), an ordinary Rust codec a byte at a time: shorter is faster</text>\n";
    _ = writeln!(svg, "<rect x=\"10\" y=\"30\" width=\"12\" height=\"9\" fill=\"#2b6cb0\"/><text x=\"27\" y=\"39\">ours</text>");
    _ = writeln!(svg, "<rect x=\"80\" y=\"30\" width=\"12\" height=\"9\" fill=\"#a0aec0\"/><text x=\"97\" y=\"39\">(b), by groups</text>");
    for power in low as i32..=high as i32 {
        let at = x(2f64.powi(power));
        let (colour, label) = (if power == 0 { "#333" } else { "#ddd" }, 2f64.powi(power));
        _ = writeln!(svg, "<line x1=\"{at:.1}\" y1=\"{top}\" x2=\"{at:.1}\" y2=\"{bottom:.1}\" stroke=\"{colour}\"/>");
        _ = writeln!(svg, "<text x=\"{at:.1}\" y=\"{:.1}\" text-anchor=\"middle\">{label}</text>", bottom + 16.0);
    }
    for (k, r) in rows.iter().enumerate() {
        let y = top + step * k as f64;
        _ = writeln!(
            svg,
            "<text x=\"{:.1}\" y=\"{:.1}\" text-anchor=\"end\">{} {} {}</text>",
            left - 8.0,
            y + 15.0,
            r.call,
            r.alphabet,
            sized(r.size)
        );
        for (at, time, colour) in [(y + 4.0, r.ours, "#2b6cb0"), (y + 13.0, r.grouped, "#a0aec0")] {
            let end = x(time / r.bytewise);
            _ = writeln!(svg, "<rect x=\"{left}\" y=\"{at:.1}\" width=\"{:.1}\" height=\"8\" fill=\"{colour}\"/>", end - left);
        }
    }
    svg + "</svg>\n"
}
