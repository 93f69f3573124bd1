//! The program crates/zembrulish/out/zembrulish, driven through its standard input and output, beside the reference.

mod common;

use common::{cases, pattern, Random};
use std::io::{Read, Write};
use std::os::unix::net::UnixDatagram;
use std::path::PathBuf;
use std::process::{Child, Command, Stdio};
use std::time::Duration;
use zembrulish::reference::{program, written, ALPHABETS};
use zembrulish::LIMIT;

fn path() -> PathBuf {
    let path = PathBuf::from(env!("CARGO_MANIFEST_DIR")).join("../crates/zembrulish/out/zembrulish");
    assert!(path.is_file(), "there is no {}: make it with `rt run` in crates/zembrulish", path.display());
    path
}

fn start(stdin: Stdio, stdout: Stdio) -> Child {
    Command::new(path()).stdin(stdin).stdout(stdout).stderr(Stdio::piped()).spawn().expect("the program starts")
}

/// Waits for the program's end and answers all that it wrote; it ends well and says nothing on standard error.
fn end(mut child: Child) -> Vec<u8> {
    let (mut wrote, mut said) = (Vec::new(), Vec::new());
    child.stdout.take().expect("a pipe").read_to_end(&mut wrote).expect("its output");
    child.stderr.take().expect("a pipe").read_to_end(&mut said).expect("its errors");
    let status = child.wait().expect("its end");
    assert!(status.success() && said.is_empty(), "{status}, {}", said.escape_ascii());
    wrote
}

/// Runs the program on pieces, with a pause between them so that each arrives by itself. It may end before it has read all of them.
fn run_pieces(pieces: Vec<Vec<u8>>, pause: Duration) -> Vec<u8> {
    let mut child = start(Stdio::piped(), Stdio::piped());
    let mut stdin = child.stdin.take().expect("a pipe");
    let feeder = std::thread::spawn(move || {
        for piece in pieces {
            if stdin.write_all(&piece).is_err() {
                return;
            }
            if !pause.is_zero() {
                std::thread::sleep(pause);
            }
        }
    });
    let wrote = end(child);
    feeder.join().expect("the pieces");
    wrote
}

fn run(input: &[u8]) -> Vec<u8> {
    run_pieces(vec![input.to_vec()], Duration::ZERO)
}

fn shown(bytes: &[u8]) -> String {
    let n = bytes.len();
    let front = bytes[..n.min(80)].escape_ascii();
    format!("\"{front}\" ({n} bytes)")
}

fn same(input: &[u8], wrote: &[u8]) {
    let wanted = program(input);
    assert!(wrote == wanted, "on {} it wrote {} and not {}", shown(input), shown(wrote), shown(&wanted));
}

fn compare(input: &[u8]) {
    same(input, &run(input));
}

fn input(verb: char, alphabet: u32, options: u32, data: &[u8]) -> Vec<u8> {
    [format!("{verb} {alphabet} {options:02}\n").as_bytes(), data].concat()
}

#[test]
fn judges_reads_and_writes() {
    assert_eq!(run(b"J 0 00\nZh=="), b"6 2 1\n");
    assert_eq!(run(b"J 0 00\n"), b"0 0 0\n");
    assert_eq!(run(b"D 0 00\nZm9vYg=="), b"foob");
    assert_eq!(run(b"D 0 00\nZm9v-"), b"foo", "the good bytes of a refused text");
    assert_eq!(run(b"D 2 16\nmy======"), b"f");
    assert_eq!(run(b"E 0 00\nfoob"), b"Zm9vYg==");
    assert_eq!(run(b"E 4 00\n"), b"");
    for alphabet in 0..6 {
        for n in 0..=11 {
            let text = run(&input('E', alphabet, 0, &pattern(n)));
            assert_eq!(text, written(alphabet as usize, &pattern(n)));
            assert_eq!(run(&input('D', alphabet, 0, &text)), pattern(n));
            assert_eq!(run(&input('J', alphabet, 0, &text)), format!("0 {} {n}\n", text.len()).into_bytes());
        }
    }
}

#[test]
fn bad_first_lines() {
    // Parted by bars, and \n where a line has its byte 10.
    let bad = "|\n|J|J |J 0|J 0 |J 0 0|J 0 00|J 0 00\r\n|J 0 00 \n| J 0 00\n|j 0 00\n|d 0 00\n|e 0 00\n|K 0 00\n|X 0 00\n|J0 00\n|J 000\n|J  0 00\n\
        |J 0  00\n|J\t0 00\n|J 0\t00\n|J 0 0\n|J 0 000\n|J 00 00\n|J 6 00\n|J 9 00\n|J a 00\n|J - 00\n|J 0 32\n|J 0 99\n|J 0 0a\n|J 0 a0\n|J 0 -1\n\
        |J 0 +1\n|J 0 16\n|J 1 16\n|D 0 31\n|D 1 17\n|E 0 01\n|E 2 16\n|E 4 10\n|E 0 32\n|E 6 00\n|JJ0 00\n|J 0 00\0|\0 0 00\n|J 0 00J 0 00\n";
    for line in bad.split('|').map(str::as_bytes) {
        for data in [&b""[..], b"Zg==", b"\n", b"J 0 00\nZg=="] {
            // What follows a line that never ended may end it: only a whole line is bad whatever comes after.
            if data.is_empty() || line.contains(&10) {
                let input = [line, data].concat();
                assert_eq!(run(&input), b"1 0 0\n", "{}", shown(&input));
            }
        }
    }
    // A line that is never ended, however long.
    assert_eq!(run(&vec![b'J'; 200_000]), b"1 0 0\n");
    assert_eq!(run(&[b"J 0 00".to_vec(), vec![b' '; 200_000]].concat()), b"1 0 0\n");
}

#[test]
fn every_change_of_a_first_line() {
    let line = *b"J 2 04\n";
    for at in 0..line.len() {
        for c in 0..=255 {
            let mut changed = line;
            changed[at] = c;
            compare(&[&changed[..], b"MY"].concat());
        }
    }
}

#[test]
fn every_choice() {
    for options in 0..100 {
        for alphabet in [0, 1, 3, 4, 7] {
            compare(&input('J', alphabet, options, b"CO\t==\n===="));
        }
        compare(&input('E', options % 10, options, b"f"));
    }
}

#[test]
fn a_byte_at_a_time() {
    // Each datagram is one read of one byte; an empty one is the input's end.
    let texts: &[&[u8]] = &[
        b"J 0 00\nZh==",
        b"J 0 01\nZg=\r\n=",
        b"D 0 00\nZg==Zg==",
        b"D 2 16\nmzxw6ytboi======",
        b"D 0 04\nZm8",
        b"E 2 00\nfoobar",
        b"E 0 00\nfo",
        b"J 0 0",
        b"J 9 00\nZg==",
    ];
    for input in texts {
        let (ours, its) = UnixDatagram::pair().expect("a pair of sockets");
        let child = start(Stdio::from(std::os::fd::OwnedFd::from(its)), Stdio::piped());
        for c in *input {
            // It may have ended already.
            let _ = ours.send(&[*c]);
        }
        for _ in 0..16 {
            let _ = ours.send(&[]);
        }
        same(input, &end(child));
    }
}

/// Texts whose telling bytes stand at index `at` of the data: a group, a break, padding, a foreign byte, spare bits, the end.
fn texts_about(at: usize) -> Vec<(u32, u32, Vec<u8>)> {
    let digits = |a: usize, n: usize| -> Vec<u8> { (0..n).map(|i| ALPHABETS[a].digits[i * 7 % ALPHABETS[a].digits.len()]).collect() };
    let with = |a: usize, more: &[u8]| [&digits(a, at)[..], more].concat();
    vec![
        (0, 0, with(0, b"")),
        (0, 4, with(0, b"A")),
        (0, 1, with(0, b"\r\nAAAA")),
        (0, 9, with(0, b"=\r\n=")),
        (0, 8, with(0, b"==")),
        (0, 0, with(0, b"A===")),
        (1, 0, with(1, b"+AAA")),
        (2, 8, with(2, b"======")),
        (2, 2, with(2, b" = = = ")),
        (3, 16, with(3, b"aaaaaaaa")),
        (4, 0, with(4, b"0")),
        (5, 1, with(5, b"\n0")),
    ]
}

#[test]
fn about_the_edges_of_its_buffer() {
    // The program's buffer is some power of two, and its first read may hold the first line or not.
    for size in [4_096, 8_192, 16_384, 32_768, 65_536, 131_072] {
        for edge in [size, size - 7] {
            for at in [edge - 2, edge - 1, edge, edge + 1] {
                for (alphabet, options, text) in texts_about(at) {
                    compare(&input('D', alphabet, options, &text));
                }
                let (alphabet, options, text) = texts_about(at).swap_remove(at % 12);
                compare(&input('J', alphabet, options, &text));
                compare(&input('E', (at % 6) as u32, 0, &pattern(at)));
            }
        }
    }
}

/// Sources and texts with some damage, cut into pieces.
fn some_input(random: &mut Random) -> Vec<u8> {
    let alphabet = random.below(6);
    let most = random.one_of(&[20, 1_000, 100_000, 300_000]);
    let n = random.below(most);
    let src = random.bytes(n);
    let verb = random.one_of(&['J', 'D', 'E']);
    if verb == 'E' {
        return input(verb, alphabet as u32, 0, &src);
    }
    let options = random.below(16) as u32;
    let mut text = written(alphabet, &src);
    if options & 1 != 0 {
        text = text.chunks(76).flat_map(|line| [line, b"\r\n"].concat()).collect();
    }
    if random.below(2) == 0 && !text.is_empty() {
        let at = text.len() - 1 - random.below(text.len()) / (1 + random.below(1_000));
        text[at] = random.one_of(b"=A0 \n-\xFF");
    }
    input(verb, alphabet as u32, options, &text)
}

#[test]
fn pieces_of_every_size() {
    cases("pieces", 300, |random| {
        let input = some_input(random);
        let size = random.one_of(&[1_000, 4_095, 4_096, 4_097, 65_535, 65_536, 65_537, 1 << 20]);
        let mut pieces: Vec<Vec<u8>> = input.chunks(size).map(<[u8]>::to_vec).collect();
        if random.below(2) == 0 {
            // The first line by itself, cut too.
            pieces = [&input[..3], &input[3..7]].into_iter().map(<[u8]>::to_vec).chain(input[7..].chunks(size).map(<[u8]>::to_vec)).collect();
        }
        same(&input, &run_pieces(pieces, Duration::from_micros(100)));
    });
}

#[test]
fn at_the_limit() {
    let good = LIMIT / 2;
    let text = written(4, &pattern(good));
    assert_eq!(run(&input('J', 4, 0, &text)), format!("0 {LIMIT} {good}\n").into_bytes());
    assert_eq!(run(&input('J', 4, 1, &[&text[..], b"\n"].concat())), format!("2 {LIMIT} {good}\n").into_bytes());
    assert!(run(&input('D', 4, 0, &[&text[..], b"00"].concat())) == pattern(good));
    for (alphabet, a) in ALPHABETS.iter().enumerate() {
        let longest = pattern(a.longest_source() + 5);
        let form = written(alphabet, &longest[..a.longest_source()]);
        assert!(run(&input('E', alphabet as u32, 0, &longest[..a.longest_source()])) == form);
        assert!(run(&input('E', alphabet as u32, 0, &longest)) == form, "the digits given before answer 2");
    }
}

/// The most memory that a process has held so far, in KiB, while it lives.
fn most_memory(pid: u32) -> Option<u64> {
    let status = std::fs::read_to_string(format!("/proc/{pid}/status")).ok()?;
    let line = status.lines().find(|l| l.starts_with("VmHWM:"))?;
    line.split_whitespace().nth(1)?.parse().ok()
}

#[test]
fn sixty_four_mebibytes_in_constant_memory() {
    let mebibyte = written(4, &pattern(1 << 19));
    for (verb, options) in [('J', 0), ('D', 0), ('E', 0), ('J', 1)] {
        let mut child = start(Stdio::piped(), Stdio::piped());
        let pid = child.id();
        let mut stdin = child.stdin.take().expect("a pipe");
        let first = input(verb, 4, options, &[]);
        let piece = if options == 1 { vec![10; 1 << 20] } else { mebibyte.clone() };
        let whole: Vec<u8> = first.iter().chain(piece.iter().cycle().take(64 << 20)).copied().collect();
        let feeder = std::thread::spawn(move || {
            // It may end once its answer is settled, and what is then left unread is refused by the pipe.
            let mut most = 0;
            let mut going = stdin.write_all(&first).is_ok();
            for _ in 0..64 {
                going = going && stdin.write_all(&piece).is_ok();
                most = most_memory(pid).unwrap_or(0).max(most);
            }
            most
        });
        let wrote = end(child);
        let most = feeder.join().expect("the pieces");
        same(&whole, &wrote);
        println!("{verb} with options {options}: {most} KiB at most");
        assert!(most > 0 && most < 8 << 10, "{verb} held {most} KiB");
    }
}

#[test]
fn a_failed_read_or_write_gives_no_false_answer() {
    // A folder can be opened and not read.
    let folder = std::fs::File::open(env!("CARGO_MANIFEST_DIR")).expect("a folder");
    let mut child = start(Stdio::from(folder), Stdio::piped());
    let mut wrote = Vec::new();
    child.stdout.take().expect("a pipe").read_to_end(&mut wrote).expect("its output");
    child.wait().expect("its end");
    assert!(wrote.is_empty() || wrote == b"1 0 0\n", "{}", shown(&wrote));
    // A full device takes nothing; the program ends all the same.
    let full = std::fs::OpenOptions::new().write(true).open("/dev/full").expect("a full device");
    let mut child = start(Stdio::piped(), Stdio::from(full));
    let _ = child.stdin.take().expect("a pipe").write_all(&input('E', 0, 0, &pattern(1 << 20)));
    child.wait().expect("its end");
}
