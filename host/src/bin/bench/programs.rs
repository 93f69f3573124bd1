//! The program beside `basenc` and `cat`, on the longest text within the limit, from a file to nothing and from pipe to pipe.

use crate::calls::{noise, NAMES};
use crate::race::race;
use std::fs::File;
use std::io::{Read, Write};
use std::path::{Path, PathBuf};
use std::process::{Command, Stdio};
use zembrulish::reference::{written, ALPHABETS};

/// Times of one run in seconds. `basenc` is none where the machine has no such program or it has no such verb.
pub struct Row {
    pub verb: &'static str,
    pub alphabet: &'static str,
    pub way: &'static str,
    pub bytes: usize,
    pub ours: f64,
    pub basenc: Option<f64>,
    pub cat: f64,
}

/// A program with its words, and the file that it is given.
struct Run {
    program: PathBuf,
    words: Vec<String>,
    input: PathBuf,
}

impl Run {
    fn new(program: &Path, words: &[&str], input: &Path) -> Run {
        Run { program: program.to_path_buf(), words: words.iter().map(ToString::to_string).collect(), input: input.to_path_buf() }
    }

    fn command(&self) -> Command {
        let mut command = Command::new(&self.program);
        command.args(&self.words).stderr(Stdio::null());
        command
    }

    fn file_to_nothing(&self) {
        let input = File::open(&self.input).expect("the input's file");
        let status = self.command().stdin(input).stdout(Stdio::null()).status().expect("the program runs");
        assert!(status.success(), "{}", self.program.display());
    }

    /// Feeds the bytes through a pipe and takes what comes through another.
    fn pipe_to_pipe(&self, bytes: &[u8], take: &mut dyn FnMut(&[u8])) {
        let mut child = self.command().stdin(Stdio::piped()).stdout(Stdio::piped()).spawn().expect("the program starts");
        let (mut stdin, mut stdout) = (child.stdin.take().expect("a pipe"), child.stdout.take().expect("a pipe"));
        std::thread::scope(|scope| {
            scope.spawn(move || stdin.write_all(bytes).expect("all of the input is read"));
            let mut buffer = vec![0; 1 << 16];
            loop {
                match stdout.read(&mut buffer).expect("its output") {
                    0 => break,
                    n => take(&buffer[..n]),
                }
            }
        });
        assert!(child.wait().expect("its end").success(), "{}", self.program.display());
    }

    fn wrote(&self) -> Vec<u8> {
        let mut all = Vec::new();
        self.pipe_to_pipe(&std::fs::read(&self.input).expect("the input's file"), &mut |piece| all.extend_from_slice(piece));
        all
    }
}

/// Times the runs both ways: our program first, `cat` last, `basenc` between them where it is there.
fn both_ways(verb: &'static str, alphabet: &'static str, bytes: usize, runs: &[Run]) -> Vec<Row> {
    let row = |way, times: Vec<f64>| {
        let basenc = (times.len() == 3).then(|| times[1]);
        eprintln!("{verb} {alphabet} {way}: {:.1} ms", times[0] * 1e3);
        Row { verb, alphabet, way, bytes, ours: times[0], basenc, cat: times[times.len() - 1] }
    };
    let mut files: Vec<Box<dyn FnMut()>> = runs.iter().map(|r| Box::new(|| r.file_to_nothing()) as Box<dyn FnMut()>).collect();
    let files = race(&mut files);
    let inputs: Vec<Vec<u8>> = runs.iter().map(|r| std::fs::read(&r.input).expect("the input's file")).collect();
    let mut pipes: Vec<Box<dyn FnMut()>> =
        runs.iter().zip(&inputs).map(|(r, bytes)| Box::new(|| r.pipe_to_pipe(bytes, &mut |_| {})) as Box<dyn FnMut()>).collect();
    vec![row("file to nothing", files), row("pipe to pipe", race(&mut pipes))]
}

/// A folder for the inputs, removed at the end.
struct Room(PathBuf);

impl Room {
    fn file(&self, name: &str, parts: [&[u8]; 2]) -> std::io::Result<PathBuf> {
        let path = self.0.join(name);
        std::fs::write(&path, parts.concat())?;
        Ok(path)
    }
}

impl Drop for Room {
    fn drop(&mut self) {
        let _ = std::fs::remove_dir_all(&self.0);
    }
}

pub fn rows() -> std::io::Result<Vec<Row>> {
    let ours = Path::new(env!("CARGO_MANIFEST_DIR")).join("../crates/zembrulish/out/zembrulish");
    let (basenc, cat) = (Path::new("basenc"), Path::new("cat"));
    let has_basenc = Command::new(basenc).arg("--version").stdout(Stdio::null()).stderr(Stdio::null()).status().is_ok();
    let room = Room(std::env::temp_dir().join(format!("zembrulish-bench-{}", std::process::id())));
    std::fs::create_dir_all(&room.0)?;
    let mut rows = Vec::new();
    for (alphabet, name) in NAMES {
        let src = noise(ALPHABETS[alphabet as usize].longest_source());
        let text = written(alphabet as usize, &src);
        let kind = if name == "hex" { "--base16".to_string() } else { format!("--{name}") };
        let plain_text = room.file("text", [&text, b""])?;
        let plain_src = room.file("source", [&src, b""])?;
        for (verb, words, data, plain, wanted) in [
            ("D", vec![&kind[..], "-d"], &text, &plain_text, &src),
            ("E", vec![&kind[..], "-w", "0"], &src, &plain_src, &text),
            ("J", vec![], &text, &plain_text, &format!("0 {} {}\n", text.len(), src.len()).into_bytes()),
        ] {
            let with_line = room.file("input", [format!("{verb} {alphabet} 00\n").as_bytes(), data])?;
            let mut runs = vec![Run::new(&ours, &[], &with_line)];
            if has_basenc && !words.is_empty() {
                runs.push(Run::new(basenc, &words, plain));
            }
            for run in &runs {
                assert!(run.wrote() == *wanted, "{} writes something else than the reference", run.program.display());
            }
            runs.push(Run::new(cat, &[], plain));
            rows.extend(both_ways(verb, name, data.len(), &runs));
        }
    }
    Ok(rows)
}
