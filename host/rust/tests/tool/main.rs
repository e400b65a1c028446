//! The tool, run on files: every command, every refusal number, bad text and bad arguments, hostile text, round trips, pictures, and the papers
//! that speak of it.

mod arguments;
mod bad_text;
mod captures;
mod commands;
mod convert;
mod hostile;
mod json;
mod papers;
mod pictures;
#[path = "../../src/bin/skvorzhan/tests/random.rs"]
mod random;
mod refusals;
mod serving;
mod xml;

use random::Random;
use std::fs;
use std::io::Write;
use std::path::{Path, PathBuf};
use std::process::{Command, Stdio};
use std::sync::atomic::{AtomicU32, Ordering};

/// House table A.
const TABLE_A: &str = "record = 32\nedition = 7\nbanks = 8\nB = 4\nCCD = 4\nRCD = 10\nRP = 10\nRAS = 28\nRC = 38\nRRD = 6\nFAW = 32\nRL = 10\nWL = 8\n\
RTP = 6\nWR = 12\nWTR = 6\nRFC = 0\n";

/// The same with a refresh of 50 cycles, edition 70.
fn table_r() -> String {
    let table = TABLE_A.replace("RFC = 0", "RFC = 50");
    table.replace("edition = 7", "edition = 70")
}

/// A folder for the files of one test.
struct Folder(PathBuf);

struct Told {
    status: i32,
    out: String,
    err: String,
}

impl Told {
    #[track_caller]
    fn says(&self, words: &str) {
        assert!(self.out.contains(words), "{}", self.out);
    }
}

impl Folder {
    /// With table A in `a.table`.
    fn new() -> Folder {
        static COUNT: AtomicU32 = AtomicU32::new(0);
        let count = COUNT.fetch_add(1, Ordering::Relaxed);
        let name = format!("skvorzhan-tool-{}-{count}", std::process::id());
        let path = std::env::temp_dir().join(name);
        fs::create_dir_all(&path).expect("a folder for the test");
        let folder = Folder(path);
        folder.put("a.table", TABLE_A);
        folder
    }

    fn put(&self, name: &str, bytes: impl AsRef<[u8]>) {
        fs::write(self.0.join(name), bytes).expect("the test's file is written");
    }

    fn get(&self, name: &str) -> Vec<u8> {
        fs::read(self.0.join(name)).expect("the test's file is there")
    }

    /// Runs the tool in the folder with the words of a line.
    fn run(&self, line: &str) -> Told {
        self.run_with(&line.split_whitespace().collect::<Vec<_>>(), b"")
    }

    fn run_with(&self, arguments: &[&str], input: &[u8]) -> Told {
        let mut command = tool();
        command.args(arguments).current_dir(&self.0);
        let piped = command
            .stdin(Stdio::piped())
            .stdout(Stdio::piped())
            .stderr(Stdio::piped());
        let mut running = piped.spawn().expect("the tool runs");
        // One that does not read its input may have ended.
        let _ = running.stdin.take().expect("it's piped").write_all(input);
        let done = running.wait_with_output().expect("it ends");
        let text = |bytes: Vec<u8>| String::from_utf8(bytes).expect("it prints text");
        let (out, err) = (text(done.stdout), text(done.stderr));
        let status = done.status.code().expect("a status");
        assert!((0..=3).contains(&status), "{arguments:?}: {status}\n{err}");
        assert!(!err.contains("panicked"), "{arguments:?}: {err}");
        Told { status, out, err }
    }

    /// With edition 7 and table A.
    fn by_a(&self, line: &str) -> Told {
        let (name, rest) = line.split_once(' ').unwrap_or((line, ""));
        self.run(&format!("{name} --edition 7 --table a.table {rest}"))
    }
}

impl Drop for Folder {
    fn drop(&mut self) {
        // What cannot be removed is left to the system.
        let _ = fs::remove_dir_all(&self.0);
    }
}

/// Elsewhere than on x86-64 `host/run` names the emulator.
fn emulator() -> Option<String> {
    let named = std::env::var("SKVORZHAN_EMULATOR").ok();
    named.filter(|name| !name.is_empty())
}

fn tool() -> Command {
    let built = env!("CARGO_BIN_EXE_skvorzhan");
    match emulator() {
        None => Command::new(built),
        Some(emulator) => {
            let mut command = Command::new(emulator);
            command.arg(built);
            command
        }
    }
}

fn root() -> PathBuf {
    Path::new(env!("CARGO_MANIFEST_DIR")).join("../..")
}

fn paper(name: &str) -> String {
    let file = root().join(name);
    fs::read_to_string(&file).unwrap_or_else(|e| panic!("{}: {e}", file.display()))
}
