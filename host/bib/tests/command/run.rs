//! Runs the command.

use std::ffi::OsStr;
use std::fs;
use std::io::Write;
use std::path::PathBuf;
use std::process::{Command, Output, Stdio};

pub const BIB: &str = env!("CARGO_BIN_EXE_bib");

/// What a run left.
#[derive(Debug, PartialEq, Eq)]
pub struct Run {
    pub status: Option<i32>,
    pub out: Vec<u8>,
    pub err: String,
}

impl Run {
    pub fn of(output: Output) -> Self {
        Self {
            status: output.status.code(),
            out: output.stdout,
            err: String::from_utf8(output.stderr).expect("what it says is UTF-8"),
        }
    }

    /// What it printed, as text.
    pub fn text(&self) -> &str {
        std::str::from_utf8(&self.out).expect("what it prints is UTF-8")
    }

    /// Whether it printed this, said nothing else and ended so.
    #[track_caller]
    pub fn is(&self, status: i32, out: &str) {
        let seen = (self.status, self.text(), self.err.as_str());
        assert_eq!(seen, (Some(status), out, ""));
    }

    /// Whether it printed nothing, said this and ended so.
    #[track_caller]
    pub fn says(&self, status: i32, err: &str) {
        let seen = (self.status, self.text(), self.err.as_str());
        assert_eq!(seen, (Some(status), "", err));
    }
}

/// Runs the command with these words and this on standard input.
pub fn bib<S: AsRef<OsStr>>(words: &[S], input: &[u8]) -> Run {
    let mut child = Command::new(BIB)
        .args(words)
        .stdin(Stdio::piped())
        .stdout(Stdio::piped())
        .stderr(Stdio::piped())
        .spawn()
        .expect("the command starts");
    let mut stdin = child.stdin.take().expect("standard input is a pipe");
    let input = input.to_vec();
    // By a thread of its own: the command may print before it has read all, or not read at all.
    let writer = std::thread::spawn(move || {
        let _ = stdin.write_all(&input);
    });
    let output = child.wait_with_output().expect("the command ends");
    writer.join().expect("the input is written");
    Run::of(output)
}

/// Runs a line of the shell, in which $BIB is the command.
pub fn shell(line: &str) -> Run {
    let output = Command::new("bash")
        .args(["-c", line])
        .env("BIB", BIB)
        .output();
    Run::of(output.expect("bash starts"))
}

/// Whether the C library knows an encoding. A line of another is not shown as it would read.
pub fn knows(encoding: &str) -> bool {
    shell(&format!("iconv -f {encoding} -t UTF-8 </dev/null")).status == Some(0)
}

/// A file of this test alone, which goes when the test ends.
pub struct Scratch(pub PathBuf);

impl Scratch {
    pub fn new(name: impl AsRef<OsStr>, content: &[u8]) -> Self {
        let path = PathBuf::from(env!("CARGO_TARGET_TMPDIR")).join(name.as_ref());
        fs::write(&path, content).expect("a file can be written");
        Self(path)
    }

    pub fn name(&self) -> &str {
        self.0.to_str().expect("the name is UTF-8")
    }
}

impl Drop for Scratch {
    fn drop(&mut self) {
        let _ = fs::remove_file(&self.0);
    }
}

/// A folder of this test alone, which goes when the test ends.
pub struct Folder(PathBuf);

impl Folder {
    pub fn new(name: &str) -> Self {
        let path = PathBuf::from(env!("CARGO_TARGET_TMPDIR")).join(name);
        let _ = fs::remove_dir_all(&path);
        fs::create_dir_all(&path).expect("a folder can be made");
        Self(path)
    }

    pub fn name(&self) -> &str {
        self.0.to_str().expect("the name is UTF-8")
    }

    /// Puts a file into it, in folders below if its name says so.
    pub fn add(&self, name: &str, content: &[u8]) {
        let path = self.0.join(name);
        let folder = path.parent().expect("a file is in a folder");
        fs::create_dir_all(folder).expect("a folder can be made");
        fs::write(&path, content).expect("a file can be written");
    }
}

impl Drop for Folder {
    fn drop(&mut self) {
        let _ = fs::remove_dir_all(&self.0);
    }
}
