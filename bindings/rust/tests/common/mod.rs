//! Programs in C and C++, compiled with every warning an error.
#![allow(dead_code)] // No test file needs all of it.

use std::io::Write;
use std::path::{Path, PathBuf};
use std::process::{Command, Stdio};

pub const ROOT: &str = concat!(env!("CARGO_MANIFEST_DIR"), "/../..");

/// The compilers, the languages and the standards in which the header is to be compiled.
pub const LANGUAGES: [(&str, &str, &str); 3] =
    [("cc", "c", "c99"), ("cc", "c", "c11"), ("c++", "c++", "c++17")];

/// A folder that is removed in the end.
pub struct Folder(pub PathBuf);

impl Folder {
    pub fn new(name: &str) -> Folder {
        let name = format!("plumanchor-{name}-{}", std::process::id());
        let path = std::env::temp_dir().join(name);
        std::fs::create_dir_all(&path).expect("a temporary folder");
        Folder(path)
    }

    pub fn path(&self, name: &str) -> PathBuf {
        self.0.join(name)
    }
}

impl Drop for Folder {
    fn drop(&mut self) {
        let _ = std::fs::remove_dir_all(&self.0);
    }
}

pub fn root(path: &str) -> PathBuf {
    Path::new(ROOT).join(path)
}

pub fn read(path: &str) -> String {
    std::fs::read_to_string(root(path)).expect(path)
}

/// What a command writes to standard output; it must end well.
pub fn output(command: &mut Command, input: &str) -> String {
    let mut child = command
        .stdin(Stdio::piped())
        .stdout(Stdio::piped())
        .stderr(Stdio::piped())
        .spawn()
        .unwrap_or_else(|error| panic!("{command:?}: {error}"));
    let mut pipe = child.stdin.take().expect("a pipe");
    let input = input.to_string();
    // The command may write more than a pipe holds before it has read all.
    let writer = std::thread::spawn(move || {
        let _ = pipe.write_all(input.as_bytes());
    });
    let ended = child.wait_with_output().expect("the command's output");
    writer.join().expect("the input");
    let told = String::from_utf8_lossy(&ended.stderr);
    assert!(ended.status.success(), "{command:?}: {}\n{told}", ended.status);
    String::from_utf8(ended.stdout).expect("text")
}

/// Compiles a source file, with further words for the compiler behind it.
pub fn compile(
    (compiler, language, standard): (&str, &str, &str),
    source: &Path,
    more: &[String],
    program: &Path,
) {
    let mut command = Command::new(compiler);
    command.args([&format!("-std={standard}"), "-O1", "-x", language]);
    command.args(["-Wall", "-Wextra", "-pedantic", "-Wconversion", "-Wshadow", "-Werror"]);
    command.arg(source).args(["-x", "none"]).args(more).arg("-o").arg(program);
    output(&mut command, "");
}
