//! Calls of the tool as people make them, and within this process.
#![allow(dead_code)] // No test file needs all of it.

use outside::reference::Reading;
use plumanchor_tool::Ended;
use std::io::{Cursor, Write};
use std::process::{Command, Stdio};

/// The format that the tool and the program read by default.
pub const READING: Reading = Reading::WIDE;

/// One call of the program.
pub fn spawned(arguments: &[&str], input: &[u8]) -> Ended {
    let mut child = Command::new(env!("CARGO_BIN_EXE_plumanchor-tool"))
        .args(arguments)
        .stdin(Stdio::piped())
        .stdout(Stdio::piped())
        .stderr(Stdio::piped())
        .spawn()
        .expect("the tool");
    // A call that needs no input may be over before it is written.
    let _ = child.stdin.take().expect("a pipe").write_all(input);
    let output = child.wait_with_output().expect("the tool's output");
    let status = output.status.code().expect("an exit status");
    Ended {
        status: status.try_into().expect("an exit status"),
        output: output.stdout,
        message: String::from_utf8(output.stderr).expect("text"),
    }
}

/// The same within this process, for calls by the thousand.
pub fn called(arguments: &[&str], input: &[u8]) -> Ended {
    let words = arguments.iter().map(|word| word.into()).collect();
    plumanchor_tool::call(words, Cursor::new(input.to_vec()))
}

/// The result of a call that has an answer.
pub fn answered(arguments: &[&str], input: &[u8]) -> Vec<u8> {
    let ended = called(arguments, input);
    assert_eq!((ended.status, ended.message.as_str()), (0, ""), "{arguments:?}");
    ended.output
}

pub fn text(bytes: Vec<u8>) -> String {
    String::from_utf8(bytes).expect("text")
}

pub fn example(name: &str) -> String {
    format!("{}/../examples/{name}.sheet", env!("CARGO_MANIFEST_DIR"))
}

pub fn example_bytes(name: &str) -> Vec<u8> {
    std::fs::read(example(name)).expect("an example")
}

/// Writes a script that can be run, by a process of its own: what this one has open for writing,
/// one that another test starts has open too, and then it can't be run.
pub fn write_script(file: &str, script: &str) {
    let mut shell = Command::new("sh");
    shell.args(["-c", "cat > \"$0\" && chmod +x \"$0\"", file]).stdin(Stdio::piped());
    let mut shell = shell.spawn().expect("a shell");
    shell.stdin.take().expect("a pipe").write_all(script.as_bytes()).expect("its input");
    assert!(shell.wait().expect("a shell").success());
}
