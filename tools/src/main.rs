//! `./plumanchor COMMAND ..`

use plumanchor_tool::{call, tell, Ended};
use std::io::{stdin, stdout, ErrorKind, Write};
use std::process::ExitCode;

fn main() -> ExitCode {
    let Ended { status, output, message } = call(std::env::args_os().skip(1).collect(), stdin());
    match stdout().write_all(&output).and_then(|()| stdout().flush()) {
        // Whoever reads may stop early, as 'head' does.
        Err(error) if error.kind() != ErrorKind::BrokenPipe => {
            tell(&format!("plumanchor: standard output: {error}\n"));
            return ExitCode::from(2);
        }
        _ => {}
    }
    tell(&message);
    ExitCode::from(status)
}
