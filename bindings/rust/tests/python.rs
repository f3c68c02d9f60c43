//! The tests of the module for Python, with the shared library as `make` builds it here.

mod common;

use common::{output, root, Folder, ROOT};
use std::process::Command;

#[test]
fn the_tests_in_python_pass() {
    // Its own copy of the library, since another test may be building one.
    let folder = Folder::new("python");
    let library = folder.path(concat!("libplumanchor.so.", env!("CARGO_PKG_VERSION")));
    let mut make = Command::new("make");
    make.args(["--no-print-directory", "-C", ROOT, "library"]);
    make.arg(format!("shared={}", library.display()));
    output(make.env_remove("MAKEFLAGS").env_remove("MAKELEVEL"), "");
    let mut python = Command::new("python3");
    python.args(["-m", "unittest", "-v"]).current_dir(root("bindings/python"));
    python.env("PLUMANCHOR_LIBRARY", &library);
    python.env("PYTHONDONTWRITEBYTECODE", "1");
    output(&mut python, "");
}
