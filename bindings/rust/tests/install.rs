//! What `make install` puts into a folder is used as people use it: programs in C and in C++
//! compiled with pkg-config, the command, the module for Python, the tarball. `make uninstall`
//! leaves nothing.

mod common;

use common::{compile, output, root, Folder, LANGUAGES, ROOT};
use outside::examples::examples;
use std::fs::Permissions;
use std::os::unix::fs::{symlink, PermissionsExt};
use std::path::{Path, PathBuf};
use std::process::{Command, Output, Stdio};

const PREFIX: &str = "/opt/plum anchor";
const VERSION: &str = env!("CARGO_PKG_VERSION");

fn make(words: &[&str], folder: &Folder) -> String {
    let mut command = Command::new("make");
    command.args(["--no-print-directory", "-C", ROOT]).args(words);
    command.arg(format!("PREFIX={PREFIX}")).arg(format!("DESTDIR={}", folder.0.display()));
    // The variables that a make or a cargo around this test has for itself.
    command.env_remove("MAKEFLAGS").env_remove("MAKELEVEL");
    output(&mut command, "")
}

/// What is in a folder, folders too.
fn contents(folder: &Path) -> Vec<PathBuf> {
    let mut found = Vec::new();
    for entry in std::fs::read_dir(folder).expect("a folder") {
        let entry = entry.expect("an entry");
        if entry.file_type().expect("a type").is_dir() {
            found.extend(contents(&entry.path()));
        }
        found.push(entry.path());
    }
    found
}

/// What pkg-config says of the copy below `installed`.
fn pkg_config(installed: &Path, words: &[&str]) -> Vec<String> {
    let mut command = Command::new("pkg-config");
    command.env("PKG_CONFIG_PATH", installed.join("lib/pkgconfig"));
    let told = output(command.args(words).arg("plumanchor"), "");
    // It writes words for a shell.
    let words = told.replace("\\ ", "\0");
    words.split_whitespace().map(|word| word.replace('\0', " ")).collect()
}

/// The example in C compiled against the copy below `installed`, in each language, with the shared
/// library and with the static one, says what each sheet's line is.
fn programs_work(installed: &Path, folder: &Folder) {
    let shared = pkg_config(installed, &["--cflags", "--libs"]);
    let mut fixed = pkg_config(installed, &["--cflags"]);
    fixed.push(installed.join("lib/libplumanchor.a").display().to_string());
    for language in LANGUAGES {
        for (kind, words) in [("shared", &shared), ("static", &fixed)] {
            let program = folder.path(&format!("solve-{kind}-{}", language.2));
            compile(language, &root("bindings/c/solve.c"), words, &program);
            for example in examples().iter().filter(|one| !one.line.starts_with("refused")) {
                let mut run = Command::new(&program);
                run.arg(root(&format!("examples/{}.sheet", example.name)));
                if kind == "shared" {
                    run.env("LD_LIBRARY_PATH", installed.join("lib"));
                }
                assert_eq!(output(&mut run, ""), format!("{}\n", example.line));
            }
        }
    }
}

/// The command on a file as its standard input.
fn command(program: &Path, words: &[&str], input: &str) -> Output {
    let input = std::fs::File::open(root(input)).expect(input);
    let mut command = Command::new(program);
    command.args(words).stdin(input).stdout(Stdio::piped()).stderr(Stdio::piped());
    command.output().expect("the command")
}

/// The command answers, by a link too, and has its exit statuses.
fn command_works(installed: &Path, folder: &Folder) {
    let link = folder.path("linked");
    let program = installed.join("bin/plumanchor");
    symlink(&program, &link).expect("a link");
    for program in [&program, &link] {
        for example in examples() {
            let sheet = format!("examples/{}.sheet", example.name);
            for words in [&[][..], &["solve"]] {
                let ended = command(program, words, &sheet);
                let refused = example.line.starts_with("refused");
                assert_eq!(ended.stdout, format!("{}\n", example.line).as_bytes(), "{sheet}");
                assert_eq!(ended.status.code(), Some(i32::from(refused)), "{sheet}");
            }
        }
        let version = command(program, &["--version"], "examples/press-line.sheet");
        assert_eq!(version.stdout, format!("plumanchor {VERSION}\n").as_bytes());
        assert_eq!(command(program, &[], "examples").status.code(), Some(2));
    }
    let full = std::fs::OpenOptions::new().write(true).open("/dev/full").expect("/dev/full");
    let sheet = std::fs::File::open(root("examples/press-line.sheet")).expect("a sheet");
    let ended = Command::new(&program).stdin(sheet).stdout(full).output().expect("the command");
    assert_eq!(ended.status.code(), Some(2));
    assert!(!ended.stderr.is_empty());
}

/// The module for Python finds the library that it is installed with.
fn python_works(installed: &Path) {
    let mut python = Command::new("python3");
    python.env("PYTHONPATH", installed.join("share/plumanchor/python"));
    python.env("PYTHONDONTWRITEBYTECODE", "1").env_remove("PLUMANCHOR_LIBRARY");
    python.arg("-c").arg(
        "import plumanchor, sys\n\
         print(plumanchor._LIBRARY._name)\n\
         print(plumanchor.solve(open(sys.argv[1], 'rb').read()))",
    );
    let told = output(python.arg(root("examples/press-line.sheet")), "");
    let (library, line) = told.split_once('\n').expect("two lines");
    let installed = installed.canonicalize().expect("a folder");
    assert!(Path::new(library).starts_with(installed), "{library}");
    assert_eq!(line, "true 0 3 0\n");
}

/// The shared library has a version, and shows the functions of the header alone.
fn library_is_tidy(installed: &Path) {
    let library = installed.join(format!("lib/libplumanchor.so.{VERSION}"));
    let dynamic = output(Command::new("readelf").arg("-d").arg(&library), "");
    let major = VERSION.split('.').next().expect("a number");
    assert!(dynamic.contains(&format!("[libplumanchor.so.{major}]")), "{dynamic}");
    let symbols = output(Command::new("nm").args(["-D", "--defined-only"]).arg(&library), "");
    let named = symbols.lines().filter(|line| line.contains(" T "));
    let shown: Vec<&str> = named
        .map(|line| line.rsplit(' ').next().expect("a name").split('@').next().expect("a name"))
        .collect();
    let mut declared: Vec<&str> = plumanchor::DECLARED.iter().map(|function| function.0).collect();
    declared.sort_unstable();
    assert_eq!(shown, declared);
}

/// The manual page and the completions are there, if the tool writes them.
fn texts_are_there(installed: &Path) {
    for (command, file) in [
        ("manual", "man/man1/plumanchor.1"),
        ("completion", "bash-completion/completions/plumanchor"),
        ("completion", "zsh/site-functions/_plumanchor"),
        ("completion", "fish/vendor_completions.d/plumanchor.fish"),
    ] {
        if root(&format!("tools/src/commands/{command}.rs")).exists() {
            let text = std::fs::read_to_string(installed.join("share").join(file)).expect(file);
            assert!(text.contains("plumanchor"), "{file}");
        }
    }
}

/// The commit and the gate's last line are told, or that it wasn't run.
fn build_is_told(told: &str) {
    let lines: Vec<&str> = told.lines().collect();
    let [version, commit, gate] = lines[..] else { panic!("three lines: {told}") };
    assert_eq!(version, format!("Plumanchor {VERSION}"));
    assert!(commit.starts_with("commit ") && gate.starts_with("gate"), "{told}");
    assert!(gate.contains("not run") || gate.ends_with(" passed, 0 failed"), "{told}");
}

#[test]
fn what_is_installed_works_and_goes() {
    let (folder, beside) = (Folder::new("install"), Folder::new("beside"));
    let installed = folder.path(&PREFIX[1..]);
    // Folders of others stay as they are, and what an earlier version had goes.
    let before = ["bin", "share/plumanchor"].map(|name| installed.join(name));
    before.iter().for_each(|name| std::fs::create_dir_all(name).expect("a folder"));
    let mode = || std::fs::metadata(&before[0]).expect("a folder").permissions().mode() & 0o7777;
    std::fs::set_permissions(&before[0], Permissions::from_mode(0o2770)).expect("a mode");
    std::fs::write(before[0].join("early"), "").expect("a file");
    std::fs::write(before[1].join("installed"), "bin/early\n").expect("a file");
    make(&["install"], &folder);
    assert_eq!(mode(), 0o2770);
    assert!(!before[0].join("early").exists());
    assert_eq!(pkg_config(&installed, &["--modversion"]), [VERSION]);
    programs_work(&installed, &beside);
    command_works(&installed, &beside);
    python_works(&installed);
    library_is_tidy(&installed);
    texts_are_there(&installed);
    let told = std::fs::read_to_string(installed.join("share/doc/plumanchor/BUILD"));
    build_is_told(&told.expect("what was built"));

    // What others have there stays.
    let other = installed.join("bin/other");
    std::fs::write(&other, "").expect("a file");
    make(&["uninstall"], &folder);
    assert_eq!(contents(&installed), [other, installed.join("bin")]);

    // The tarball is made of the same files, so it is tried here: two builds at once would meet.
    let told = make(&["dist"], &folder);
    let archive = root(told.lines().next().expect("the tarball's name"));
    output(Command::new("tar").arg("-xzf").arg(&archive).arg("-C").arg(&beside.0), "");
    let name = archive.file_name().expect("a name").to_str().expect("text");
    let unpacked = beside.path(name.strip_suffix(".tar.gz").expect("a tarball"));
    build_is_told(&std::fs::read_to_string(unpacked.join("BUILD")).expect("what was built"));
    std::fs::remove_file(beside.path("linked")).expect("the link");
    programs_work(&unpacked, &beside);
    command_works(&unpacked, &beside);
    python_works(&unpacked);
}
