//! Calls as people make them, from a shell in a folder of their own: what each
//! writes, what it says beside that, and its exit status.

use std::path::{Path, PathBuf};
use std::process::{Command, Stdio};

const ROOT: &str = concat!(env!("CARGO_MANIFEST_DIR"), "/..");

/// A line of shell, its status, what it writes, and what it says on standard error, of which the
/// words given are a part; none given, it says nothing. `program` is the wrapper `plumanchor` of
/// the repository, `plumanchor` the tool, `$E` the folder of examples.
type Call = (&'static str, i32, &'static str, &'static str);

/// A folder with what the calls name, which goes when it is dropped.
struct Folder(PathBuf);

impl Folder {
    fn new(name: &str) -> Folder {
        let name = format!("plumanchor-calls-{name}-{}", std::process::id());
        let folder = std::env::temp_dir().join(name);
        std::fs::create_dir_all(&folder).expect("a folder");
        Folder(folder)
    }

    fn ended(&self, line: &str) -> (i32, String, String) {
        let start = r#"program() { "$P" "$@"; }; plumanchor() { "$T" "$@"; };"#;
        let examples = Path::new(ROOT).join("examples");
        let mut shell = Command::new("bash");
        shell.args(["-c", &format!("{start} {line}")]).current_dir(&self.0);
        shell.env("P", Path::new(ROOT).join("plumanchor")).env("E", examples);
        shell.env("T", env!("CARGO_BIN_EXE_plumanchor-tool")).stdin(Stdio::null());
        let output = shell.output().expect("a shell");
        let text = |bytes: Vec<u8>| String::from_utf8(bytes).expect("text");
        (output.status.code().unwrap_or(-1), text(output.stdout), text(output.stderr))
    }

    fn holds(&self, calls: &[Call]) {
        for &(line, status, output, message) in calls {
            let ended = self.ended(line);
            assert_eq!((ended.0, ended.1.as_str()), (status, output), "{line}\n{}", ended.2);
            let told =
                if message.is_empty() { ended.2.is_empty() } else { ended.2.contains(message) };
            assert!(told, "{line}\n{}", ended.2);
        }
    }
}

impl Drop for Folder {
    fn drop(&mut self) {
        // What is left in a folder for temporary files does no harm.
        let _ = std::fs::remove_dir_all(&self.0);
    }
}

/// The main job: the answer arrives whole, or the call says that it doesn't.
#[test]
fn the_proved_program() {
    Folder::new("program").holds(&[
        ("program < $E/press-line.sheet", 0, "true 0 3 0\n", ""),
        ("program < $E/equal-before.sheet", 0, "false 0 1 0\n", ""),
        ("program < $E/crowded.sheet", 0, "stopped 0 0 1\n", ""),
        ("program < $E/cut-short.sheet", 1, "refused 0 0 3\n", ""),
        ("program < /dev/null", 1, "refused 0 0 1\n", ""),
        ("program < $E/narrow/press-line.sheet", 1, "refused 0 0 2\n", "16-bit numbers"),
        ("head -c 1000000 /dev/zero | program", 1, "refused 0 0 2\n", ""),
        ("(cat $E/press-line.sheet; sleep 0.1) | program", 0, "true 0 3 0\n", ""),
        ("program < $E/press-line.sheet > /dev/full", 2, "", "standard output can't be written"),
        ("program < $E/press-line.sheet >&-", 2, "", "standard output is closed"),
        ("program < $E/press-line.sheet 2>/dev/full", 0, "true 0 3 0\n", ""),
        ("program < $E > /dev/null", 2, "", "standard input can't be read"),
        ("program < /proc/self/mem", 2, "", "standard input can't be read"),
        ("program <&-", 2, "", "standard input is closed"),
        ("program < $E 2>/dev/full", 2, "", ""),
        ("(sleep 0.2; program < $E/press-line.sheet; echo $? >&2) | true", 0, "", "\n2\n"),
        ("program < $E/press-line.sheet | head -c 4", 0, "true", ""),
    ]);
}

/// A link to the wrapper, a link to that link, and a link by a relative path.
#[test]
fn the_wrapper_by_a_link() {
    let folder = Folder::new("link");
    folder.holds(&[
        ("ln -s $P plain && ./plain < $E/press-line.sheet", 0, "true 0 3 0\n", ""),
        ("ln -s plain again && ./again < $E/press-line.sheet", 0, "true 0 3 0\n", ""),
        (
            "mkdir bin && ln -s ../again bin/p && cd bin && ./p < $E/press-line.sheet",
            0,
            "true 0 3 0\n",
            "",
        ),
        ("PATH=$PWD/bin:$PATH; p < $E/press-line.sheet", 0, "true 0 3 0\n", ""),
    ]);
}

/// Names that are no text, and standard streams that can't be written: documented statuses alone.
#[test]
fn odd_names_and_streams() {
    Folder::new("odd").holds(&[
        (
            "cp $E/press-line.sheet $'odd\\xff' && plumanchor check $'odd\\xff'",
            0,
            "4 variables, 23 nodes\n",
            "",
        ),
        ("plumanchor check $'none\\xff'", 2, "", "No such file"),
        ("plumanchor $'\\xff'", 2, "", "no command"),
        ("plumanchor check $'--\\xff'", 2, "", "no option"),
        ("plumanchor quote $'\\xff' $E/press-line.sheet", 2, "", "what is"),
        (
            "plumanchor solve --reached=$'kept\\xff' $E/press-line.sheet && ls | grep -c kept",
            0,
            "true 0 3 0\n1\n",
            "",
        ),
        (
            "cp $E/press-line.sheet ./-dash && plumanchor check -- -dash",
            0,
            "4 variables, 23 nodes\n",
            "",
        ),
        ("plumanchor check ''", 2, "", "No such file"),
        ("plumanchor check $E", 2, "", "Is a directory"),
        ("plumanchor check < $E", 2, "", "standard input: Is a directory"),
        ("plumanchor check /proc/self/mem", 2, "", "/proc/self/mem: "),
        (
            "ln -s $E/press-line.sheet link && plumanchor check link",
            0,
            "4 variables, 23 nodes\n",
            "",
        ),
        ("ln -s nowhere gone; plumanchor check gone", 2, "", "gone: No such file"),
        (
            "plumanchor solve $E/press-line.sheet > /dev/full",
            2,
            "",
            "standard output: No space left",
        ),
        ("plumanchor solve $E/cut-short.sheet 2>/dev/full", 1, "refused 0 0 3\n", ""),
        ("plumanchor nothing 2>/dev/full", 2, "", ""),
        (
            "plumanchor solve --reached /dev/full $E/press-line.sheet",
            2,
            "",
            "/dev/full: No space left",
        ),
        ("(sleep 0.2; plumanchor solve $E/press-line.sheet; echo $? >&2) | true", 0, "", "0\n"),
        ("head -c 3000000 /dev/zero | plumanchor solve", 1, "refused 0 0 2\n", "refused 2"),
    ]);
}

/// After a stop it is said what can be done, and room that is never used is refused.
#[test]
fn room_and_stops() {
    Folder::new("room").holds(&[
        ("plumanchor solve $E/crowded.sheet", 0, "stopped 0 0 1\n", "more room is no help"),
        (
            "plumanchor solve --reached kept $E/crowded.sheet && plumanchor resume 12 0 0 kept",
            0,
            "stopped 0 0 1\nstopped 0 0 1\n",
            "more room is no help",
        ),
        (
            "plumanchor solve --room 200 --reached kept $E/press-line.sheet",
            0,
            "stopped 0 0 4\n",
            "more room than 200 bytes, up to 46088: plumanchor resume 4 0 0 kept",
        ),
        ("plumanchor resume 4 0 0 kept", 0, "true 0 3 0\n", ""),
        ("plumanchor solve --room 46089 $E/press-line.sheet", 2, "", "--room is at most 46088"),
        ("plumanchor guards --room 99999 $E/equal-before.sheet", 2, "", "--room is at most 46088"),
        ("plumanchor guards --room 13061 $E/narrow/press-line.sheet", 2, "", "--room is at most "),
        ("plumanchor resume 4 0 0 --room 46089 kept", 2, "", "--room is at most 46088"),
        ("plumanchor explain --room 46089 $E/press-line.sheet", 2, "", "--room is at most 46088"),
        ("plumanchor steps e4 --room 46089 $E/press-line.sheet", 2, "", "--room is at most 46088"),
        (
            "plumanchor solve --room 10 $E/press-line.sheet",
            1,
            "refused 0 0 13\n",
            "it takes 143 bytes, and a buffer has 10",
        ),
    ]);
}

/// Refusals name the file, the line, and what would do.
#[test]
fn refusals_say_where_and_what() {
    let folder = Folder::new("refusals");
    let text = |name: &str, text: &str| std::fs::write(folder.0.join(name), text).expect("a file");
    text("many", "p cnf 3000 2\n1 0\n2 0\n");
    text("cubes", "c\np dnf 2 1\n1 2 0\n");
    text("words", "c\n\np cnf 2 2\ne 1 0\n1 x 0\n");
    text("above", "p cnf 2 2\ne 1 0\n1 0\n-3 0\n");
    text("count", "c three?\np cnf 2 3\n1 0\n2 0\n");
    text("twice", "p cnf 2 1\ne 1 0\na 2\n1 0\n1 0\n");
    text("open", "p cnf 2 1\n1 2\n");
    text("bad.qcir", "#QCIR-G14\nexists(x)\noutput(y)\n");
    text("same", "1 a\n2 a\n");
    text("other", "1 a\n3 b\n");
    folder.holds(&[
        ("plumanchor solve many", 1, "refused 0 0 15\n",
            "many: refused 15: the text has no header of 'p cnf' and two numbers, the first within the \
             sheet's limits (line 1: 3000 variables, and a wide sheet has at most 1024"),
        ("plumanchor solve cubes", 1, "refused 0 0 15\n", "(line 2: cubes, 'p dnf', are not read"),
        ("plumanchor solve words", 1, "refused 0 0 16\n", "(line 5: 'x' is no whole number)"),
        ("plumanchor solve open", 1, "refused 0 0 16\n", "(line 2: the last list is not ended by 0)"),
        ("plumanchor solve above", 1, "refused 0 0 17\n", "(line 4: '-3', and the header says 2 variables)"),
        ("plumanchor solve count", 1, "refused 0 0 17\n", "(line 2: 3 clauses, and there are 2)"),
        ("plumanchor solve twice", 1, "refused 0 0 6\n", "(line 4: variable 1)"),
        ("plumanchor solve bad.qcir", 1, "refused 0 0 0\n", "bad.qcir: line 3: 'y' is neither"),
        ("plumanchor solve --from qcir $E/press-line.sheet", 1, "refused 0 0 0\n", "begins with #QCIR-G14"),
        ("plumanchor explain bad.qcir", 1, "refused 0 0 0\n", "bad.qcir: line 3"),
        ("plumanchor expand 1 $E/crowded.sheet", 1, "", " bytes, and a buffer has 46088)"),
        ("plumanchor quote 1 $E/one-tautology.sheet", 1, "", "so 'tidy' the sheet first"),
        ("plumanchor check $E/too-many-variables.sheet", 1, "", "V = 1025, at most 1024; N = 1, 1 to 8192"),
        ("plumanchor compare $E/press-line.sheet $E/cut-short.sheet", 1, "", "cut-short.sheet: refused 3"),
        ("plumanchor compare $E/cut-short.sheet $E/press-line.sheet", 1, "", "cut-short.sheet: refused 3"),
        ("plumanchor compare - $E/press-line.sheet < $E/cut-short.sheet", 1, "", "standard input: refused 3"),
        ("plumanchor show --names same $E/equal-after.sheet", 2, "", "same: line 2: 'a' is the name of 1 already"),
        ("plumanchor show --names other $E/equal-after.sheet", 2, "", "other: the sheet has no variable 3"),
        ("plumanchor guards $E/press-line.sheet > kept", 1, "", "true 0 3: no guard is to blame"),
        ("plumanchor guards $E/crowded.sheet", 1, "", "no guard is blamed"),
    ]);
    // As many boxes as are asked for, also below one operator.
    let widest = "#QCIR-G14\nexists(1)\noutput(2)\n2 = and(3, 4, 3, 4, 3, 4, 3, 4, 3, 4, 3, 4, 3, 4, 3, 4)\n\
                  3 = and(1, 1)\n4 = or(1, 1)\n";
    text("wide.qcir", widest);
    folder.holds(&[
        ("plumanchor draw --to dot wide.qcir | grep -c more", 0, "1\n", ""),
        ("plumanchor draw --to dot --most 100 wide.qcir | grep -c more", 1, "0\n", ""),
    ]);
}

/// Variables and gates go by their names, in what is asked and in what is answered.
#[test]
fn names_everywhere() {
    let folder = Folder::new("names");
    let text = |name: &str, text: &str| std::fs::write(folder.0.join(name), text).expect("a file");
    text("swapped.qcir", "#QCIR-G14\nexists(2, 1, x3)\noutput(g)\ng = or(2, 1, x3)\n");
    text("false.qcir", "#QCIR-G14\nexists(lift, stop)\noutput(-all)\nall = or(shut, lift, -stop, -lift)\nshut = and(stop, lift)\n");
    text("press.names", "1 feed\n2 lift\n3 jam\n4 stop\n");
    folder.holds(&[
        ("plumanchor draw --to dot --expand 1 swapped.qcir | grep -o 'expanding 1 copies'", 0,
            "expanding 1 copies\n", ""),
        ("plumanchor settle 2 swapped.qcir | plumanchor show", 0,
            "2 variables, 1 node\n\nexists 2, 3\n\nAND of nothing (true)\n", ""),
        ("plumanchor settle 3 swapped.qcir", 2, "", "variable 3 is called 'x3'"),
        ("plumanchor quote stop $E/press-line.qcir", 0, "47\n", ""),
        ("plumanchor quote 4 $E/press-line.qcir", 2, "", "variable 4 is called 'stop'"),
        ("plumanchor quote halt $E/press-line.qcir", 2, "", "no variable is called 'halt': there are feed, lift, jam, stop"),
        ("plumanchor quote stop --names press.names $E/press-line.sheet", 0, "42\n", ""),
        ("plumanchor outer jam $E/press-line.qcir > new", 0, "", "1 variable is copied: stop"),
        ("plumanchor outer feed $E/press-line.qcir", 1, "", "for all feed, and behind it has literals: exists lift, for all jam"),
        ("plumanchor steps e:stop,s:jam,e4 $E/press-line.qcir", 2, "", "variable 4 is called 'stop'"),
        ("plumanchor steps e:stop,s:jam $E/press-line.qcir > new", 0, "", "expand stop: "),
        ("plumanchor steps e:stop,s:jam $E/press-line.qcir 2>&1 > new | tail -n 1", 0,
            "settle jam: refused 12: the variable may not be settled\n", ""),
        ("plumanchor force feed=1 $E/press-line.qcir", 0, "lift: exists, 1\n", ""),
        ("plumanchor force feed=1 lift=1 $E/press-line.qcir", 0, "jam: for all, neither\n", ""),
        ("plumanchor force 11 $E/press-line.qcir", 0, "for-all neither\n", ""),
        ("plumanchor force lift=1,feed=1,jam=1 $E/press-line.qcir", 0, "stop: exists, 0\n", ""),
        ("cp $E/press-line.qcir feed=1; plumanchor force 1 ./feed=1", 0, "exists 1\n", ""),
        ("plumanchor force lift=1 $E/press-line.qcir", 2, "", "'feed' has none"),
        ("plumanchor force feed=1,feed=0 $E/press-line.qcir", 2, "", "'feed' twice"),
        ("plumanchor execute stop 46 $E/press-line.qcir", 1, "", "refused 19"),
        ("plumanchor solve --room 250 $E/press-line.qcir", 0, "stopped 0 0 stop\n", "resume 4 0 0"),
        ("plumanchor guards false.qcir > new", 0, "", "kept 2 of 4 guards: -lift lift\n"),
        ("plumanchor expand stop $E/press-line.qcir > new; plumanchor show --names press.names new", 2, "",
            "the sheet has no variable 4"),
        ("plumanchor convert --to names --names press.names new", 0, "1 feed\n2 lift\n3 jam\n", ""),
    ]);
}

/// From a circuit to what is wired, and back: a drawing that was changed is claimed again.
#[test]
fn what_to_wire() {
    let folder = Folder::new("wire");
    let text = |name: &str, text: &str| std::fs::write(folder.0.join(name), text).expect("a file");
    text("press.names", "1 feed\n2 lift\n3 jam\n4 stop\n");
    text("by-hand", "# a drawer's\r\nstop = (feed and not jam)\r\n  or (not feed and jam)\r\nlift = feed # follows\r\n");
    text("wrong", "lift = feed\nstop = feed and not jam\n");
    text("beyond", "lift = jam\nstop = 1\n");
    text("through", "lift = stop\nstop = jam\n");
    text("circle", "lift = stop\nstop = not lift\n");
    text("few", "true: exists wins\nlift = feed\n");
    text("twice", "lift = feed\nlift = 1\nstop = jam\n");
    text("press", "feed = 1\njam = 0\n");
    text("other-side", "true: exists wins\nfeed = 1\njam = 0\n");
    text("late-line", "lift = feed\ntrue: exists wins\n");
    text("halt", "lift = halt\n");
    text("mixed", "lift = feed and jam or feed\n");
    text("open", "stop = 0\n\nlift = (feed\n");
    text("sign", "lift = feed & jam\n");
    text("nothing", "lift = \n");
    text("bare", "lift\n");
    text("bytes", "lift = feed\n");
    folder.holds(&[
        ("plumanchor strategy $E/press-line.qcir", 0, "true: exists wins\nlift = feed\nstop = feed xor jam\n", ""),
        ("plumanchor strategy --names press.names $E/press-line.sheet | tail -n 1", 0, "stop = feed xor jam\n", ""),
        ("plumanchor strategy $E/narrow/press-line.sheet", 0, "true: exists wins\n2 = 1\n4 = 1 xor 3\n", ""),
        ("plumanchor strategy $E/press-line-early.sheet", 0, "false: for all wins\n1 = false\n3 = not (1 xor 4)\n", ""),
        ("plumanchor strategy $E/press-line.qcir > drawing && plumanchor claim $E/press-line.qcir drawing", 0, "wins\n", ""),
        ("plumanchor strategy --to sheet $E/press-line.qcir > s && plumanchor claim $E/press-line.qcir s", 0, "wins\n", ""),
        ("plumanchor claim $E/narrow/press-line.sheet s", 0, "wins\n", ""),
        ("plumanchor claim --names press.names $E/press-line.sheet - < drawing", 0, "wins\n", ""),
        ("plumanchor claim $E/press-line.qcir by-hand", 0, "wins\n", ""),
        ("plumanchor claim $E/press-line.qcir wrong", 0,
            "loses: feed = 0, then lift = 0, then jam = 1, then stop = 0: -wrong fails\n", ""),
        ("plumanchor claim --json $E/press-line.qcir wrong", 0,
            "{\"answer\":\"loses\",\"play\":[\"feed=0\",\"lift=0\",\"jam=1\",\"stop=0\"],\"outcome\":\"-wrong fails\"}\n", ""),
        ("plumanchor claim $E/press-line.qcir press", 0,
            "loses: feed = 1, then lift = 1, then jam = 0, then stop = 1: the formula holds\n", ""),
        ("plumanchor claim --to sheet $E/press-line.qcir drawing | plumanchor solve", 0, "true 0 3 0\n", ""),
        ("plumanchor claim $E/press-line.qcir beyond", 1, "", "beyond: refused 27: the function of the pair in the row reads \
          what it may not ('lift' reads 'jam', which comes behind it)"),
        ("plumanchor claim $E/press-line.qcir through", 1, "", "('lift' reads 'stop', which depends on 'jam', and that comes behind it)"),
        ("plumanchor claim $E/press-line.qcir circle", 1, "", "reads 'stop', which isn't known before it)"),
        ("plumanchor claim $E/press-line.qcir few", 1, "", "few: refused 26: the second sheet is no strategy of that side over the \
          first sheet's prefix ('stop' has no function)"),
        ("plumanchor claim $E/press-line.qcir twice", 1, "", "('lift' has two functions)"),
        ("plumanchor claim $E/press-line.qcir other-side", 1, "", " is no variable of the side 'exists')"),
        ("plumanchor claim --side exists $E/press-line.qcir press", 1, "", "refused 26"),
        ("plumanchor claim --side for-all $E/press-line.qcir few", 2, "", "the text says that exists wins, and --side another"),
        ("plumanchor claim --side both $E/press-line.qcir few", 2, "", "a side is exists or for-all, and not 'both'"),
        ("plumanchor claim $E/press-line.qcir $E/press-line.sheet", 1, "", "press-line.sheet: refused 26"),
        ("plumanchor claim $E/cut-short.sheet drawing", 1, "", "cut-short.sheet: refused 3"),
        ("plumanchor claim $E/press-line.qcir $E/cut-short.sheet", 1, "", "cut-short.sheet: refused 3"),
        ("plumanchor claim $E/press-line.qcir late-line", 1, "", "late-line: line 2: 'true: exists wins' or 'false: for all wins' is the first line"),
        ("plumanchor claim $E/press-line.qcir halt", 1, "", "halt: line 1: no variable is called 'halt': there are feed, lift, jam, stop"),
        ("plumanchor claim $E/press-line.qcir mixed", 1, "", "line 1: 'and' and 'or' side by side: brackets say which goes first"),
        ("plumanchor claim $E/press-line.qcir open", 1, "", "open: line 3: a bracket is not closed"),
        ("plumanchor claim $E/press-line.qcir sign", 1, "", "line 1: '&' is no part of a function"),
        ("plumanchor claim $E/press-line.qcir nothing", 1, "", "line 1: the function ends where a variable should follow"),
        ("plumanchor claim $E/press-line.qcir bare", 1, "", "line 1: a line is 'NAME = FUNCTION'"),
        ("printf 'lift = f\\xc3\\n' > bytes; plumanchor claim $E/press-line.qcir bytes", 1, "", "bytes: line 1: bytes that are no text"),
        ("plumanchor claim $E/press-line.qcir", 2, "", "which sheet, and which strategy?"),
        ("plumanchor claim - - < drawing", 2, "", "standard input is no sheet and strategy at once"),
        ("plumanchor claim $E/press-line.qcir drawing more", 2, "", "what is 'more'?"),
        ("plumanchor claim $E/press-line.qcir nowhere", 2, "", "nowhere: No such file"),
        ("plumanchor claim $E/and-of-nothing.sheet /dev/null", 0, "wins\n", ""),
        ("plumanchor claim $E/or-of-nothing.sheet /dev/null", 0, "loses: the formula fails\n", ""),
        ("plumanchor claim --side for-all $E/or-of-nothing.sheet /dev/null", 0, "wins\n", ""),
        ("plumanchor response stop $E/press-line.qcir", 0, "stop = feed xor jam\n", ""),
        ("plumanchor response --json stop $E/press-line.qcir", 0, "{\"variable\":\"stop\",\"function\":\"feed xor jam\"}\n", ""),
        ("plumanchor response --to sheet stop $E/press-line.qcir | plumanchor check", 0, "3 variables, 7 nodes\n", ""),
        ("plumanchor response lift $E/press-line.qcir", 1, "", "refused 11"),
        ("plumanchor response 1 $E/one-tautology.sheet", 1, "", "so 'tidy' the sheet first"),
        ("plumanchor strategy --room 250 $E/press-line.qcir", 0, "stopped: no verdict, since there is no room to expand stop\n", ""),
        ("plumanchor strategy --room 250 --to st $E/press-line.qcir > new", 1, "", "press-line.qcir: stopped: no verdict"),
        ("plumanchor strategy --room 250 --json $E/press-line.qcir", 0,
            "{\"answer\":\"stopped\",\"settled\":0,\"expanded\":0,\"variable\":\"stop\"}\n", ""),
        ("plumanchor strategy --to html $E/press-line.qcir", 2, "", "no format 'html'; there are text, sheet, qcir"),
        ("plumanchor strategy --to table $E/print-line.qcir | wc -l", 0, "257\n", ""),
        ("plumanchor strategy --to qcir $E/print-line.qcir | plumanchor solve | cut -d ' ' -f 1", 0, "true\n", ""),
        ("plumanchor strategy --to qcir $E/print-line-one-air.qcir | plumanchor solve | cut -d ' ' -f 1", 0, "false\n", ""),
        ("cmp <(plumanchor strategy --to json $E/print-line.qcir) <(plumanchor strategy --json $E/print-line.qcir)", 0, "", ""),
        ("plumanchor strategy $E/cut-short.sheet", 1, "", "cut-short.sheet: refused 3"),
        ("printf '1\\n0\\n' | plumanchor play $E/press-line.qcir | tail -n 1", 0, "the formula holds: exists wins\n", ""),
        ("printf '1\\n0\\n' | plumanchor play $E/press-line.qcir > /dev/full", 2, "", "standard output: No space left"),
        ("plumanchor play $E/press-line.qcir < $E", 2, "true: exists wins; it plays lift, stop, and you play feed, jam\n",
            "standard input: Is a directory"),
        ("(sleep 0.2; yes 1 | plumanchor play $E/press-line.qcir; echo $? >&2) | true", 0, "", "0\n"),
    ]);
    // A chain of valves whose claim has too many rows on the way; a play that breaks it is found all the same.
    let turns = (0..150).map(|x| format!("forall(s{x})\nexists(v{x})\n")).collect::<String>();
    let all = (0..150).map(|x| format!("-x{x}")).collect::<Vec<String>>().join(", ");
    let gates = (1..150).map(|x| format!("x{x} = xor(v{x}, y{x})\ny{x} = xor(s{x}, v{})\n", x - 1));
    let gates = gates.collect::<String>();
    text(
        "chain.qcir",
        &format!("#QCIR-G14\n{turns}output(g)\ng = and({all})\nx0 = xor(v0, s0)\n{gates}"),
    );
    folder.holds(&[
        ("plumanchor strategy chain.qcir > drawing; tail -n 1 drawing", 0, "v149 = s149 xor v148\n", ""),
        ("plumanchor claim chain.qcir drawing", 0, "stopped: the run on the claim has no room to expand s0\n", ""),
        ("sed 's/^v40 = .*/v40 = s40 and v39/' drawing > wrong; plumanchor claim chain.qcir wrong | sed 's/.*: //'", 0,
            "-x40 fails\n", ""),
    ]);
    // A side with more variables than a table has rows for.
    let many: Vec<String> = (1..=13).map(|x| format!("a{x}")).collect();
    let many = many.join(", ");
    text(
        "many.qcir",
        &format!(
            "#QCIR-G14\nforall({many})\nexists(b)\noutput(g)\ng = xor(b, h)\nh = and({many})\n"
        ),
    );
    folder.holds(&[
        ("plumanchor strategy --to table many.qcir", 1, "",
            "the other side has 13 variables, so there would be 2^13 rows, and a table has at most 4096; 'play' follows one"),
        ("plumanchor strategy many.qcir | tail -n 2", 0,
            "b = not a1 or not a2 or not a3 or not a4 or not a5 or not a6 or not a7 or not a8 or not a9\n    \
             or not a10 or not a11 or not a12 or not a13\n", ""),
        ("plumanchor strategy many.qcir > drawing; plumanchor claim many.qcir drawing", 0, "wins\n", ""),
    ]);
}

/// What a file is shows in its first bytes; a guess that is wrong is named.
#[test]
fn formats_are_recognised() {
    let folder = Folder::new("formats");
    let bytes =
        |name: &str, bytes: &[u8]| std::fs::write(folder.0.join(name), bytes).expect("a file");
    bytes("marked.qcir", b"\xef\xbb\xbf#QCIR-G14\nexists(x)\noutput(x)\n");
    bytes("marked.qdimacs", b"\xef\xbb\xbfp cnf 1 1\n1 0\n");
    bytes("latin.qcir", b"#QCIR-G14\n# Gr\xfc\xdfe\nexists(x, # behind\r\n\n  y\n)\r\noutput(g) # \xe4\ng = and(x,\n -y)\n");
    bytes("open.qcir", b"#QCIR-G14\nexists(x)\noutput(g)\ng = and(x,\nx\n");
    bytes("letters.qcir", b"#QCIR-G14\nexists(\xfc)\noutput(x)\n");
    bytes("deep.qcir", b"#QCIR-G14\nexists(x)\noutput(g)\ng = exists(y; x)\n");
    bytes("comment", b"c only a comment\n");
    bytes("text", b"hello, sheet\n");
    folder.holds(&[
        ("plumanchor solve $E/press-line.qcir", 0, "true 0 3 0\n", ""),
        ("plumanchor solve $E/press-line.qdimacs", 0, "true 0 3 0\n", ""),
        ("plumanchor solve $E/equality.qdimacs", 0, "false 2 6 0\n", ""),
        ("plumanchor solve $E/narrow/press-line.sheet", 0, "true 0 3 0\n", ""),
        ("plumanchor solve < $E/press-line.qcir", 0, "true 0 3 0\n", ""),
        ("plumanchor compare $E/narrow/press-line.sheet $E/press-line.sheet", 0, "equal\n", ""),
        ("plumanchor solve marked.qcir", 0, "true 1 0 0\n", ""),
        ("plumanchor solve marked.qdimacs", 0, "true 1 0 0\n", ""),
        ("plumanchor show latin.qcir", 0, "2 variables, 3 nodes\n\nexists x, y\n\nAND x, not y\n", ""),
        ("plumanchor show open.qcir", 1, "", "open.qcir: line 4: the list is not closed"),
        ("plumanchor show letters.qcir", 1, "", "letters.qcir: line 2: bytes that are no text"),
        ("plumanchor show deep.qcir", 1, "", "deep.qcir: line 4: a gate with a quantifier: only prenex"),
        ("plumanchor check comment", 1, "", "(line 1: the text ends without one); taken for a text in QDIMACS, --from says otherwise"),
        ("plumanchor check text", 1, "", "refused 2: a size is outside its limits"),
        ("plumanchor check text", 1, "", "taken for a sheet of 32-bit numbers, --from says otherwise"),
        ("plumanchor check --from wide text 2>&1 | grep -c taken", 1, "0\n", ""),
    ]);
}

/// Help, options and answers as people and programs expect them.
#[test]
fn what_people_expect() {
    let folder = Folder::new("expected");
    let text = |name: &str, text: &str| std::fs::write(folder.0.join(name), text).expect("a file");
    text("high", "p cnf 5000 2\na 4000 0\ne 3000 0\n4000 3000 0\n-4000 -3000 0\n");
    folder.holds(&[
        ("plumanchor --help | head -n 1 | cut -c 1-17", 0, "Usage: plumanchor\n", ""),
        ("cmp <(plumanchor --help) <(plumanchor help) && cmp <(plumanchor -h) <(plumanchor help)", 0, "", ""),
        ("cmp <(plumanchor quote --help) <(plumanchor help quote) && cmp <(plumanchor quote 1 -h) <(plumanchor help quote)", 0, "", ""),
        ("plumanchor help nothing", 2, "", "no command 'nothing'"),
        ("plumanchor -V | cut -d ' ' -f 1", 0, "plumanchor\n", ""),
        ("plumanchor quote --from=wide 4 $E/press-line.sheet", 0, "42\n", ""),
        ("plumanchor quote --from= 4 $E/press-line.sheet", 2, "", "no format ''"),
        ("plumanchor check --json=yes $E/press-line.sheet", 2, "", "--json takes no value"),
        ("plumanchor outer 3 --quiet $E/press-line.sheet > new", 0, "", ""),
        ("plumanchor check --quiet $E/cut-short.sheet", 1, "", "refused 3"),
        ("plumanchor solve --status $E/press-line.sheet", 10, "true 0 3 0\n", ""),
        ("plumanchor solve --status $E/equal-before.sheet", 20, "false 0 1 0\n", ""),
        ("plumanchor solve --status --quiet $E/crowded.sheet", 0, "stopped 0 0 1\n", ""),
        ("plumanchor solve --status $E/cut-short.sheet", 1, "refused 0 0 3\n", "refused 3"),
        ("plumanchor solve --to qdimacs $E/press-line.qdimacs", 0, "s cnf 1 4 6\n", ""),
        ("plumanchor solve --to qdimacs $E/equal-before.sheet", 0, "s cnf 0 4 5\n", ""),
        ("plumanchor solve --to qdimacs --quiet $E/crowded.sheet", 0, "s cnf -1 12 1200\n", ""),
        ("printf 'p cnf 3 2\ne 1 2 0\na 3 0\n1 3 0\n-2 -3 0\n' | plumanchor solve --to qdimacs -", 0,
            "s cnf 1 3 2\nV 1 0\nV -2 0\n", ""),
        ("printf 'p cnf 3000 1\na 1001 2002 0\n1001 -2002 0\n' | plumanchor solve --renumber --to qdimacs -", 0,
            "s cnf 0 3000 1\nV -1001 0\nV 2002 0\n", "2 variables numbered from 1"),
        ("plumanchor solve --to qcir $E/press-line.sheet", 2, "", "no answer as 'qcir'"),
        ("plumanchor solve --stats $E/press-line.qcir", 0, "true 0 3 0\n", "3 steps, 47 rows at most, 0."),
        ("plumanchor solve --json $E/press-line.qcir", 0, "{\"answer\":\"true\",\"settled\":0,\"expanded\":3}\n", ""),
        ("plumanchor solve --json --room 250 --quiet $E/press-line.qcir", 0,
            "{\"answer\":\"stopped\",\"settled\":0,\"expanded\":0,\"variable\":\"stop\"}\n", ""),
        ("plumanchor solve --json $E/cut-short.sheet | cut -c 1-31", 0, "{\"answer\":\"refused\",\"number\":3,\n", "refused 3"),
        ("plumanchor check --json $E/press-line.sheet", 0, "{\"variables\":4,\"nodes\":23}\n", ""),
        ("plumanchor quote --json 4 $E/press-line.sheet", 0, "{\"rows\":42}\n", ""),
        ("plumanchor trial --json $E/press-line.sheet", 0, "{\"answer\":true,\"leaves\":8}\n", ""),
        ("plumanchor part --json 1 $E/press-line.sheet", 0, "{\"kinds\":[6,4,3]}\n", ""),
        ("plumanchor force --json 1 $E/press-line.sheet", 0, "{\"turn\":\"exists\",\"values\":\"1\"}\n", ""),
        ("plumanchor compare --json $E/press-line.sheet $E/press-line.sheet", 0, "{\"order\":\"equal\"}\n", ""),
        ("plumanchor outer --json jam $E/press-line.qcir", 0, "{\"bytes\":138,\"copied\":1,\"lowest\":\"stop\"}\n", "1 variable"),
        ("plumanchor steps --json s:lift,e:stop $E/press-line.qcir", 0,
            "{\"bytes\":128,\"steps\":[{\"step\":\"settle\",\"variable\":\"lift\",\"refused\":12,\"message\":\"refused 12: the variable may not be \
             settled\"},{\"step\":\"expand\",\"variable\":\"stop\",\"bytes\":128}]}\n", "expand stop: 128 bytes"),
        ("plumanchor completion bash | bash -n && plumanchor completion fish | head -c 14", 0, "# Completions ", ""),
        ("plumanchor completion zsh | head -n 1", 0, "#compdef plumanchor\n", ""),
        ("plumanchor completion csh", 2, "", "no shell 'csh'"),
        ("source <(plumanchor completion bash); COMP_WORDS=(plumanchor draw --to ''); COMP_CWORD=3; _plumanchor; \
          echo ${COMPREPLY[@]}", 0, "svg dot\n", ""),
        ("source <(plumanchor completion bash); COMP_WORDS=(plumanchor so); COMP_CWORD=1; _plumanchor; \
          echo ${COMPREPLY[@]}", 0, "solve sort\n", ""),
        ("plumanchor manual | head -n 1 | cut -c 1-16", 0, ".TH PLUMANCHOR 1\n", ""),
        ("plumanchor solve high", 1, "refused 0 0 15\n", "'--renumber' takes it if no more occur"),
        ("plumanchor solve --renumber high", 0, "true 0 1 0\n", "2 variables numbered from 1"),
        ("plumanchor quote --renumber --quiet 3000 high", 0, "15\n", ""),
        ("plumanchor solve --renumber --quiet --to qdimacs high", 0, "s cnf 1 5000 2\n", ""),
    ]);
}

/// Verdicts of a solver from outside, by its trace.
#[test]
fn certificates() {
    Folder::new("certificates").holds(&[
        ("trace() { depqbf --trace --dep-man=simple --no-qbce-dynamic --no-lazy-qpup \"$@\" > trace || true; }
          for name in press-line.qcir press-line.qdimacs narrow/press-line.sheet equal-before.sheet crowded.sheet; do
              plumanchor convert --to qdimacs $E/$name > text; trace text; plumanchor certify $E/$name trace; done",
            0, "true\ntrue\ntrue\nfalse\nfalse\n", ""),
        ("plumanchor certify $E/press-line.sheet trace", 1, "", "plumanchor: trace: line "),
        ("plumanchor certify --json $E/crowded.sheet trace | sed 's/[0-9]/n/g; s/nn*/n/'", 0,
            "{\"answer\":false,\"steps\":n}\n", ""),
        ("plumanchor certify - trace < $E/crowded.sheet && plumanchor certify $E/crowded.sheet - < trace", 0,
            "false\nfalse\n", ""),
        ("plumanchor certify - -", 2, "", "standard input is no sheet and trace at once"),
        ("plumanchor certify $E/crowded.sheet", 2, "", "which sheet, and which trace?"),
        ("plumanchor certify $E/crowded.sheet none", 2, "", "none: No such file"),
        ("plumanchor certify $E/crowded.sheet trace trace", 2, "", "what is 'trace'?"),
        ("plumanchor certify $E/cut-short.sheet trace", 1, "", "cut-short.sheet: refused 3"),
        ("plumanchor certify $E/crowded.sheet $E/crowded.sheet", 1, "", "crowded.sheet: line 1: a trace in QRP begins"),
        ("plumanchor certify $E/crowded.sheet /dev/null", 1, "", "/dev/null: line 1: the trace ends without a verdict"),
    ]);
}

/// Verdicts where Solve stops, and the same work in parts.
#[test]
fn deciding() {
    Folder::new("deciding").holds(&[
        ("plumanchor decide $E/press-line.qcir", 0, "true by expansion: 0 settled, 3 expanded\n", ""),
        ("plumanchor decide < $E/crowded.sheet", 0, "false by splitting: 3 runs\n", ""),
        ("plumanchor decide --runs 2 $E/crowded.sheet | sed 's/[0-9][0-9]*/n/'", 0,
            "false by certificate: n steps\n", ""),
        ("plumanchor decide --status $E/narrow/press-line.sheet", 10, "true by expansion: 0 settled, 3 expanded\n", ""),
        ("plumanchor decide --status --quiet --runs 1 $E/crowded.sheet > line", 20, "", ""),
        ("plumanchor decide --status --runs 2 --search none $E/crowded.sheet", 0, "unknown after 2 runs\n", ""),
        ("PATH=/none $T decide --runs 2 $E/crowded.sheet", 0, "unknown after 2 runs\n",
            "plumanchor: no 'depqbf' on the path, so nothing was searched\n"),
        ("PATH=/none $T decide --quiet --runs 2 $E/crowded.sheet", 0, "unknown after 2 runs\n", ""),
        ("plumanchor decide --places 0 --search none $E/crowded.sheet", 0, "unknown after 1 run\n", "there are 0"),
        ("plumanchor decide --seconds 0 $E/crowded.sheet", 0, "unknown after 1 run\n", ""),
        ("plumanchor decide --json $E/crowded.sheet", 0, "{\"answer\":\"false\",\"by\":\"splitting\",\"runs\":3}\n", ""),
        ("plumanchor decide --json --search none --runs 1 $E/crowded.sheet", 0,
            "{\"answer\":\"unknown\",\"runs\":1}\n", ""),
        ("plumanchor decide --room 10 $E/press-line.sheet", 1, "", "it takes 143 bytes, and a buffer has 10"),
        ("plumanchor decide --room 46089 $E/press-line.sheet", 2, "", "--room is at most 46088"),
        ("plumanchor decide --seconds soon $E/press-line.sheet", 2, "", "--seconds is a number"),
        ("plumanchor decide $E/cut-short.sheet", 1, "", "cut-short.sheet: refused 3"),
        ("plumanchor decide $E/press-line.sheet > /dev/full", 2, "", "standard output: No space left"),
        ("plumanchor split 2 $E/press-line.qcir work && ls work", 0, "00.sheet\n01.sheet\n10.sheet\n11.sheet\nlist\n",
            "4 sheets in work, by the values of feed, lift"),
        ("plumanchor split --quiet --json 2 $E/press-line.qcir work", 0,
            "{\"sheets\":4,\"variables\":[\"feed\",\"lift\"]}\n", ""),
        ("while read -r values file; do echo $values $(plumanchor solve work/$file); done < work/list | tee answers", 0,
            "00 true 0 1 0\n01 false 0 0 0\n10 false 0 0 0\n11 true 0 1 0\n", ""),
        ("plumanchor join $E/press-line.qcir answers", 0, "true\n", "plumanchor: not needed: 01 10\n"),
        ("tail -n 2 answers | plumanchor join $E/press-line.qcir -", 0, "unknown\n", "plumanchor: open: 00 01\n"),
        ("plumanchor join --quiet --json $E/press-line.qcir answers", 0,
            "{\"answer\":\"true\",\"spare\":[\"01\",\"10\"]}\n", ""),
        ("(cat answers; sleep 1; echo late >&2) | (plumanchor join --quiet $E/press-line.qcir -; echo ended >&2)", 0,
            "true\n", "ended\nlate\n"),
        ("(cat answers; echo 00 false) | plumanchor join $E/equal-before.sheet -", 0, "false\n", "not needed: 00 11\n"),
    ]);
}

/// A repository with the wrapper alone, where `rt` and `cargo` only say what they are asked: the
/// first use builds, says little, and is asked for nothing twice.
#[test]
fn the_first_use() {
    let folder = Folder::new("build");
    let script = |name: &str, text: &str| {
        let text = format!("#!/usr/bin/env bash\n{text}\n");
        std::fs::write(folder.0.join(name), text).expect("a script");
    };
    script(
        "rt",
        "exec >&2; crate=${PWD##*/}; echo rt $1 $crate >> ../../calls; mkdir -p out
        seq 500; echo 'rt: chose --jobs 2 for rows'; [[ -z ${BROKEN:-} ]] || { echo 'rt: sheet NOT PROVED'; exit 1; }
        [[ $1 != run ]] || { printf '#!/bin/sh\\necho true 0 0 0\\n' > out/$crate; chmod +x out/$crate; }
        [[ $1 != lib ]] || ar rc out/lib$crate.a ../../calls",
    );
    script(
        "cargo",
        "echo cargo >> calls; mkdir -p build/release
        printf '#!/bin/sh\\necho tool $1\\n' > build/release/plumanchor-tool; chmod +x build/release/plumanchor-tool",
    );
    folder.holds(&[
        ("mkdir -p bin install crates/{rows,plumanchor,capi,capi_more} && mv rt cargo bin && chmod +x bin/*", 0, "", ""),
        ("cp $P . && cp $(dirname $P)/install/{archive,program} install && touch crates/plumanchor/stdin", 0, "", ""),
        ("printf 'rows:\\nplumanchor: rows\\ncapi staticlib: rows\\ncapi_more staticlib: rows # why\\n' > crates.txt", 0, "", ""),
        ("mkdir none && ln -s $(command -v bash env dirname readlink find head) none", 0, "", ""),
        ("PATH=$PWD/none ./plumanchor < /dev/null", 2, "", "no 'rt' on the path"),
        ("PATH=$PWD/none ./plumanchor check", 2, "", "no 'cargo' on the path"),
        ("PATH=$PWD/bin:$PATH BROKEN=1 ./plumanchor < /dev/null", 2, "",
            "proving 2 crates failed: rt: sheet NOT PROVED; "),
        ("grep -c . build/build.log; rm calls", 0, "502\n", ""),
        ("PATH=$PWD/bin:$PATH ./plumanchor check", 0, "tool check\n", "proving 2 crates; "),
        ("PATH=$PWD/bin:$PATH ./plumanchor check", 0, "tool check\n", ""),
        ("PATH=$PWD/bin:$PATH ./plumanchor < /dev/null", 0, "true 0 0 0\n", ""),
        ("cat calls", 0, "rt run plumanchor\nrt lib capi\nrt lib capi_more\ncargo\n", ""),
        ("ar t target/staticlib/libplumanchor.a", 0, "calls\ncalls\n", ""),
    ]);
}
