//! Strategies as other programs read them: Debian's `yosys` shows of the Verilog and of the AIGER
//! that the matrix is what the winner wants for all inputs, and `iverilog` runs the Verilog through
//! the table.

mod common;

use common::{answered, example_bytes, text, READING};
use outside::examples::text_examples;
use outside::generate::{self, cases, Limits};
use outside::literature::LITERATURE;
use outside::reference::{Formula, Kind, Node, Quantifier};
use outside::with_deep_stack;
use std::path::PathBuf;
use std::process::{Command, Output};

const ROOT: &str = concat!(env!("CARGO_MANIFEST_DIR"), "/..");

/// A folder, which goes when it is dropped.
struct Folder(PathBuf);

impl Folder {
    fn new(name: &str) -> Folder {
        let name = format!("plumanchor-wired-{name}-{}", std::process::id());
        let folder = std::env::temp_dir().join(name);
        std::fs::create_dir_all(&folder).expect("a folder");
        Folder(folder)
    }

    fn write(&self, name: &str, text: &str) {
        std::fs::write(self.0.join(name), text).expect("a file");
    }

    fn run(&self, program: &str, arguments: &[&str]) -> Output {
        let mut command = Command::new(program);
        command.args(arguments).current_dir(&self.0);
        command.output().unwrap_or_else(|error| panic!("{program} is installed: {error}"))
    }
}

impl Drop for Folder {
    fn drop(&mut self) {
        // What is left in a folder for temporary files does no harm.
        let _ = std::fs::remove_dir_all(&self.0);
    }
}

/// The matrix as an expression of Verilog, of variables that are called v and their number.
fn expression(node: &Node, text: &mut String) {
    match node {
        Node::Lit { positive, var } => {
            *text += if *positive { "v" } else { "~v" };
            *text += &var.to_string();
        }
        Node::Op { kind, children } => {
            let (sign, unit) = if *kind == Kind::And { (" & ", "1'b1") } else { (" | ", "1'b0") };
            *text += &format!("({unit}");
            for child in children {
                *text += sign;
                expression(child, text);
            }
            *text += ")";
        }
    }
}

/// A module that has the other side's variables for inputs, asks the module `strategy` for the
/// winner's, whose ports go by these names, and puts out the matrix.
fn judge(given: &Formula, winner: Quantifier, port: impl Fn(usize) -> String) -> String {
    let rows = || given.prefix.iter();
    let inputs = rows().filter(|row| row.0 != winner).map(|row| format!("input v{}, ", row.1));
    let wires = rows().filter(|row| row.0 == winner).map(|row| format!("wire v{};\n", row.1));
    let ports: Vec<String> = rows().map(|row| format!(".{}(v{})", port(row.1), row.1)).collect();
    let mut holds = String::new();
    expression(&given.matrix, &mut holds);
    format!(
        "module judge({}output holds);\n{}strategy inside({});\nassign holds = {holds};\nendmodule\n",
        inputs.collect::<String>(),
        wires.collect::<String>(),
        ports.join(", ")
    )
}

/// Formulas with strategies: the examples, families of the literature, and random ones.
fn formulas() -> Vec<Formula> {
    with_deep_stack(|| {
        let mut sheets: Vec<Vec<u8>> =
            ["press-line", "press-line-early", "semantic-tree", "nnf-exists", "nnf-for-all"]
                .map(example_bytes)
                .to_vec();
        for name in ["press-line", "print-line", "print-line-one-air"] {
            let circuit = std::fs::read(format!("{ROOT}/examples/{name}.qcir")).expect("a circuit");
            sheets.push(answered(&["convert"], &circuit));
        }
        let texts = text_examples().into_iter().map(|example| example.text);
        let families = LITERATURE.iter().map(|family| family.qdimacs(3).text());
        for text in texts.chain(families) {
            sheets.push(answered(&["convert", "--from", "qdimacs"], text.as_bytes()));
        }
        let mut formulas: Vec<Formula> =
            sheets.iter().map(|sheet| READING.format.parse(sheet).expect("a sheet")).collect();
        cases(40, |rng| {
            let limits = Limits { variables: 12, nodes: 60, ..Limits::small(READING.format) };
            formulas.push(generate::formula(rng, limits));
        });
        formulas
    })
}

/// The strategy in a format, and its side.
fn strategy(given: &Formula, to: &str) -> (Quantifier, String) {
    let sheet = READING.format.encode(given);
    let written = text(answered(&["strategy", "--from", "wide", "--to", to], &sheet));
    let lines = text(answered(&["strategy", "--from", "wide"], &sheet));
    (Quantifier::winner(lines.starts_with("true")), written)
}

/// A script that shows of each pair of files that the output of the judge is as wanted. Whatever
/// isn't shown is an error.
fn script(folder: &Folder, given: &[Formula], to: &str) -> String {
    let mut script = String::new();
    // `yosys` doesn't read a graph of nothing.
    let has_ports = |(_, formula): &(usize, &Formula)| !formula.prefix.is_empty();
    for (at, formula) in given.iter().enumerate().filter(has_ports) {
        let (winner, written) = strategy(formula, to);
        let file = format!("{at}.{to}");
        folder.write(&file, &written);
        let judge = match to {
            "verilog" => judge(formula, winner, |x| format!("x{x}")),
            _ => judge(formula, winner, |x| format!("\\{x} ")),
        };
        folder.write(&format!("{at}.judge.v"), &judge);
        let read = match to {
            // A side without variables has an empty module, which is a module all the same.
            "verilog" => format!("read_verilog -noblackbox {file}"),
            _ => format!("read_aiger -module_name strategy {file}"),
        };
        let wanted = u8::from(winner == Quantifier::Exists);
        script += &format!(
            "{read}\nread_verilog {at}.judge.v\nhierarchy -check -top judge\nproc\nflatten\n\
             sat -verify -prove holds {wanted}\ndesign -reset\n"
        );
    }
    script
}

/// Whether `yosys` shows all that a script asks for.
fn shown(folder: &Folder, script: &str) -> Result<(), String> {
    folder.write("script.ys", script);
    let output = folder.run("yosys", &["-q", "-s", "script.ys"]);
    let told = String::from_utf8_lossy(&output.stderr).into_owned();
    output.status.success().then_some(()).ok_or(told)
}

#[test]
fn the_matrix_is_as_wanted_for_all_inputs() {
    let given = formulas();
    assert!(given.len() > 40);
    for to in ["verilog", "aiger"] {
        let folder = Folder::new(to);
        let script = script(&folder, &given, to);
        assert_eq!(shown(&folder, &script), Ok(()), "{to}");
    }
}

/// A drawing that is wrong isn't shown to be right.
#[test]
fn a_wrong_strategy_is_found_out() {
    let press = READING.format.parse(&example_bytes("press-line")).expect("a sheet");
    let folder = Folder::new("wrong");
    let script = script(&folder, std::slice::from_ref(&press), "verilog");
    assert_eq!(shown(&folder, &script), Ok(()));
    let right = std::fs::read_to_string(folder.0.join("0.verilog")).expect("a module");
    folder.write("0.verilog", &right.replace("x1 ^ x3", "x1 & x3"));
    assert!(shown(&folder, &script).is_err_and(|told| told.contains("proof")), "not found out");
}

/// The module in a bench that goes through all plays and writes the rows of the table.
fn simulated(folder: &Folder, table: &str, verilog: &str) -> String {
    let mut lines = table.lines();
    let columns: Vec<Vec<&str>> = lines
        .next()
        .expect("a line of names")
        .split('|')
        .map(|names| names.split_whitespace().collect())
        .collect();
    let [inputs, outputs] = &columns[..] else { panic!("two groups of columns") };
    let listed = |names: &[&str], glue: &str| names.join(glue);
    let ports = inputs.iter().chain(outputs).map(|name| format!(".{name}({name})"));
    let widths = "%b ".repeat(inputs.len()) + "|" + &" %b".repeat(outputs.len());
    let bench = format!(
        "module bench;\nreg [{}:0] play;\nwire {};\nassign {{{}}} = play;\nstrategy inside({});\n\
         integer at;\ninitial for (at = 0; at < {}; at = at + 1) begin\nplay = at; #1;\n\
         $display(\"{widths}\", {}, {});\nend\nendmodule\n",
        inputs.len() - 1,
        listed(&[&inputs[..], &outputs[..]].concat(), ", "),
        listed(inputs, ", "),
        ports.collect::<Vec<String>>().join(", "),
        1usize << inputs.len(),
        listed(inputs, ", "),
        listed(outputs, ", "),
    );
    folder.write("strategy.v", verilog);
    folder.write("bench.v", &bench);
    let compiled = folder.run("iverilog", &["-Wall", "-o", "bench", "strategy.v", "bench.v"]);
    let told = String::from_utf8_lossy(&compiled.stderr).into_owned();
    assert!(compiled.status.success(), "{told}");
    text(folder.run("vvp", &["-n", "bench"]).stdout)
}

/// A row without the blanks that line it up.
fn plain(rows: &str) -> Vec<String> {
    let words = |row: &str| row.split_whitespace().collect::<Vec<&str>>().join(" ");
    rows.lines().map(words).collect()
}

#[test]
fn the_module_runs_as_the_table_says() {
    let folder = Folder::new("runs");
    for name in ["press-line", "print-line", "print-line-one-air"] {
        let circuit = std::fs::read(format!("{ROOT}/examples/{name}.qcir")).expect("a circuit");
        let written = |to: &str| text(answered(&["strategy", "--to", to], &circuit));
        let table = written("table");
        let rows = simulated(&folder, &table, &written("verilog"));
        assert_eq!(plain(&rows), plain(&table)[1..], "{name}");
    }
}

/// Names that a language has another use for are changed, and the comment says to what.
#[test]
fn names_that_a_language_does_not_take() {
    let circuit = b"#QCIR-G14\nforall(Feed, feed, wire, a__b)\nexists(output, 4, End_Var, x4, and, _, a_b)\n\
                    output(g)\ng = and(h, k, l, m, n, o)\nh = xor(output, Feed)\nk = xor(4, feed)\n\
                    l = xor(End_Var, wire)\nm = xor(x4, a__b)\nn = xor(and, wire)\no = xor(_, a_b)\n";
    let written = |to: &str| text(answered(&["strategy", "--to", to], circuit));
    let verilog = written("verilog");
    for line in [
        "// output_x is the variable output",
        "// x4_x1 is the variable 4",
        "// and_x is the variable and",
    ] {
        assert!(verilog.contains(line), "{verilog}");
    }
    let folder = Folder::new("names");
    folder.write("strategy.v", &verilog);
    let compiled = folder.run("iverilog", &["-Wall", "-t", "null", "strategy.v"]);
    assert!(compiled.status.success(), "{}", String::from_utf8_lossy(&compiled.stderr));
    assert_eq!(shown(&folder, "read_verilog strategy.v\nhierarchy -check -top strategy\n"), Ok(()));
    let block = written("st");
    for line in [
        "(* feed_x1 is the variable feed *)",
        "(* a_b_x1 is the variable a__b *)",
        "(* End_Var_x is the variable End_Var *)",
    ] {
        assert!(block.contains(line), "{block}");
    }
    let lines = written("text");
    assert!(lines.contains("'and' = not wire\n") && lines.contains("4 = not feed\n"), "{lines}");
}
