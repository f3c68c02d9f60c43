//! QCIR both ways: sheets come back byte for byte, circuits keep their truth,
//! and what can't be read is refused with its line.

mod common;

use common::{answered, called, text, READING};
use outside::generate::{self, cases, formula, Limits, Rng};
use outside::reference::Format;
use outside::{truth, with_deep_stack};
use std::collections::HashMap;

const FORMAT: Format = READING.format;

fn to_qcir(sheet: &[u8]) -> String {
    text(answered(&["convert", "--to", "qcir"], sheet))
}

fn from_qcir(text: &str) -> Vec<u8> {
    answered(&["convert", "--from", "qcir"], text.as_bytes())
}

fn comes_back(rng: &mut Rng, limits: Limits) {
    let sheet = FORMAT.encode(&formula(rng, limits));
    assert_eq!(from_qcir(&to_qcir(&sheet)), sheet);
}

#[test]
fn sheets_come_back() {
    cases(3000, |rng| comes_back(rng, Limits::small(FORMAT)));
    cases(500, |rng| comes_back(rng, Limits::medium(FORMAT)));
    with_deep_stack(|| {
        cases(20, |rng| comes_back(rng, Limits::full(FORMAT)));
        let deepest = FORMAT.encode(&generate::deep_formula(3, FORMAT.most_nodes));
        assert_eq!(from_qcir(&to_qcir(&deepest)), deepest);
    });
}

#[test]
fn a_sheet_as_a_circuit() {
    let expected = "#QCIR-G14 5\nforall(2)\nexists(1)\noutput(3)\n\
                    5 = and(-1, -2)\n4 = and(1, 2)\n3 = or(4, 5)\n";
    assert_eq!(to_qcir(&common::example_bytes("equal-after")), expected);
    let literal = FORMAT.sheet_of(1, &[(2, 7), (4, 7)]);
    assert_eq!(to_qcir(&literal), "#QCIR-G14 7\nforall(7)\noutput(-7)\n");
}

/// V and the rows of a text.
fn rows(text: &str) -> (usize, Vec<(u8, usize)>) {
    let sheet = from_qcir(text);
    let (v, n) = FORMAT.sizes(&sheet).expect("a sheet");
    let argument = |at| FORMAT.number_at(&sheet, FORMAT.argument_at(v + n, at)).expect("a row");
    (v, (0..v + n).map(|at| (sheet[FORMAT.header() + at], argument(at))).collect())
}

#[test]
fn circuits_by_hand() {
    // A literal; blanks and comments anywhere; keywords in any case.
    let (v, literal) = rows("#QCIR-G14\n# a comment\n\n  Exists ( 3 )  \nOUTPUT( - 3 )");
    assert_eq!((v, literal), (1, vec![(1, 3), (4, 3)]));
    // Names are numbered in their order, free ones first and as exists.
    let (v, named) = rows("#QCIR-G14 9\nfree(b)\nforall(7, a)\noutput(g)\ng = and(a, -b, 7)\n");
    assert_eq!((v, &named[..3]), (3, &[(1, 1), (2, 2), (2, 3)][..]));
    assert_eq!(named[3..], [(5, 3), (3, 3), (4, 1), (3, 2)]);
    // A number too high, or not written as numbers are, is a name like any other.
    let highest = FORMAT.most_variables;
    for name in [(highest + 1).to_string(), "01".into(), "0".into()] {
        let text = format!("#QCIR-G14\nexists({highest}, {name})\noutput({name})\n");
        assert_eq!(rows(&text).1, [(1, 1), (1, 2), (3, 2)]);
    }
    // Empty gates, a gate that nothing uses, gates defined after their use, shared gates.
    let text =
        "#QCIR-G14\nexists(1)\noutput(a)\na = or(b, -b, c)\nb = and(1, c)\nc = or()\nd = and(1)\n";
    let b = [(5, 2), (3, 1), (6, 0)];
    let not_b = [(6, 2), (4, 1), (5, 0)];
    assert_eq!(rows(text).1, [&[(1, 1), (6, 3)][..], &b, &not_b, &[(6, 0)]].concat());
    // xor and ite are written out.
    let xor = rows("#QCIR-G14\nexists(1,2)\noutput(x)\nx = xor(1,2)\n").1;
    assert_eq!(xor[2..], [(6, 2), (5, 2), (3, 1), (4, 2), (5, 2), (4, 1), (3, 2)]);
    let ite = rows("#QCIR-G14\nexists(1,2,3)\noutput(-x)\nx = ite(1,2,-3)\n").1;
    assert_eq!(ite[3..], [(6, 2), (5, 2), (3, 1), (4, 2), (5, 2), (4, 1), (3, 3)]);
}

#[test]
fn every_refusal_says_the_line_and_why() {
    let start = "#QCIR-G14\nexists(1, 2)\n";
    for (rest, line, why) in [
        ("", 2, "no output"),
        ("output(3)\n", 3, "'3' is neither a variable nor a gate"),
        ("output(1)\n\n3 = and(1, 4)\n", 5, "'4' is neither"),
        ("output(3)\n3 = and(1, -3)\n", 4, "depends on itself"),
        ("output(1)\n3 = and(4)\n4 = or(-5)\n5 = xor(1, 4)\n", 5, "depends on itself"),
        ("output(1)\noutput(2)\n", 4, "second output"),
        ("output(1)\nexists(3)\n", 4, "before the output"),
        ("free(3)\noutput(1)\n", 3, "free variables come first"),
        ("3 = and(1)\noutput(3)\n", 3, "after the output"),
        ("forall(2)\noutput(1)\n", 3, "'2' is a variable already"),
        ("output(1)\n2 = and(1)\n", 4, "'2' is a variable already"),
        ("output(1)\n3 = and(1)\n3 = or(1)\n", 5, "'3' is a gate already"),
        ("output(1)\n3 = exists(4; 1)\n", 4, "prenex"),
        ("output(1)\n3 = nand(1)\n", 4, "'nand' is none of"),
        ("output(1)\n3 = xor(1)\n", 4, "1 inputs and not 2"),
        ("output(1)\n3 = ite(1, 2)\n", 4, "2 inputs and not 3"),
        ("output(1)\n3 = and(1,,2)\n", 4, "'' is no name"),
        ("output(1)\n3 = and(1, --2)\n", 4, "'-2' is no name"),
        ("output(1)\n-3 = and(1)\n", 4, "'-3' is no name"),
        ("output(1, 2)\n", 3, "'1, 2' is no name"),
        ("exists()\noutput(1)\n", 3, "'' is no name"),
        ("forall(-3)\noutput(1)\n", 3, "'-3' is no name"),
        ("output 1\n", 3, "no statement"),
        ("output(1) and more\n", 3, "no statement"),
        ("outputs(1)\n", 3, "'outputs' is none of"),
    ] {
        refused(&format!("{start}{rest}"), line, why);
    }
    for header in ["", "QCIR-G14\n", "#QCIR-G14 x\n", "#QCIR-G14 1 2\n", "#qcir\n", "p cnf 1 1\n"] {
        refused(header, 1, "begins with #QCIR-G14");
    }
    let ended = called(&["convert", "--from", "qcir"], b"#QCIR-G14\nexists(\xff)\n");
    assert!(ended.status == 1 && ended.message.contains("line 2: bytes"), "{ended:?}");
}

fn refused(text: &str, line: usize, why: &str) {
    let ended = called(&["convert", "--from", "qcir"], text.as_bytes());
    let told = format!("plumanchor: line {line}: ");
    let found = ended.message.starts_with(&told) && ended.message.contains(why);
    assert!(found && ended.status == 1 && ended.output.is_empty(), "{text}{ended:?}");
}

/// Sizes at and above the limits: the first is taken, the second refused with what it would be.
#[test]
fn too_large_a_circuit_is_refused_with_its_size() {
    let (most_variables, most_nodes) = (FORMAT.most_variables, FORMAT.most_nodes);
    let with_variables = |count: usize| {
        let names: Vec<String> = (0..count).map(|at| format!("x{at}")).collect();
        format!("#QCIR-G14\nexists(y)\nexists({})\noutput(y)\n", names.join(","))
    };
    assert_eq!(rows(&with_variables(most_variables - 1)).0, most_variables);
    refused(&with_variables(most_variables), 3, &format!("{} variables, and", most_variables + 1));
    let with_nodes = |count: usize| {
        let inputs = vec!["1"; count - 1].join(",");
        format!("#QCIR-G14\nexists(1)\noutput(2)\n2 = and({inputs})\n")
    };
    assert_eq!(rows(&with_nodes(most_nodes)).1.len(), 1 + most_nodes);
    refused(&with_nodes(most_nodes + 1), 3, &format!("has {} nodes, and", most_nodes + 1));
    let doubled = |times: usize| {
        let gate = |at: usize| format!("g{} = xor(g{at}, 1)\n", at + 1);
        let gates: String = (0..times).map(gate).collect();
        format!("#QCIR-G14\nexists(1)\noutput(g{times})\n{gates}g0 = and()\n")
    };
    // s(0) = 1 and s(n+1) = 2 s(n) + 5, so s(n) = 6 * 2^n - 5.
    assert_eq!(rows(&doubled(9)).1.len(), 1 + 6 * (1 << 9) - 5);
    // Shared gates that make the tree too large are variables, if these are few enough.
    defined(&doubled(40), &format!("as a tree it has {} nodes, and", 6 * (1u64 << 40) - 5));
    defined(&doubled(200), "at least 340282366920938463463374607431768211455 nodes");
    refused(&doubled(600), 3, "with variables for 1196 shared gates it has ");
    refused(&doubled(600), 3, "; the largest gate is 'g");
}

/// A circuit that is taken with variables for its shared gates, which is said.
fn defined(text: &str, told: &str) {
    let ended = called(&["convert", "--from", "qcir"], text.as_bytes());
    let found = ended.message.contains(told) && ended.message.contains("keeps the truth");
    assert!(ended.status == 0 && found, "{}", ended.message);
    assert!(FORMAT.check(&ended.output).is_ok());
}

/// A random circuit below a chain of gates that each use the one before twice.
#[test]
fn large_circuits_keep_their_truth() {
    let mut seen = [0; 2];
    cases(300, |rng| {
        let mut circuit = Circuit::random(rng);
        for at in 0..14 {
            let block = rng.below(circuit.blocks.len());
            let (name, variable) = (format!("h{at}"), circuit.blocks[block].1.clone());
            let inputs = match rng.below(3) {
                0 => vec![variable, format!("-{}", circuit.output), circuit.output.clone()],
                _ => vec![circuit.output.clone(), variable],
            };
            let kind = if inputs.len() == 3 { "ite" } else { "xor" };
            circuit.gates.push((name.clone(), kind, inputs));
            circuit.output = if rng.one_in(2) { format!("-{name}") } else { name };
        }
        circuit.gates.iter_mut().for_each(|gate| {
            gate.2.iter_mut().for_each(|input| *input = input.replace("--", ""));
        });
        let expected = circuit.is_true(&mut HashMap::new());
        let ended = called(&["solve", "--from", "qcir"], circuit.text().as_bytes());
        assert!(ended.message.contains("shared gates are variables"), "{}", ended.message);
        let line = text(ended.output);
        if !line.starts_with("stopped") {
            assert!(line.starts_with(&expected.to_string()), "{line}{}", circuit.text());
            seen[usize::from(expected)] += 1;
        }
    });
    assert!(seen.iter().all(|&count| count > 20), "{seen:?}");
}

/// A random circuit, and its truth by trying all values of all variables.
struct Circuit {
    blocks: Vec<(bool, String)>,
    output: String,
    gates: Vec<(String, &'static str, Vec<String>)>,
}

impl Circuit {
    fn random(rng: &mut Rng) -> Circuit {
        let count = rng.between(1, 6);
        let named = rng.one_in(2);
        let name = |at: usize| if named { format!("v_{at}") } else { (at + 1).to_string() };
        let blocks: Vec<(bool, String)> = (0..count).map(|at| (rng.one_in(2), name(at))).collect();
        let mut known: Vec<String> = blocks.iter().map(|block| block.1.clone()).collect();
        let mut gates = Vec::new();
        for at in 0..rng.between(1, 6) {
            let kind = rng.pick(&["and", "or", "xor", "ite"]);
            let arity = [("xor", 2), ("ite", 3)].iter().find(|known| known.0 == kind);
            let arity = arity.map_or(rng.below(4), |known| known.1);
            let inputs = (0..arity).map(|_| any_literal(rng, &known)).collect();
            known.push(format!("{}{at}", if named { "g" } else { "100" }));
            gates.push((known.last().expect("a gate").clone(), kind, inputs));
        }
        let output = any_literal(rng, &known);
        rng.shuffle(&mut gates);
        Circuit { blocks, output, gates }
    }

    fn text(&self) -> String {
        let mut text = "#QCIR-G14\n".to_string();
        for (universal, name) in &self.blocks {
            text += &format!("{}({name})\n", if *universal { "forall" } else { "exists" });
        }
        text += &format!("output({})\n", self.output);
        for (name, kind, inputs) in &self.gates {
            text += &format!("{name} = {kind}({})\n", inputs.join(", "));
        }
        text
    }

    fn is_true(&self, values: &mut HashMap<String, bool>) -> bool {
        let Some((universal, name)) = self.blocks.get(values.len()) else {
            return self.value(&self.output, values);
        };
        let mut results = [false, true].map(|value| {
            values.insert(name.clone(), value);
            let result = self.is_true(values);
            values.remove(name);
            result
        });
        results.sort_unstable();
        results[usize::from(!universal)]
    }

    fn value(&self, literal: &str, values: &HashMap<String, bool>) -> bool {
        let Some(name) = literal.strip_prefix('-') else {
            let known = values.get(literal).copied();
            return known.unwrap_or_else(|| self.gate(literal, values));
        };
        !self.value(name, values)
    }

    fn gate(&self, name: &str, values: &HashMap<String, bool>) -> bool {
        let gate = self.gates.iter().find(|gate| gate.0 == name).expect("a gate");
        let inputs: Vec<bool> = gate.2.iter().map(|input| self.value(input, values)).collect();
        match gate.1 {
            "and" => inputs.iter().all(|&input| input),
            "or" => inputs.iter().any(|&input| input),
            "xor" => inputs[0] != inputs[1],
            _ if inputs[0] => inputs[1],
            _ => inputs[2],
        }
    }
}

fn any_literal(rng: &mut Rng, names: &[String]) -> String {
    let name = &names[rng.below(names.len())];
    if rng.one_in(2) {
        format!("-{name}")
    } else {
        name.clone()
    }
}

#[test]
fn circuits_keep_their_truth() {
    let mut seen = [0; 2];
    cases(3000, |rng| {
        let circuit = Circuit::random(rng);
        let expected = circuit.is_true(&mut HashMap::new());
        let ended = called(&["convert", "--from", "qcir"], circuit.text().as_bytes());
        let formula = FORMAT.parse(&ended.output).expect("a sheet");
        if ended.message.is_empty() {
            assert_eq!(truth::is_true(&formula), expected, "{}", circuit.text());
        }
        let quietly = ["solve", "--quiet", "--from", "qcir"];
        let line = text(answered(&quietly, circuit.text().as_bytes()));
        assert!(line.starts_with(&expected.to_string()), "{line}{}", circuit.text());
        seen[usize::from(expected)] += 1;
    });
    assert!(seen.iter().all(|&count| count > 500), "{seen:?}");
}

/// Texts with a few bytes changed: taken as a good sheet, or refused with a line.
#[test]
fn damaged_texts_are_read_or_refused() {
    let mut seen = [0; 2];
    cases(4000, |rng| {
        let mut bytes = Circuit::random(rng).text().into_bytes();
        for _ in 0..rng.pick(&[1, 1, 1, 2, 3]) {
            let at = rng.below(bytes.len());
            match rng.below(4) {
                0 => drop(bytes.remove(at)),
                1 => bytes.insert(at, rng.pick(b"(),=-;# \n1v_\xff")),
                2 => bytes.truncate(at.max(1)),
                _ => bytes[at] = rng.pick(b"(),=-;# \n1v_\xff"),
            }
        }
        let ended = called(&["convert", "--from", "qcir"], &bytes);
        match ended.status {
            0 => assert!(FORMAT.check(&ended.output).is_ok()),
            1 => assert!(ended.message.starts_with("plumanchor: line "), "{}", ended.message),
            _ => panic!("{ended:?}"),
        }
        seen[usize::from(ended.status)] += 1;
    });
    assert!(seen.iter().all(|&count| count > 100), "{seen:?}");
}
