//! A strategy as a function block of Structured Text, IEC 61131-3.

use super::circuit::Circuit;
use super::identifiers::{Identifiers, Rules};
use super::layout::{self, Language};
use super::{first_line, Strategy};

/// The keywords, types and standard functions and function blocks of the standard, and the block's
/// name.
const RESERVED: &str = "\
    abs abstract acos action add and any any_bit any_int any_num array asin at atan bool by \
    byte cal case char class concat configuration constant continue cos ctd ctu ctud date \
    date_and_time delete dint div do dt dword else elsif end_action end_case end_class \
    end_configuration end_for end_function end_function_block end_if end_interface \
    end_method end_namespace end_program end_property end_repeat end_resource end_step \
    end_struct end_transition end_type end_var end_while en eno eq exit exp expt extends \
    f_edge f_trig false final find for from function function_block ge gt if implements \
    initial_step insert int interface internal interval jmp ld ldate ldt le left len limit \
    lint ln log lreal lt ltime ltod lword max method mid min mod move mul mux namespace ne \
    non_retain not null of on or override overlap priority private program property \
    protected public r_edge r_trig read_only read_write real ref ref_to repeat replace \
    resource ret retain return right rol ror rs sel sema shl shr sin single sint sqrt sr st \
    step strategy string struct sub super tan task then this time time_of_day to tod tof ton \
    tp transition true trunc type udint uint ulint until using usint var var_access \
    var_config var_external var_global var_in_out var_input var_output var_temp wchar while \
    with word wstring xor";

pub fn write(strategy: &Strategy) -> String {
    let rules = Rules { reserved: RESERVED, folds: true, lone_underscores: true };
    let names = Identifiers::new(&strategy.formula.prefix, &strategy.names, &rules);
    let mut text = format!("(* {} *)\n", first_line(strategy.side));
    text.extend(names.told().iter().map(|line| format!("(* {line} *)\n")));
    text += "FUNCTION_BLOCK Strategy\n";
    for (block, owned) in [("VAR_INPUT", false), ("VAR_OUTPUT", true)] {
        let rows = strategy.formula.prefix.iter().map(|row| row.argument);
        let variables = rows.filter(|&x| strategy.owns(x) == owned);
        let lines: String = variables.map(|x| format!("    {} : BOOL;\n", names.of(x))).collect();
        if !lines.is_empty() {
            text += &format!("{block}\n{lines}END_VAR\n");
        }
    }
    let (name, constants) = (|x: usize| names.of(x), ["FALSE", "TRUE"]);
    let language =
        Language { and: "AND", or: "OR", xor: "XOR", not: "NOT ", constants, name: &name };
    text.push('\n');
    for (x, function) in &strategy.functions {
        let mut circuit = Circuit::new();
        let edge = circuit.of_rows(function);
        let head = format!("{} := ", names.of(*x));
        text += &layout::lines(&circuit, edge, &language, [&head, ";"]);
    }
    text + "\nEND_FUNCTION_BLOCK\n"
}
