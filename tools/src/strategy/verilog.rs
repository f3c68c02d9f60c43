//! A strategy as a module of Verilog: the other side's variables in, its own out.

use super::circuit::Circuit;
use super::identifiers::{Identifiers, Rules};
use super::layout::{self, Language};
use super::{first_line, Strategy};

/// The words of IEEE 1364-2005, those that SystemVerilog's readers mind most, and the module's name.
const RESERVED: &str = "\
    always and assign automatic begin bit buf bufif0 bufif1 byte case casex casez cell class \
    cmos config deassign default defparam design disable do edge else end endcase endconfig \
    endfunction endgenerate endmodule endprimitive endspecify endtable endtask enum event \
    final for force forever fork function generate genvar global highz0 highz1 if ifnone \
    import incdir include initial inout input instance int integer interface join large let \
    liblist library localparam logic longint macromodule medium modport module nand negedge \
    new nmos nor noshowcancelled not notif0 notif1 null or output package packed parameter \
    pmos posedge primitive priority program property pull0 pull1 pulldown pullup \
    pulsestyle_ondetect pulsestyle_onevent rcmos real realtime reg release repeat restrict \
    return rnmos rpmos rtran rtranif0 rtranif1 scalared sequence shortint showcancelled \
    signed small specify specparam static strategy string strong strong0 strong1 struct \
    supply0 supply1 table task this time tran tranif0 tranif1 tri tri0 tri1 triand trior \
    trireg type typedef union unique unsigned use uwire var vectored virtual void wait wand \
    weak weak0 weak1 while wire with wor xnor xor";

pub fn write(strategy: &Strategy) -> String {
    let rules = Rules { reserved: RESERVED, folds: false, lone_underscores: false };
    let prefix = &strategy.formula.prefix;
    let names = Identifiers::new(prefix, &strategy.names, &rules);
    let mut text = format!("// {}\n", first_line(strategy.side));
    text.extend(names.told().iter().map(|line| format!("// {line}\n")));
    let port = |x: usize| {
        let direction = if strategy.owns(x) { "output" } else { "input" };
        format!("    {direction} wire {}", names.of(x))
    };
    let ports: Vec<String> = prefix.iter().map(|row| port(row.argument)).collect();
    text += &format!("module strategy (\n{}\n);\n", ports.join(",\n"));
    let name = |x: usize| names.of(x);
    let constants = ["1'b0", "1'b1"];
    let language = Language { and: "&", or: "|", xor: "^", not: "~", constants, name: &name };
    for (x, function) in &strategy.functions {
        let mut circuit = Circuit::new();
        let edge = circuit.of_rows(function);
        let head = format!("    assign {} = ", names.of(*x));
        text += &layout::lines(&circuit, edge, &language, [&head, ";"]);
    }
    text + "endmodule\n"
}
