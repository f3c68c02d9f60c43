//! The commands, a file for each; the help lists them in this order.

mod certify;
mod check;
mod claim;
mod compare;
mod completion;
mod convert;
mod decide;
mod draw;
mod execute;
mod expand;
mod explain;
mod force;
mod guards;
mod help;
mod join;
mod manual;
mod outer;
mod panel;
mod part;
mod play;
mod quote;
mod reduce;
mod response;
mod resume;
mod settle;
mod show;
mod solve;
mod sort;
mod split;
mod steps;
mod strategy;
mod tidy;
mod trial;

use crate::command::Command;

pub static COMMANDS: &[Command] = &[
    solve::COMMAND,
    decide::COMMAND,
    certify::COMMAND,
    split::COMMAND,
    join::COMMAND,
    resume::COMMAND,
    strategy::COMMAND,
    claim::COMMAND,
    play::COMMAND,
    panel::COMMAND,
    show::COMMAND,
    explain::COMMAND,
    draw::COMMAND,
    convert::COMMAND,
    check::COMMAND,
    trial::COMMAND,
    part::COMMAND,
    tidy::COMMAND,
    settle::COMMAND,
    expand::COMMAND,
    outer::COMMAND,
    steps::COMMAND,
    quote::COMMAND,
    execute::COMMAND,
    response::COMMAND,
    reduce::COMMAND,
    sort::COMMAND,
    compare::COMMAND,
    force::COMMAND,
    guards::COMMAND,
    help::COMMAND,
    manual::COMMAND,
    completion::COMMAND,
];
