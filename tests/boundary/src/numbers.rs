//! Elements and keys by number, as crates/nesting has them.

/// Elements in the order of their numbers, from 1.
pub const ELEMENTS: [&str; 27] = [
    "scxml",
    "state",
    "parallel",
    "datamodel",
    "final",
    "history",
    "initial",
    "invoke",
    "data",
    "donedata",
    "finalize",
    "else",
    "elseif",
    "param",
    "content",
    "transition",
    "onentry",
    "onexit",
    "send",
    "raise",
    "cancel",
    "log",
    "assign",
    "if",
    "foreach",
    "script",
    "include",
];

/// Keys likewise.
pub const KEYS: [&str; 28] = [
    "id",
    "initial",
    "name",
    "datamodel",
    "binding",
    "version",
    "type",
    "typeexpr",
    "src",
    "srcexpr",
    "idlocation",
    "namelist",
    "autoforward",
    "event",
    "eventexpr",
    "cond",
    "target",
    "targetexpr",
    "expr",
    "array",
    "item",
    "index",
    "sendid",
    "sendidexpr",
    "delay",
    "delayexpr",
    "location",
    "label",
];

/// A name's number; 0 where it is not among them.
pub fn number_in(names: &[&str], name: &str) -> u32 {
    names.iter().position(|other| *other == name).map_or(0, |place| place as u32 + 1)
}
