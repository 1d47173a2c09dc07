//! The listing of an outcome (document 01, "Edge readings").

use std::num::NonZeroUsize;

use awint_ext::Awi;

use crate::{
    Ast, Component, ComponentType, FillerAlign, PText, Usb, chars_to_string, run::Outcome,
};

/// The lines that document 01's program prints for an outcome.
pub fn listing(outcome: &Outcome) -> String {
    match outcome {
        Outcome::Accepted(ast) => layout(ast),
        Outcome::Refused(refusal) => {
            let (concatenation, component) = refusal.places;
            format!("refused {} {concatenation} {component}\n", refusal.number)
        }
        Outcome::Outside => "outside\n".to_owned(),
        Outcome::Panicked(stage) => format!("panic {stage}\n"),
    }
}

fn layout(ast: &Ast) -> String {
    let merged: usize = ast.cc.iter().map(|concat| concat.comps.len()).sum();
    let start = ast.txt_init.map_or("-".to_owned(), |p| format!("={}", text(ast, p)));
    let mut lines = format!(
        "layout {} {merged} {} {} {} {} {start}\n",
        ast.cc.len(),
        width(ast.common_bw),
        alignment(ast.overall_alignment),
        flag(ast.deterministic_width, "D"),
        flag(ast.guaranteed_nonzero_width, "Z"),
    );
    for (i, concat) in ast.cc.iter().enumerate() {
        lines += &format!(
            "c {i} {} {} {} {} {}\n",
            concat.comps.len(),
            width(concat.static_width),
            alignment(concat.filler_alignment),
            flag(concat.deterministic_width, "D"),
            flag(concat.guaranteed_nonzero_width, "Z"),
        );
        for comp in &concat.comps {
            lines += &component(ast, comp);
        }
    }
    lines
}

fn component(ast: &Ast, comp: &Component) -> String {
    let start = bound(comp.range.start.as_ref());
    let end = bound(comp.range.end.as_ref());
    match &comp.c_type {
        ComponentType::Literal(literal) => format!("literal {start} {end} {}\n", hex(literal)),
        ComponentType::Variable => {
            let middle = comp.mid_txt.expect("set by stage 1");
            format!("variable {start} {end} {}\n", text(ast, middle))
        }
        ComponentType::Filler => format!("filler {start} {end}\n"),
        ComponentType::Unparsed => unreachable!("stage 1 leaves none"),
    }
}

/// A bound's text and its signed number; none is `-`.
fn bound(bound: Option<&Usb>) -> String {
    bound.map_or("-".to_owned(), |b| {
        format!("{}{:+}", escaped(chars_to_string(&b.s).as_bytes()), b.x)
    })
}

/// The text below an entry of the arena.
fn text(ast: &Ast, p: PText) -> String {
    let mut chars = vec![];
    ast.chars_assign_subtree(&mut chars, p);
    escaped(chars_to_string(&chars).as_bytes())
}

/// Bytes outside 33 to 126 and the backslash become `\` and two hex digits.
fn escaped(text: &[u8]) -> String {
    let escape = |byte: &u8| match byte {
        b'\\' => "\\5c".to_owned(),
        33..=126 => char::from(*byte).to_string(),
        _ => format!("\\{byte:02x}"),
    };
    text.iter().map(escape).collect()
}

/// A literal's bytes, the highest first.
fn hex(literal: &Awi) -> String {
    let mut bytes = vec![0; literal.bw().div_ceil(8)];
    literal.to_u8_slice(&mut bytes);
    bytes.iter().rev().map(|byte| format!("{byte:02x}")).collect()
}

fn width(width: Option<NonZeroUsize>) -> String {
    width.map_or("-".to_owned(), |w| w.to_string())
}

fn flag(set: bool, name: &'static str) -> &'static str {
    if set { name } else { "-" }
}

fn alignment(align: FillerAlign) -> &'static str {
    match align {
        FillerAlign::None => "none",
        FillerAlign::Single => "single",
        FillerAlign::Lsb => "lsb",
        FillerAlign::Msb => "msb",
        FillerAlign::Mid => "mid",
        FillerAlign::Multiple => "multiple",
    }
}
