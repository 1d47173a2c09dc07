//! The whole run: the mode, the image check, the stages in turn. (The area of
//! number 8 is no part of this program.)

use std::{
    any::Any,
    cell::Cell,
    panic::{self, AssertUnwindSafe},
    sync::Once,
};

use crate::{
    Ast, CCMacroError,
    ast::{OwnFault, answer_literals, ast_of},
    check::check,
    image::Tree,
    refusal::{Refusal, refusal_of},
    stage1, stage2, stage3, stage4, stage5,
};

/// A program looks at no more bytes of its input than these.
pub const MAX_INPUT: usize = 51_306;

pub enum Outcome {
    Accepted(Box<Ast>),
    Refused(Refusal),
    /// A text that is no UTF-8: outside the domain of equality.
    Outside,
    /// The sources panicked in this stage, and it is not number 34.
    Panicked(u8),
}

/// Runs an input: a mode byte, then an image.
pub fn run(input: &[u8]) -> Outcome {
    let input = &input[..input.len().min(MAX_INPUT)];
    let (mode, image) = match input.split_first() {
        None => return Outcome::Refused(Refusal::plain(2)),
        Some((mode, _)) if *mode > 2 => return Outcome::Refused(Refusal::plain(1)),
        Some((mode, image)) => (*mode, image),
    };
    let tree = match check(image) {
        Ok(tree) => tree,
        Err(refusal) => return Outcome::Refused(refusal),
    };
    if !tree.is_utf8() {
        return Outcome::Outside;
    }
    let (ast, ended) = stages(mode, &tree);
    Outcome::of(ast, ended)
}

impl Outcome {
    /// What the stages came to.
    pub fn of(ast: Ast, ended: Result<(), Stopped>) -> Self {
        match ended {
            Ok(()) => Outcome::Accepted(Box::new(ast)),
            Err(Stopped::Refused(refusal)) => Outcome::Refused(refusal),
            Err(Stopped::Panicked(stage)) => Outcome::Panicked(stage),
        }
    }
}

/// Why the stages did not come to their end.
pub enum Stopped {
    Refused(Refusal),
    /// The sources panicked in this stage, and it is not number 34.
    Panicked(u8),
}

/// The stages in turn over a tree whose texts are UTF-8, of any size; also how
/// they left it.
pub fn stages(mode: u8, tree: &Tree) -> (Ast, Result<(), Stopped>) {
    let mut ast = ast_of(tree);
    answer_literals(tree, &ast);
    for stage in 1..=5 {
        let stopped = match run_stage(stage, mode, &mut ast) {
            Ok(Ok(())) => continue,
            Ok(Err(error)) => Stopped::Refused(refusal_of(stage, &error, &ast)),
            Err(Panic) if stage == 3 => {
                Stopped::Refused(Refusal { number: 34, places: (panicked(&ast), 0) })
            }
            Err(Panic) => Stopped::Panicked(stage),
        };
        return (ast, Err(stopped));
    }
    (ast, Ok(()))
}

/// The sources panicked.
struct Panic;

/// Calls one stage, catching a panic of the sources but none of our own.
fn run_stage(stage: u8, mode: u8, ast: &mut Ast) -> Result<Result<(), CCMacroError>, Panic> {
    let return_type = (mode > 0).then_some("Awi");
    let call = || match stage {
        1 => stage1(ast),
        2 => stage2(ast),
        3 => stage3(ast),
        4 => stage4(ast, &return_type, mode == 2),
        _ => {
            stage5(ast);
            Ok(())
        }
    };
    quietly(call).map_err(|payload| match payload.downcast::<OwnFault>() {
        Ok(fault) => panic!("stage {stage}: {}", fault.0),
        Err(_) => Panic,
    })
}

/// The concatenation in which stage 3 panicked (34).
///
/// `check` first sets `deterministic_width` and unsets it only at an unbounded
/// filler. It panics only while the sum is still known, so before any
/// unbounded filler: the panicking concatenation has the flag. Those after it
/// were not begun and have the default, false. So it is the last with the flag.
fn panicked(ast: &Ast) -> usize {
    let flagged = ast.cc.iter().rposition(|concat| concat.deterministic_width);
    flagged.expect("stage 3 panicked outside the sum of widths")
}

/// Calls the sources; where they panic nothing is printed.
pub fn quietly<T>(call: impl FnOnce() -> T) -> Result<T, Box<dyn Any + Send>> {
    quieten_stages();
    IN_STAGE.set(true);
    let done = panic::catch_unwind(AssertUnwindSafe(call));
    IN_STAGE.set(false);
    done
}

thread_local! {
    static IN_STAGE: Cell<bool> = const { Cell::new(false) };
}

/// A panic inside a stage is an outcome and prints nothing; any other is as
/// loud as ever.
fn quieten_stages() {
    static ONCE: Once = Once::new();
    ONCE.call_once(|| {
        let loud = panic::take_hook();
        panic::set_hook(Box::new(move |info| {
            if !IN_STAGE.get() {
                loud(info);
            }
        }));
    });
}
