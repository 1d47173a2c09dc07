//! Refusals: document 01's numbers and places, and how the sources' errors
//! become them.

use crate::{Ast, CCMacroError, PText, Text};

/// A number and two places: concatenation and component, 0 where none.
#[derive(Debug, Clone, Copy, PartialEq, Eq)]
pub struct Refusal {
    pub number: u32,
    pub places: (usize, usize),
}

impl Refusal {
    /// A refusal that points at no place.
    pub fn plain(number: u32) -> Self {
        Self { number, places: (0, 0) }
    }
}

/// Where an error's places come from.
#[derive(Clone, Copy)]
enum Places {
    /// The component whose text holds the error's pointer.
    Component,
    /// The concatenation that the error points at, and 0.
    Concatenation,
    /// The two concatenation numbers in the message.
    Named,
    None,
}

/// A part of each message, by the stage that gives it. The message of 17 ends
/// in text of the image, so it is recognised by its beginning and stands first.
const MESSAGES: [(u8, &str, u32, Places); 27] = [
    (1, "was parsed with", 17, Places::Component),
    (1, "followed by empty component", 10, Places::Component),
    (1, "no preceeding bits", 11, Places::Component),
    (1, "range is empty", 12, Places::Component),
    (1, "encountered two top level", 13, Places::Component),
    (1, "deprecated \"...\"", 14, Places::Component),
    (1, "bounds of ranges need to be", 15, Places::Component),
    (1, "i128 overflow", 16, Places::Component),
    (2, "i128 overflow", 20, Places::Component),
    (2, "negative bound", 21, Places::Component),
    (2, "reversed range", 22, Places::Component),
    (2, "zero bitwidth range", 23, Places::Component),
    (2, "start of range (", 24, Places::Component),
    (2, "end of range (", 25, Places::Component),
    (2, "width of range (", 26, Places::Component),
    (2, "`NonZeroUsize::new` overflow", 27, Places::Component),
    (2, "filler with a bounded start", 28, Places::Component),
    (3, "cannot have literals", 30, Places::Component),
    (3, "only an unbounded filler", 31, Places::Concatenation),
    (3, "more than one unbounded filler", 32, Places::Component),
    (3, "has zero width", 33, Places::Concatenation),
    (4, "have unequal bitwidths", 41, Places::Named),
    (4, "unspecified initialization", 40, Places::Component),
    (4, "construction macros need at least", 42, Places::None),
    (4, "only a source concatenation", 43, Places::None),
    (4, "filler in the middle", 44, Places::Component),
    (4, "aligned opposite each other", 45, Places::Named),
];

/// The refusal that an error of a stage stands for.
///
/// # Panics
///
/// On a message that is not in the table, or whose place cannot be found: that
/// is a mistake in this program, and nothing is guessed.
pub fn refusal_of(stage: u8, error: &CCMacroError, ast: &Ast) -> Refusal {
    let fits = |number: u32, part: &str| match number {
        17 => error.error.starts_with(part),
        _ => error.error.contains(part),
    };
    let (_, _, number, places) = MESSAGES
        .into_iter()
        .find(|&(of, part, number, _)| of == stage && fits(number, part))
        .unwrap_or_else(|| panic!("stage {stage}: unknown error: {}", error.error));
    let places = match places {
        Places::None => Some((0, 0)),
        Places::Named => named_places(&error.error),
        Places::Component => component_of(ast, error.red_text[0]),
        Places::Concatenation => concatenation_of(ast, error.red_text[0]).map(|i| (i, 0)),
    };
    let places = places.unwrap_or_else(|| panic!("stage {stage}: no place for: {}", error.error));
    Refusal { number, places }
}

/// The first two numbers after the word "concatenations".
fn named_places(message: &str) -> Option<(usize, usize)> {
    let (_, rest) = message.split_once("concatenations ")?;
    let mut numbers = rest.split(' ').filter_map(|word| word.parse().ok());
    Some((numbers.next()?, numbers.next()?))
}

/// The component under whose text the pointer stands. The whole subtree is
/// searched, because reading a range makes new entries below the component's.
fn component_of(ast: &Ast, sought: PText) -> Option<(usize, usize)> {
    ast.cc.iter().enumerate().find_map(|(i, concat)| {
        let holds = |comp: &crate::Component| holds(ast, comp.txt, sought);
        concat.comps.iter().position(holds).map(|j| (i, j))
    })
}

fn concatenation_of(ast: &Ast, sought: PText) -> Option<usize> {
    ast.cc.iter().position(|concat| concat.txt == sought)
}

fn holds(ast: &Ast, from: PText, sought: PText) -> bool {
    let below = |text: &Text| match text {
        Text::Group(_, p) => holds(ast, *p, sought),
        Text::Chars(_) => false,
    };
    from == sought || ast.txt[from].iter().any(below)
}
