//! What the Rust says of a run under a default (document 02, L1).
//!
//! It cannot be given one, but nearly: stage 1 takes a prefix off before it
//! reads any component, and stage 4 only sees whether there was one, for number
//! 40. So a tree without a prefix is also given to the stages with
//! `word:` put before its most significant component of concatenation 0. What
//! they then say is what the run under a default comes to, but for `=word` in
//! line 1; and it is what they say of the tree as it is, unless that is 40.
//!
//! The stages know no limit of records or text, so the tree with `word:` need
//! not be one that an image can hold. Number 8 is not judged here.

use crate::{
    Ast, chars_to_string,
    check::check,
    image::{COMPONENT_ENTRY, Comp, Item, Kind, RECORD_ENTRY, Tree},
    listing::listing,
    run::{Outcome, run, stages},
};

/// Stands for the default, before a colon.
const WORD: &str = "word";

/// How the Rust is asked, and why so.
#[derive(Debug, Clone, Copy, PartialEq, Eq, PartialOrd, Ord)]
pub enum Way {
    /// As it is: the mode or the image is wrong, no stage is run.
    BeforeStages,
    /// As it is: the default is empty, which means none.
    NoDefault,
    /// As it is: the line has a prefix, or its colon and nothing after (10).
    OwnColon,
    /// As it is: stage 1 refuses it, and would see something else behind
    /// `word:`. A lone bracket would have nothing before it because of the
    /// colon (10, not 11); `::..` would begin with one token, not two (15).
    Stage1,
    /// With `word:` before it.
    Word,
    /// With `word:` before it, and the `::` that it begins with written as one
    /// token, else the colons would pair up another way. It is the text of a
    /// variable, and stage 1 looks for no colon in it.
    WordAndPath,
}

/// Where the starting value in force stands.
#[derive(Debug, Clone, PartialEq, Eq)]
pub enum InForce {
    /// Nowhere: the run refuses.
    Nothing,
    /// In the image, at this place: the line's own prefix, also an empty one.
    Image(usize, Vec<u8>),
    /// It is the whole default, also an empty one.
    Default,
}

/// What the run under a default comes to.
pub struct Told {
    pub listing: String,
    pub in_force: InForce,
    pub way: Way,
    /// Whether 40 would be the answer without the default.
    pub lifted: bool,
}

impl Told {
    /// The starting value in force.
    pub fn value<'a>(&'a self, default: &'a [u8]) -> &'a [u8] {
        match &self.in_force {
            InForce::Nothing => &[],
            InForce::Image(_, text) => text,
            InForce::Default => default,
        }
    }
}

/// What the stages say of a tree.
struct Said {
    listing: String,
    /// The number, where it is refused.
    refused: Option<u32>,
    /// The prefix that stage 1 took off, whatever came after.
    prefix: Option<Vec<u8>>,
}

/// The prefix that stage 1 took off: how many items stand before its colon,
/// and their text.
pub fn prefix_of(ast: &Ast) -> Option<(usize, Vec<u8>)> {
    let prefix = ast.txt_init?;
    let mut chars = vec![];
    ast.chars_assign_subtree(&mut chars, prefix);
    Some((ast.txt[prefix].len(), chars_to_string(&chars).into_bytes()))
}

impl Said {
    fn of(mode: u8, tree: &Tree) -> Self {
        let (ast, ended) = stages(mode, tree);
        let prefix = prefix_of(&ast).map(|(_, text)| text);
        let outcome = Outcome::of(ast, ended);
        let refused = match &outcome {
            Outcome::Refused(refusal) => Some(refusal.number),
            _ => None,
        };
        Self { listing: listing(&outcome), refused, prefix }
    }
}

/// The mode, the image and its tree, where the stages are run.
fn admitted(input: &[u8]) -> Option<(u8, &[u8], Tree)> {
    let (mode, image) = input.split_first()?;
    let tree = check(image).ok()?;
    (*mode <= 2).then_some((*mode, image, tree))
}

/// The run of an input (a mode byte, then an image) under a default. None
/// where the Rust cannot be asked: a text is no UTF-8.
pub fn told(input: &[u8], default: &[u8]) -> Option<Told> {
    let Some((mode, image, tree)) = admitted(input) else {
        let (listing, in_force) = (listing(&run(input)), InForce::Nothing);
        return Some(Told { listing, in_force, way: Way::BeforeStages, lifted: false });
    };
    if !tree.is_utf8() {
        return None;
    }
    let said = Said::of(mode, &tree);
    let way = way(&tree, default, &said);
    let behind = matches!(way, Way::Word | Way::WordAndPath);
    let lifted = behind && said.refused == Some(40);
    let listing = match behind {
        true => agreed(lifted, said.listing, with_word(mode, &tree, way)),
        false => said.listing,
    };
    let in_force = match said.prefix {
        _ if !listing.starts_with("layout ") => InForce::Nothing,
        Some(text) => InForce::Image(place(image, &text), text),
        None => InForce::Default,
    };
    Some(Told { listing, in_force, way, lifted })
}

/// What is said with `word:`. Unless that lifts a 40, it is what is said as it
/// is. Were it not so, this file would be wrong, and nothing is guessed: what
/// is handed back is no listing.
fn agreed(lifted: bool, as_it_is: String, with_word: String) -> String {
    match lifted || as_it_is == with_word {
        true => with_word,
        false => format!("as it is:\n{as_it_is}with `{WORD}:`:\n{with_word}"),
    }
}

fn way(tree: &Tree, default: &[u8], said: &Said) -> Way {
    let in_stage1 = said.refused.is_some_and(|number| (10..20).contains(&number));
    let middle = middle(highest(tree));
    if default.is_empty() {
        Way::NoDefault
    } else if said.prefix.is_some() || said.refused == Some(10) {
        Way::OwnColon
    } else if middle.first().is_some_and(|item| !is_colon(item)) {
        Way::Word
    } else if in_stage1 {
        Way::Stage1
    } else {
        // no prefix, so a second colon follows; no filler, so it is a text
        assert!(middle.len() > 1 && middle[..2].iter().all(is_colon));
        Way::WordAndPath
    }
}

/// The most significant component of concatenation 0.
fn highest(tree: &Tree) -> &Comp {
    tree.concatenations[0].last().expect("no concatenation is empty")
}

/// A component's items without its range.
fn middle(comp: &Comp) -> &[Item] {
    match comp.items.split_last() {
        Some((Item::Group(Kind::Bracket, _), before)) => before,
        _ => &comp.items,
    }
}

fn is_colon(item: &Item) -> bool {
    *item == Item::Chars(b":".to_vec())
}

/// What the stages say of the tree with `word:` before it, the word taken out
/// of the listing again.
fn with_word(mode: u8, tree: &Tree, way: Way) -> String {
    let chars = |text: &str| Item::Chars(text.into());
    let mut tree = tree.clone();
    let items = &mut tree.concatenations[0].last_mut().expect("not empty").items;
    if way == Way::WordAndPath {
        items.splice(..2, [chars("::")]);
    }
    items.splice(..0, [chars(WORD), chars(":")]);
    let listing = Said::of(mode, &tree).listing;
    match listing.split_once('\n') {
        Some((first, rest)) => match first.strip_suffix(&format!(" ={WORD}")) {
            Some(first) => format!("{first} -\n{rest}"),
            None => listing,
        },
        None => listing,
    }
}

/// Where a prefix stands in its image: at the text of the first record of the
/// component, the records' texts being one part of the text. An empty text is
/// written as zeros (document 01, "The answer area"), so it is told to stand
/// at the text's own first byte.
fn place(image: &[u8], prefix: &[u8]) -> usize {
    let number =
        |at: usize| u32::from_le_bytes(image[at..at + 4].try_into().expect("four bytes")) as usize;
    let [concatenations, components, records, text] = [20, 24, 28, 32].map(number);
    if prefix.is_empty() {
        return text;
    }
    let below = number(concatenations) - 1;
    let record: usize = (0..below).map(|k| number(components + COMPONENT_ENTRY * k)).sum();
    let at = text + number(records + RECORD_ENTRY * record + 4);
    assert_eq!(image[at..at + prefix.len()], *prefix, "the prefix is not where it should be");
    at
}
