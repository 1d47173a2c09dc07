//! From a text to a tree with places, and to an image. Records are made as the
//! crate's token_stream.rs makes them.

use std::ops::Range;

use crate::{
    fault::Fault,
    image::{Comp, Item, Kind, Tree, image_of},
    lexer::{Placed, Token, tokens},
    literal::read_literal,
};

/// A text's tree, and where in the text each part of it stands.
#[derive(Debug, Clone, Default, PartialEq, Eq)]
pub struct Line {
    pub tree: Tree,
    /// Bytes of each component, indexed as in the tree.
    pub components: Vec<Vec<Range<usize>>>,
    /// Bytes of each concatenation.
    pub concatenations: Vec<Range<usize>>,
}

/// A mode byte and the image of a text.
pub fn encode(mode: u8, text: &str) -> Result<Vec<u8>, Fault> {
    let mut input = vec![mode];
    input.extend(image_of(&tree_of(text)?));
    Ok(input)
}

/// The tree of a text.
pub fn tree_of(text: &str) -> Result<Tree, Fault> {
    Ok(read_line(text)?.tree)
}

/// The tree of a text, with places.
pub fn read_line(text: &str) -> Result<Line, Fault> {
    let tokens = tokens(text)?;
    if tokens.is_empty() {
        return Err(Fault { words: NO_LINE.to_owned(), places: vec![] });
    }
    check_groups(&tokens)?;
    check_components(&tokens)?;
    let mut line = Line::default();
    for (i, concat) in split(&tokens, ';').into_iter().enumerate() {
        let (mut comps, mut places) = (vec![], vec![]);
        for (j, part) in split(concat, ',').into_iter().enumerate() {
            comps.push(component(part, i == 0 && j == 0)?);
            places.push(place_of(part));
        }
        comps.reverse();
        places.reverse();
        line.tree.concatenations.push(comps);
        line.components.push(places);
        line.concatenations.push(place_of(concat));
    }
    Ok(line)
}

const NO_LINE: &str = "there is no line, or nothing but white space";

/// From the first token to the last; there is one.
fn place_of(tokens: &[Placed]) -> Range<usize> {
    tokens[0].place.start..tokens[tokens.len() - 1].place.end
}

/// More openers than the records of any image; a bound for our own recursion.
const MOST_NESTED: usize = 1_024;

/// Every group is closed, by its own closer.
fn check_groups(tokens: &[Placed]) -> Result<(), Fault> {
    let mut open = vec![];
    for Placed { token, place } in tokens {
        match token {
            Token::Open(_) if open.len() == MOST_NESTED => {
                return Err(Fault::at(place.clone(), "more than 1,024 groups in each other"));
            }
            Token::Open(kind) => open.push((*kind, place)),
            Token::Close(kind) => match open.pop() {
                None => {
                    let words = format!("`{}` closes nothing", marks(*kind).1);
                    return Err(Fault::at(place.clone(), words));
                }
                Some((opened, at)) if opened != *kind => {
                    let (open, close) = marks(opened);
                    let words =
                        format!("`{open}` is closed by `{}`, not `{close}`", marks(*kind).1);
                    return Err(Fault::between(at.clone(), place.clone(), words));
                }
                Some(_) => (),
            },
            _ => (),
        }
    }
    match open.pop() {
        None => Ok(()),
        Some((kind, at)) => {
            Err(Fault::at(at.clone(), format!("`{}` is not closed", marks(kind).0)))
        }
    }
}

/// The characters that open and close a group in a text.
fn marks(kind: Kind) -> (char, char) {
    match kind {
        Kind::Space => ('⟨', '⟩'),
        _ => {
            let (open, close) = kind.delimiters();
            (open.into(), close.into())
        }
    }
}

/// Something stands before, between and after the commas and semicolons that
/// stand in no group. (token_stream.rs makes an empty component of nothing, on
/// which stage 1 panics; an image holds none.)
fn check_components(tokens: &[Placed]) -> Result<(), Fault> {
    let mut before: Option<&Placed> = None;
    let mut depth = 0;
    let mut empty = true;
    for placed in tokens {
        match placed.token {
            Token::Open(_) => depth += 1,
            Token::Close(_) => depth -= 1,
            Token::Punct(',' | ';') if depth == 0 => {
                if empty {
                    return Err(empty_component(before, Some(placed)));
                }
                (before, empty) = (Some(placed), true);
                continue;
            }
            _ => (),
        }
        empty = false;
    }
    if empty { Err(empty_component(before, None)) } else { Ok(()) }
}

fn empty_component(before: Option<&Placed>, after: Option<&Placed>) -> Fault {
    let mark = |placed: &Placed| if placed.token == Token::Punct(';') { "`;`" } else { "`,`" };
    let (words, marked) = match (before, after) {
        (Some(before), Some(after)) => {
            let words = format!("nothing stands between {} and {}", mark(before), mark(after));
            (words, vec![before, after])
        }
        (None, Some(after)) => (format!("nothing stands before {}", mark(after)), vec![after]),
        (Some(before), None) => (format!("nothing stands after {}", mark(before)), vec![before]),
        (None, None) => (NO_LINE.to_owned(), vec![]),
    };
    Fault { words, places: marked.into_iter().map(|placed| placed.place.clone()).collect() }
}

/// Cuts tokens at a mark that stands in no group.
fn split(tokens: &[Placed], mark: char) -> Vec<&[Placed]> {
    let mut depth = 0;
    let outside_groups = |placed: &Placed| {
        match placed.token {
            Token::Open(_) => depth += 1,
            Token::Close(_) => depth -= 1,
            _ => (),
        }
        depth == 0 && placed.token == Token::Punct(mark)
    };
    tokens.split(outside_groups).collect()
}

fn component(tokens: &[Placed], may_have_prefix: bool) -> Result<Comp, Fault> {
    let (left, bits) = match tokens {
        [left @ .., Placed { token: Token::Bits(width, bits), .. }] => {
            (left, Some((*width, bits.clone())))
        }
        _ => (tokens, None),
    };
    let items = items(&mut left.iter())?;
    if items.is_empty() {
        return Err(Fault::at(place_of(tokens), "nothing stands before ⟦ ⟧"));
    }
    let (width, bits) = match bits {
        Some(given) => given,
        None => literal_of(&items, may_have_prefix).unwrap_or_default(),
    };
    Ok(Comp { items, width, bits })
}

/// The items up to the next closer, or to the end.
fn items(left: &mut std::slice::Iter<Placed>) -> Result<Vec<Item>, Fault> {
    let mut items = vec![];
    let mut after_ident = false;
    while let Some(Placed { token, place }) = left.next() {
        match token {
            Token::Close(_) => break,
            Token::Bits(..) => {
                return Err(Fault::at(place.clone(), "⟦ ⟧ stands only at a component's end"));
            }
            Token::Ident(name) => match items.last_mut() {
                Some(Item::Chars(text)) if after_ident => {
                    text.push(b' ');
                    text.extend(name.as_bytes());
                }
                _ => items.push(Item::Chars(name.clone().into_bytes())),
            },
            Token::Punct(c) => items.push(Item::Chars(c.to_string().into_bytes())),
            Token::Literal(text) => items.push(Item::Chars(text.clone().into_bytes())),
            Token::Record(text) => items.push(Item::Chars(text.clone())),
            Token::Open(kind) => items.push(Item::Group(*kind, self::items(left)?)),
        }
        after_ident = matches!(token, Token::Ident(_));
    }
    Ok(items)
}

/// Width and bits where the middle, without prefix and range, is a literal
/// that our reader knows.
pub fn literal_of(items: &[Item], may_have_prefix: bool) -> Option<(usize, Vec<u8>)> {
    read_literal(&middle_text(items, may_have_prefix)?)
}

/// The text of a component without prefix and range; nothing where it has a
/// group.
pub fn middle_text(items: &[Item], may_have_prefix: bool) -> Option<String> {
    let mut middle = match items {
        [middle @ .., Item::Group(Kind::Bracket, _)] => middle,
        _ => items,
    };
    if may_have_prefix && let Some(colon) = single_colon(middle) {
        middle = &middle[colon + 1..];
    }
    let mut text = vec![];
    for item in middle {
        match item {
            Item::Chars(chars) => text.extend(chars),
            Item::Group(..) => return None,
        }
    }
    String::from_utf8(text).ok()
}

/// The first lone colon; the two of `::` are passed over together.
pub fn single_colon(items: &[Item]) -> Option<usize> {
    let is_colon = |i: usize| matches!(items.get(i), Some(Item::Chars(c)) if c == b":");
    let mut i = 0;
    while i < items.len() {
        match (is_colon(i), is_colon(i + 1)) {
            (true, false) => return Some(i),
            (true, true) => i += 2,
            _ => i += 1,
        }
    }
    None
}
