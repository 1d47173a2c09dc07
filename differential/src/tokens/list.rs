//! A flat list of tokens with its text, read as a stream: number 50.

use proc_macro2::{Delimiter, Group, Ident, Literal, Punct, TokenStream, TokenTree};

/// Bytes of a token: kind, text start, length.
pub const TOKEN: usize = 12;

/// The kinds of token; openers stand between them, in document 01's order.
pub const IDENTIFIER: u32 = 0;
pub const PUNCTUATION: u32 = 1;
pub const LITERAL: u32 = 2;
pub const CLOSER: u32 = 7;

/// The delimiters by their openers' kinds, of which the first is this.
pub const FIRST_OPENER: u32 = 3;
pub const OPENERS: [Delimiter; 4] =
    [Delimiter::None, Delimiter::Parenthesis, Delimiter::Bracket, Delimiter::Brace];

/// What is lent: a list and its text.
#[derive(Debug, Clone, Default, PartialEq, Eq, Hash)]
pub struct Lent {
    pub list: Vec<u8>,
    pub text: Vec<u8>,
}

impl Lent {
    /// The tokens as numbers; what is left over is none.
    pub fn tokens(&self) -> impl Iterator<Item = [u32; 3]> {
        let number = |four: &[u8]| u32::from_le_bytes(four.try_into().expect("four bytes"));
        self.list
            .chunks_exact(TOKEN)
            .map(move |token| [0, 4, 8].map(|at| number(&token[at..at + 4])))
    }

    /// The bytes that a token points at, if they are in the text.
    fn text_of(&self, start: u32, length: u32) -> Option<&[u8]> {
        self.text.get(start as usize..start as usize + length as usize)
    }

    pub fn push(&mut self, token: [u32; 3]) {
        self.list.extend(token.iter().flat_map(|number| number.to_le_bytes()));
    }
}

/// How the texts are given to the Rust, whose texts are characters.
#[derive(Debug, Clone, Copy, PartialEq, Eq)]
pub enum Texts {
    Utf8,
    /// A text is no UTF-8: each byte is the character of that number. The Rust
    /// looks at no character of an identifier or literal, and of punctuation
    /// whether it is `,` or `;`.
    Bytes,
}

impl Texts {
    pub fn of(lent: &Lent) -> Self {
        let utf8 = |[kind, start, length]: [u32; 3]| {
            let text = lent.text_of(start, length).unwrap_or_default();
            kind > LITERAL || str::from_utf8(text).is_ok()
        };
        if lent.tokens().all(utf8) { Texts::Utf8 } else { Texts::Bytes }
    }

    fn string(self, text: &[u8]) -> String {
        match self {
            Texts::Utf8 => str::from_utf8(text).expect("looked at before").to_owned(),
            Texts::Bytes => text.iter().map(|byte| char::from(*byte)).collect(),
        }
    }

    pub fn bytes(self, chars: &[char]) -> Vec<u8> {
        match self {
            Texts::Utf8 => chars.iter().collect::<String>().into_bytes(),
            Texts::Bytes => {
                chars.iter().map(|c| u8::try_from(*c).expect("was a byte before")).collect()
            }
        }
    }
}

/// Whether every closer closes a group and every group is closed. Asked before
/// a stream is built: one of thousands of levels could not be dropped again.
fn nested(lent: &Lent) -> bool {
    let mut open: usize = 0;
    let mut step = |[kind, ..]: [u32; 3]| {
        match kind {
            CLOSER => open = open.checked_sub(1)?,
            FIRST_OPENER..CLOSER => open += 1,
            _ => (),
        }
        Some(())
    };
    lent.tokens().try_for_each(&mut step).is_some() && open == 0
}

/// The stream that a list holds; None is number 50.
pub fn stream_of(lent: &Lent, texts: Texts) -> Option<TokenStream> {
    if !lent.list.len().is_multiple_of(TOKEN) || !nested(lent) {
        return None;
    }
    let mut outer: Vec<(Delimiter, Vec<TokenTree>)> = vec![];
    let mut trees = vec![];
    for [kind, start, length] in lent.tokens() {
        match kind {
            IDENTIFIER..=LITERAL => {
                let text = lent.text_of(start, length)?;
                if text.is_empty() || (kind == PUNCTUATION && text.len() != 1) {
                    return None;
                }
                trees.push(leaf(kind, texts.string(text)));
            }
            CLOSER => {
                let (delimiter, before) = outer.pop().expect("looked at before");
                let inside = std::mem::replace(&mut trees, before);
                let group = Group::new(delimiter, inside.into_iter().collect());
                trees.push(TokenTree::Group(group));
            }
            _ => {
                let delimiter = OPENERS.get((kind - FIRST_OPENER) as usize)?;
                outer.push((*delimiter, std::mem::take(&mut trees)));
            }
        }
    }
    Some(trees.into_iter().collect())
}

fn leaf(kind: u32, text: String) -> TokenTree {
    match kind {
        IDENTIFIER => TokenTree::Ident(Ident::new(&text)),
        LITERAL => TokenTree::Literal(Literal::new(&text)),
        _ => TokenTree::Punct(Punct::new(text.chars().next().expect("one byte"))),
    }
}
