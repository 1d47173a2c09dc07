//! A layout editor's tokens, as `tokens` takes them.

use crate::TOKEN_SIZE;

/// What a token is, in the order of the numbers 0 to 7.
#[derive(Debug, Clone, Copy, PartialEq, Eq, Hash)]
pub enum TokenKind {
    Identifier,
    /// One byte. Outside all groups `,` ends a component, and `;` a
    /// concatenation too.
    Punctuation,
    Literal,
    /// Opens a group without delimiters.
    Space,
    /// Opens a group in parentheses.
    Parenthesis,
    /// Opens a group in brackets.
    Bracket,
    /// Opens a group in braces.
    Brace,
    /// Closes the innermost open group, of whatever kind.
    Closer,
}

/// One token: its kind, and where its text stands in the text that is lent with
/// the list. Texts may overlap, repeat and stand in any order.
#[derive(Debug, Clone, Copy, PartialEq, Eq, Hash)]
pub struct Token {
    pub kind: TokenKind,
    pub start: u32,
    pub length: u32,
}

impl Token {
    /// An identifier, punctuation or a literal.
    pub const fn new(kind: TokenKind, start: u32, length: u32) -> Self {
        Self { kind, start, length }
    }

    /// An opener or a closer, whose start and length are not looked at.
    pub const fn group(kind: TokenKind) -> Self {
        Self::new(kind, 0, 0)
    }

    /// Its bytes in a list: kind, start and length, little-endian.
    pub fn to_bytes(self) -> [u8; TOKEN_SIZE] {
        let mut bytes = [0; TOKEN_SIZE];
        let numbers = [self.kind as u32, self.start, self.length];
        for (four, number) in bytes.chunks_exact_mut(4).zip(numbers) {
            four.copy_from_slice(&number.to_le_bytes());
        }
        bytes
    }
}
