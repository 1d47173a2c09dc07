//! A text cut into tokens with their places, as the Rust's tokens are, plus our
//! marks.

use std::ops::Range;

use crate::{fault::Fault, image::Kind, quotes::quoted_length};

#[derive(Debug, Clone, PartialEq, Eq)]
pub enum Token {
    Ident(String),
    Punct(char),
    Literal(String),
    Open(Kind),
    Close(Kind),
    /// `«...»`: one record.
    Record(Vec<u8>),
    /// `⟦width:hex⟧`: the component's literal, lowest byte first.
    Bits(usize, Vec<u8>),
}

/// A token and the bytes of the text it was read from.
#[derive(Debug, Clone, PartialEq, Eq)]
pub struct Placed {
    pub token: Token,
    pub place: Range<usize>,
}

/// What some editors put first in a file; the Rust passes over it too.
pub const BYTE_ORDER_MARK: char = '\u{feff}';

/// Cuts a text into tokens. White space parts tokens and is dropped; a comment
/// and a quote that cannot be read are refused.
pub fn tokens(text: &str) -> Result<Vec<Placed>, Fault> {
    let mut tokens = vec![];
    let mut rest = text.strip_prefix(BYTE_ORDER_MARK).unwrap_or(text).trim_start();
    while let Some(first) = rest.chars().next() {
        let start = text.len() - rest.len();
        let (token, length) =
            next(rest, first).map_err(|(words, length)| Fault::at(start..start + length, words))?;
        tokens.push(Placed { token, place: start..start + length });
        rest = rest[length..].trim_start();
    }
    Ok(tokens)
}

/// What is wrong with a token, and how many bytes of the text show it.
type Wrong = (String, usize);

/// The token at the front of a non-empty text, and its length.
fn next(rest: &str, first: char) -> Result<(Token, usize), Wrong> {
    match first {
        '«' => return marked(rest, '«', '»', |inside| unescaped(inside).map(Token::Record)),
        '⟦' => return marked(rest, '⟦', '⟧', bits),
        _ => (),
    }
    if let Some(length) = comment_length(rest) {
        return Err(("a comment: a line has none".to_owned(), length));
    }
    if let Some(token) = delimiter(first) {
        return Ok((token, first.len_utf8()));
    }
    let quoted = quoted_length(rest).map_err(|(words, length)| (words.to_owned(), length))?;
    Ok(if let Some(length) = quoted {
        (Token::Literal(rest[..length].to_owned()), length)
    } else if first.is_ascii_digit() {
        let length = number_length(rest);
        (Token::Literal(rest[..length].to_owned()), length)
    } else if is_word(first) {
        let length = ident_length(rest);
        (Token::Ident(rest[..length].to_owned()), length)
    } else {
        (Token::Punct(first), first.len_utf8())
    })
}

/// A comment up to the end of its line, or to its closing mark.
fn comment_length(rest: &str) -> Option<usize> {
    if rest.starts_with("//") {
        return Some(rest.lines().next().map_or(2, |line| line.trim_end().len()));
    }
    let inside = rest.strip_prefix("/*")?;
    Some(inside.find("*/").map_or(2, |at| at + 4))
}

fn delimiter(first: char) -> Option<Token> {
    Some(match first {
        '⟨' => Token::Open(Kind::Space),
        '⟩' => Token::Close(Kind::Space),
        '(' => Token::Open(Kind::Parenthesis),
        ')' => Token::Close(Kind::Parenthesis),
        '[' => Token::Open(Kind::Bracket),
        ']' => Token::Close(Kind::Bracket),
        '{' => Token::Open(Kind::Brace),
        '}' => Token::Close(Kind::Brace),
        _ => return None,
    })
}

pub fn is_word(c: char) -> bool {
    c.is_alphanumeric() || c == '_'
}

fn word_length(text: &str) -> usize {
    text.find(|c| !is_word(c)).unwrap_or(text.len())
}

/// An identifier, raw ones included.
fn ident_length(text: &str) -> usize {
    match text.strip_prefix("r#") {
        Some(raw) if raw.starts_with(is_word) => 2 + word_length(raw),
        _ => word_length(text),
    }
}

/// A number with its suffix. A dot belongs to it unless a second dot or a name
/// follows, and so does the sign of a decimal exponent.
fn number_length(text: &str) -> usize {
    let mut length = word_length(text);
    if ["0x", "0o", "0b"].iter().any(|prefix| text.starts_with(prefix)) {
        return length;
    }
    if let Some(fraction) = text[length..].strip_prefix('.')
        && !fraction.starts_with(|c: char| c == '.' || (is_word(c) && !c.is_ascii_digit()))
    {
        length += 1 + word_length(fraction);
    }
    if text[..length].ends_with(['e', 'E'])
        && let Some(exponent) = text[length..].strip_prefix(['+', '-'])
        && exponent.starts_with(|c: char| c.is_ascii_digit())
    {
        length += 1 + word_length(exponent);
    }
    length
}

/// A token written between two marks.
fn marked(
    rest: &str,
    open: char,
    close: char,
    read: impl Fn(&str) -> Result<Token, String>,
) -> Result<(Token, usize), Wrong> {
    let inside = &rest[open.len_utf8()..];
    let end =
        inside.find(close).ok_or_else(|| (format!("no {close} after {open}"), open.len_utf8()))?;
    let length = open.len_utf8() + end + close.len_utf8();
    let token = read(&inside[..end]).map_err(|words| (words, length))?;
    Ok((token, length))
}

fn unescaped(text: &str) -> Result<Vec<u8>, String> {
    let mut parts = text.split('\\');
    let mut bytes = parts.next().unwrap_or_default().as_bytes().to_vec();
    for part in parts {
        let digits = "two hex digits stand after \\";
        let (hex, rest) = part.split_at_checked(2).ok_or(digits)?;
        let hex = Some(hex).filter(|hex| !hex.starts_with('+')).ok_or(digits)?;
        bytes.push(u8::from_str_radix(hex, 16).map_err(|_| digits)?);
        bytes.extend(rest.as_bytes());
    }
    if bytes.is_empty() {
        return Err("an image holds no empty record".to_owned());
    }
    Ok(bytes)
}

fn bits(text: &str) -> Result<Token, String> {
    let (width, hex) = text.split_once(':').ok_or("no colon between ⟦ and ⟧")?;
    let width = Some(width).filter(|width| !width.starts_with('+')).ok_or("no width after ⟦")?;
    let width: u32 = width.parse().map_err(|_| "no width after ⟦")?;
    let digit = |c: char| c.to_digit(16).map(|d| d as u8).ok_or("no hex between ⟦ and ⟧");
    let digits = hex.chars().rev().map(digit).collect::<Result<Vec<u8>, _>>()?;
    let byte = |pair: &[u8]| pair[0] | pair.get(1).unwrap_or(&0) << 4;
    Ok(Token::Bits(width as usize, digits.chunks(2).map(byte).collect()))
}
