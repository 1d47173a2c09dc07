//! String and character literals, prefixed and raw ones included, as the Rust
//! reads them. A lifetime (`'a`) has no use in a line and is refused as a quote
//! that is not closed.

/// What is wrong with a quote, and how many bytes of the text show it.
pub type Wrong = (&'static str, usize);

const NOT_CLOSED: &str = "a quote that is not closed";

/// The length of the quoted literal at the front of a text; nothing where none
/// begins there.
pub fn quoted_length(text: &str) -> Result<Option<usize>, Wrong> {
    for prefix in ["br", "cr", "r"] {
        if let Some(rest) = text.strip_prefix(prefix)
            && let hashes = rest.len() - rest.trim_start_matches('#').len()
            && rest[hashes..].starts_with('"')
        {
            let end = format!("\"{}", "#".repeat(hashes));
            let inside = prefix.len() + hashes + 1;
            let at = text[inside..].find(&end).ok_or((NOT_CLOSED, inside))?;
            return Ok(Some(inside + at + end.len()));
        }
    }
    let rest = text.strip_prefix(['b', 'c']).unwrap_or(text);
    let prefix = text.len() - rest.len();
    let length = match rest.chars().next() {
        Some('"') => string_length(rest),
        Some('\'') => character_length(rest),
        _ => return Ok(None),
    };
    match length {
        Ok(length) => Ok(Some(prefix + length)),
        Err((words, length)) => Err((words, prefix + length)),
    }
}

/// A string from its first `"` to its last.
fn string_length(text: &str) -> Result<usize, Wrong> {
    let mut chars = text.char_indices().skip(1);
    while let Some((at, c)) = chars.next() {
        match c {
            '"' => return Ok(at + 1),
            '\\' => drop(chars.next()),
            _ => (),
        }
    }
    Err((NOT_CLOSED, 1))
}

/// A character between `'` and `'`: one, or one escape.
fn character_length(text: &str) -> Result<usize, Wrong> {
    let inside = &text[1..];
    let Some(first) = inside.chars().next() else { return Err((NOT_CLOSED, 1)) };
    if first == '\'' {
        return Err(("a quote with nothing in it", 2));
    }
    let escaped = if first == '\\' { inside[1..].chars().next() } else { None };
    let begun = first.len_utf8() + escaped.map_or(0, char::len_utf8);
    // after an escape's letter: the digits of `\x41` and `\u{e9}`
    let digits = |c: char| c.is_ascii_hexdigit() || matches!(c, '{' | '}' | '_');
    let after = match escaped {
        Some('x' | 'u') => inside[begun..].trim_start_matches(digits),
        _ => &inside[begun..],
    };
    if after.starts_with('\'') {
        return Ok(text.len() - after.len() + 1);
    }
    let word = |c: char| c.is_alphanumeric() || c == '_';
    let rest = after.trim_start_matches(word);
    if rest.starts_with('\'') {
        return Err(("more than one character between `'` and `'`", text.len() - rest.len() + 1));
    }
    Err((NOT_CLOSED, 1))
}
