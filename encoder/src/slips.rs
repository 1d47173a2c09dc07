//! Slips in a component that are read as something else than was meant, a
//! sentence for each.

use crate::{
    image::{Comp, Item, Kind},
    lexer::is_word,
    line::single_colon,
    literal::read_literal,
    show::printable,
};

/// All but `one_bit`, which also depends on the widths.
pub const SLIPS: [fn(&Comp) -> Option<String>; 6] = [
    range_in_parentheses,
    range_in_the_middle,
    range_without_dots,
    range_without_bracket,
    inclusive_without_end,
    side_by_side,
];

/// `a(..8)`: a group with dots, and no comma, directly after a word, in a
/// component without a range.
fn range_in_parentheses(comp: &Comp) -> Option<String> {
    if matches!(comp.items.last()?, Item::Group(Kind::Bracket, _)) {
        return None;
    }
    let found = comp.items.windows(2).find(|pair| match pair {
        [word, Item::Group(Kind::Parenthesis | Kind::Brace, inside)] => {
            begins_a_name(word) && has_dots(inside) && !inside.iter().any(|item| is(item, ","))
        }
        _ => false,
    })?;
    Some(format!("`{}` is a name: a range stands in square brackets", written(found)))
}

/// `a[..8] b`: a range that is not the component's last group.
fn range_in_the_middle(comp: &Comp) -> Option<String> {
    let (_, before_last) = after_prefix(comp).split_last()?;
    let is_range =
        |item: &&Item| matches!(item, Item::Group(Kind::Bracket, inside) if has_dots(inside));
    let found = before_last.iter().find(is_range)?;
    let group = written_one(found);
    Some(format!("`{group}` is part of a name, for more follows it: is a `,` missing after it?"))
}

/// `a[8]`: bit 8 alone.
pub fn one_bit(comp: &Comp) -> Option<String> {
    let Some(Item::Group(Kind::Bracket, inside)) = comp.items.last() else { return None };
    let [Item::Chars(number)] = &inside[..] else { return None };
    let number: u32 = str::from_utf8(number).ok()?.parse().ok()?;
    let bits = if number == 1 { "1 bit is".to_owned() } else { format!("{number} bits are") };
    (number > 0).then(|| format!("`[{number}]` is one bit, bit {number}; {bits} `[..{number}]`"))
}

/// `a[5..=]`: from 5 with no end.
fn inclusive_without_end(comp: &Comp) -> Option<String> {
    let range = match comp.items.last()? {
        Item::Group(Kind::Bracket, inside) => inside,
        _ => &comp.items,
    };
    match &range[..] {
        [.., a, b, c] if is(a, ".") && is(b, ".") && is(c, "=") => {
            Some("`..=` with nothing after it is a range without an end".to_owned())
        }
        _ => None,
    }
}

/// `a[7:0]`, `a[0-8]`, `a[0,8]`, `a[0 8]`: without dots it is one bit.
fn range_without_dots(comp: &Comp) -> Option<String> {
    let Some(Item::Group(Kind::Bracket, inside)) = comp.items.last() else { return None };
    let number = |item: &Item| matches!(item, Item::Chars(chars) if chars.first().is_some_and(u8::is_ascii_digit));
    let between = match &inside[..] {
        [a, minus, b] => is(minus, "-") && number(a) && number(b),
        _ => false,
    };
    let parted = single_colon(inside).is_some() || inside.iter().any(|item| is(item, ","));
    let numbers = inside.windows(2).any(|pair| number(&pair[0]) && number(&pair[1]));
    if has_dots(inside) || !(between || parted || numbers) {
        return None;
    }
    let group = written_one(comp.items.last()?);
    Some(format!("`{group}` is one bit: a range has two dots, as in `[0..8]`"))
}

/// `a..8`: a filler from `a` to 8.
fn range_without_bracket(comp: &Comp) -> Option<String> {
    let items = after_prefix(comp);
    if matches!(items.last()?, Item::Group(Kind::Bracket, _)) {
        return None;
    }
    let at = items.windows(2).position(|pair| is(&pair[0], ".") && is(&pair[1], "."))?;
    let (name, range) = items.split_at(at);
    if !name.first().is_some_and(begins_a_name) {
        return None;
    }
    let (name, range) = (written(name), written(range));
    Some(format!(
        "`{name}{range}` is a filler; a variable's range has brackets, as in `{name}[{range}]`"
    ))
}

/// `a b`, `a 5u8`, `f(x) b`: one name.
fn side_by_side(comp: &Comp) -> Option<String> {
    // `5 u8` is a literal
    if comp.width > 0 {
        return None;
    }
    let names = comp.items.iter().find_map(|item| match item {
        Item::Chars(text) if text.contains(&b' ') && words(text)?.len() > 1 => {
            Some(written_one(item))
        }
        _ => None,
    });
    let pair = || {
        let ends = |item: &Item| match item {
            Item::Chars(text) => words(text).is_some(),
            Item::Group(kind, inside) => !(*kind == Kind::Bracket && has_dots(inside)),
        };
        let follows = |item: &Item| matches!(item, Item::Chars(text) if words(text).is_some());
        let at = comp.items.windows(2).position(|pair| ends(&pair[0]) && follows(&pair[1]))?;
        let (before, after) = comp.items.split_at(at + 1);
        Some(format!("{} {}", written(before), written_one(&after[0])))
    };
    let shown = names.or_else(pair)?;
    Some(format!("`{shown}` is one name: is a `,` missing in it?"))
}

/// `5u8 a`: whether a whole literal stands first, and more than its range after
/// it.
pub fn literal_and_more(comp: &Comp) -> bool {
    let items = after_prefix(comp);
    let minus = items.first().is_some_and(|item| is(item, "-"));
    let [Item::Chars(digits), rest @ ..] = &items[usize::from(minus)..] else { return false };
    let text = [if minus { "-" } else { "" }, &String::from_utf8_lossy(digits)].concat();
    read_literal(&text).is_some() && !matches!(rest, [] | [Item::Group(Kind::Bracket, _)])
}

/// Words of the Rust's own that may stand beside a name.
const KEYWORDS: [&str; 12] =
    ["as", "const", "dyn", "else", "if", "in", "let", "match", "move", "mut", "ref", "unsafe"];

/// The words of a record that is made of words, none of them the Rust's own.
fn words(text: &[u8]) -> Option<Vec<&str>> {
    let text = str::from_utf8(text).ok()?;
    let words: Vec<&str> = text.split(' ').collect();
    let is_name = |word: &&str| {
        let name = word.strip_prefix("r#").unwrap_or(word);
        !name.is_empty() && name.chars().all(is_word) && !KEYWORDS.contains(word)
    };
    words.iter().all(is_name).then_some(words)
}

/// Characters that word processors and other keyboards put in the place of
/// ours, and what was meant.
const LOOK_ALIKES: [(&str, &str); 16] = [
    ("‥", ".."),
    ("–", "-"),
    ("—", "-"),
    ("−", "-"),
    ("－", "-"),
    ("“", "\""),
    ("”", "\""),
    ("„", "\""),
    ("‘", "'"),
    ("’", "'"),
    ("，", ","),
    ("；", ";"),
    ("：", ":"),
    ("．", "."),
    ("［", "["),
    ("］", "]"),
];

/// Every such character that is a token of its own.
pub fn look_alikes(items: &[Item]) -> Vec<String> {
    let said = |item: &Item| match item {
        Item::Group(_, inside) => look_alikes(inside),
        _ if is(item, "…") => {
            vec!["`…` is one character and part of a name: a range has two dots, `..`".to_owned()]
        }
        _ => {
            let found = LOOK_ALIKES.iter().filter(|(other, _)| is(item, other));
            found
                .map(|(other, ours)| format!("`{other}` is part of a name: it is not `{ours}`"))
                .collect()
        }
    };
    items.iter().flat_map(said).collect()
}

/// A component's items without a starting value and its colon.
fn after_prefix(comp: &Comp) -> &[Item] {
    &comp.items[single_colon(&comp.items).map_or(0, |at| at + 1)..]
}

fn is(item: &Item, text: &str) -> bool {
    matches!(item, Item::Chars(chars) if chars == text.as_bytes())
}

fn begins_a_name(item: &Item) -> bool {
    let begins = |b: &u8| b.is_ascii_alphabetic() || *b == b'_' || *b > 127;
    matches!(item, Item::Chars(word) if word.first().is_some_and(begins))
}

/// Two neighbouring dots.
fn has_dots(items: &[Item]) -> bool {
    items.windows(2).any(|pair| is(&pair[0], ".") && is(&pair[1], "."))
}

/// Items as a text, for people.
pub fn written(items: &[Item]) -> String {
    fn bytes(items: &[Item]) -> Vec<u8> {
        let mut text = vec![];
        for item in items {
            match item {
                Item::Chars(chars) => text.extend(chars),
                Item::Group(kind, inside) => {
                    let (open, close) = kind.delimiters();
                    text.push(open);
                    text.extend(bytes(inside));
                    text.push(close);
                }
            }
        }
        text
    }
    short(&String::from_utf8_lossy(&bytes(items)))
}

/// At most forty characters of a text.
pub fn short(text: &str) -> String {
    let mut chars = text.chars().map(printable);
    let start: String = chars.by_ref().take(40).collect();
    if chars.next().is_some() { start + "..." } else { start }
}

fn written_one(item: &Item) -> String {
    written(std::slice::from_ref(item))
}
