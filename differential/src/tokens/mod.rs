//! Document 02, L2: from a flat list of tokens to an image. The tree is the
//! one that the unchanged `token_stream_to_ast` builds, its components turned
//! round. Only 50 is judged without it (list.rs).

mod list;
mod worked;

pub use list::{
    CLOSER, FIRST_OPENER, IDENTIFIER, LITERAL, Lent, OPENERS, PUNCTUATION, TOKEN, Texts, stream_of,
};
pub use worked::{Expect, Worked, worked};

use proc_macro2::TokenStream;

use crate::{
    Ast, Delimiter, PText, Text,
    image::{
        Comp, Item, Kind, MAX_COMPONENTS, MAX_CONCATENATIONS, MAX_DEPTH, MAX_RECORDS, MAX_TEXT,
        Tree, count_records, image_of,
    },
    run::quietly,
    token_stream_to_ast,
};

/// What a list comes to, whatever area is lent.
pub struct Told {
    /// 50, 51 or 52.
    pub refused: Option<u32>,
    /// The image of the tree, also where it is refused; of 50 there is none.
    pub image: Vec<u8>,
    /// The limits that the tree is over.
    pub over: Vec<&'static str>,
}

impl Told {
    /// The written image, or the number, over an area of this length.
    pub fn over_area(&self, area: usize) -> Result<&[u8], u32> {
        match self.refused {
            Some(number) => Err(number),
            None if area < self.image.len() => Err(53),
            None => Ok(&self.image),
        }
    }

    fn of(tree: &Tree) -> Self {
        let over = over(tree);
        let empty = tree.components().any(|comp| comp.items.is_empty());
        let refused = if empty { Some(51) } else { (!over.is_empty()).then_some(52) };
        Self { refused, image: image_of(tree), over }
    }
}

/// What a list is told to come to. None: the Rust panicked.
pub fn told(lent: &Lent) -> Option<Told> {
    let texts = Texts::of(lent);
    match stream_of(lent, texts) {
        None => Some(Told { refused: Some(50), image: vec![], over: vec![] }),
        Some(stream) => told_of_stream(stream, texts),
    }
}

/// The same of a list that is known to be this stream.
pub fn told_of_stream(stream: TokenStream, texts: Texts) -> Option<Told> {
    let ast = quietly(|| token_stream_to_ast(stream)).ok()?;
    Some(told_of_ast(&ast, texts))
}

/// The same of what the Rust made of it.
pub fn told_of_ast(ast: &Ast, texts: Texts) -> Told {
    Told::of(&turned(ast, texts))
}

/// The tree that the Rust built, each concatenation least significant first.
fn turned(ast: &Ast, texts: Texts) -> Tree {
    let comp = |txt: PText| Comp { items: items(ast, txt, texts), ..Comp::default() };
    let concatenation =
        |concat: &crate::Concatenation| concat.comps.iter().rev().map(|c| comp(c.txt)).collect();
    Tree { concatenations: ast.cc.iter().map(concatenation).collect() }
}

fn items(ast: &Ast, txt: PText, texts: Texts) -> Vec<Item> {
    let item = |text: &Text| match text {
        Text::Chars(chars) => Item::Chars(texts.bytes(chars)),
        Text::Group(delimiter, inside) => {
            let kind = match delimiter {
                Delimiter::Space => Kind::Space,
                Delimiter::Parenthesis => Kind::Parenthesis,
                Delimiter::Bracket => Kind::Bracket,
                Delimiter::Brace => Kind::Brace,
                _ => unreachable!("only above the components"),
            };
            Item::Group(kind, items(ast, *inside, texts))
        }
    };
    ast.txt[txt].iter().map(item).collect()
}

/// The limits of document 01 that a tree is over.
fn over(tree: &Tree) -> Vec<&'static str> {
    let sum = |count: fn(&[Item]) -> usize| tree.components().map(|c| count(&c.items)).sum();
    let counts: [(usize, usize, &str); 5] = [
        (tree.concatenations.len(), MAX_CONCATENATIONS, "concatenations"),
        (tree.components().count(), MAX_COMPONENTS, "components"),
        (sum(count_records), MAX_RECORDS, "records"),
        (sum(text_bytes), MAX_TEXT, "text"),
        (tree.components().map(|c| depth(&c.items)).max().unwrap_or(0), MAX_DEPTH, "nesting"),
    ];
    counts.iter().filter(|(count, limit, _)| count > limit).map(|(.., name)| *name).collect()
}

fn text_bytes(items: &[Item]) -> usize {
    let bytes = |item: &Item| match item {
        Item::Chars(text) => text.len(),
        Item::Group(_, inside) => text_bytes(inside) + 2,
    };
    items.iter().map(bytes).sum()
}

fn depth(items: &[Item]) -> usize {
    let depth = |item: &Item| match item {
        Item::Chars(_) => 0,
        Item::Group(_, inside) => 1 + depth(inside),
    };
    items.iter().map(depth).max().unwrap_or(0)
}
