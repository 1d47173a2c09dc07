//! From a tree to the sources' `Ast`, as their `token_stream_to_ast` and the
//! driver above the stages leave it, and the literals that go with it.

use std::num::NonZeroUsize;

use awint_ext::Awi;
use triple_arena::traits::*;

use crate::{
    Ast, Component, Concatenation, Delimiter, PText, Text,
    image::{Item, Kind, Tree},
};

/// Something that this program, not the sources, got wrong inside a stage.
pub struct OwnFault(pub &'static str);

/// Builds the `Ast` of a tree whose texts are UTF-8. The texts stand as
/// written, the most significant component first; the components of a
/// concatenation are then turned round, least significant first.
pub fn ast_of(tree: &Tree) -> Ast {
    let mut ast = Ast::default();
    let mut root = vec![];
    for comps in &tree.concatenations {
        let mut concat = Concatenation::default();
        let mut texts = vec![];
        for comp in comps.iter().rev() {
            let txt = insert_items(&mut ast, &comp.items);
            texts.push(Text::Group(Delimiter::Component, txt));
            concat.comps.push(Component { txt, ..Default::default() });
        }
        concat.comps.reverse();
        concat.txt = ast.txt.insert(texts);
        root.push(Text::Group(Delimiter::Concatenation, concat.txt));
        ast.cc.push(concat);
    }
    ast.txt_root = ast.txt.insert(root);
    ast
}

fn insert_items(ast: &mut Ast, items: &[Item]) -> PText {
    let mut texts = vec![];
    for item in items {
        texts.push(match item {
            Item::Chars(text) => {
                let text = str::from_utf8(text).expect("looked at before");
                Text::Chars(text.chars().collect())
            }
            Item::Group(kind, inside) => Text::Group(delimiter(*kind), insert_items(ast, inside)),
        });
    }
    ast.txt.insert(texts)
}

fn delimiter(kind: Kind) -> Delimiter {
    match kind {
        Kind::Space => Delimiter::Space,
        Kind::Parenthesis => Delimiter::Parenthesis,
        Kind::Bracket => Delimiter::Bracket,
        Kind::Brace => Delimiter::Brace,
    }
}

/// Lets `Awi::from_str` answer what the tree says of the component asked for.
///
/// Which one that is: stage 1 begins by putting each component's middle text
/// into the arena, one entry each in order of components, so entry
/// `ast.txt.len() + 1 + k` is that of component k. Just before `from_str` the
/// stage collects the characters below a middle text, and the last entry that
/// this looks at is the middle text itself. Equal texts are thus told apart.
pub fn answer_literals(tree: &Tree, ast: &Ast) {
    let literal = |comp: &crate::image::Comp| {
        NonZeroUsize::new(comp.width).map(|width| Awi::from_bytes(width, &comp.bits))
    };
    let literals: Vec<Option<Awi>> = tree.components().map(literal).collect();
    let before = ast.txt.len();
    awint_ext::answer_with(move |_| {
        let asked = triple_arena::last_indexed().checked_sub(before + 1);
        match asked.and_then(|k| literals.get(k)) {
            Some(literal) => literal.clone(),
            None => std::panic::panic_any(OwnFault("a literal of no known component")),
        }
    });
}
