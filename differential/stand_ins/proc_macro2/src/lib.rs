//! A stand-in for the tokens that token_stream.rs leans on. Any stream can be
//! built, also one whose texts no lexer would give.

use std::{fmt, rc::Rc, vec};

/// Shared, as the real one is: a group's stream is handed out again and again.
#[derive(Debug, Clone, Default, PartialEq, Eq)]
pub struct TokenStream(Rc<Vec<TokenTree>>);

impl FromIterator<TokenTree> for TokenStream {
    fn from_iter<I: IntoIterator<Item = TokenTree>>(trees: I) -> Self {
        Self(Rc::new(trees.into_iter().collect()))
    }
}

impl IntoIterator for TokenStream {
    type Item = TokenTree;
    type IntoIter = vec::IntoIter<TokenTree>;

    fn into_iter(self) -> Self::IntoIter {
        Rc::unwrap_or_clone(self.0).into_iter()
    }
}

#[derive(Debug, Clone, PartialEq, Eq)]
pub enum TokenTree {
    Group(Group),
    Ident(Ident),
    Punct(Punct),
    Literal(Literal),
}

#[derive(Debug, Clone, Copy, PartialEq, Eq)]
pub enum Delimiter {
    Parenthesis,
    Brace,
    Bracket,
    None,
}

#[derive(Debug, Clone, PartialEq, Eq)]
pub struct Group(Delimiter, TokenStream);

impl Group {
    pub fn new(delimiter: Delimiter, stream: TokenStream) -> Self {
        Self(delimiter, stream)
    }

    pub fn delimiter(&self) -> Delimiter {
        self.0
    }

    pub fn stream(&self) -> TokenStream {
        self.1.clone()
    }
}

#[derive(Debug, Clone, PartialEq, Eq)]
pub struct Punct(char);

impl Punct {
    pub fn new(punct: char) -> Self {
        Self(punct)
    }

    pub fn as_char(&self) -> char {
        self.0
    }
}

/// Both are just their text.
macro_rules! texts {
    ($($name:ident)*) => {$(
        #[derive(Debug, Clone, PartialEq, Eq)]
        pub struct $name(String);

        impl $name {
            pub fn new(text: &str) -> Self {
                Self(text.to_owned())
            }
        }

        impl fmt::Display for $name {
            fn fmt(&self, f: &mut fmt::Formatter<'_>) -> fmt::Result {
                f.write_str(&self.0)
            }
        }
    )*};
}

texts! { Ident Literal }
