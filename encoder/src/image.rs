//! A prepared image as a tree, and the tree written down (document 01, "The
//! prepared image").

/// Bytes of the header: five counts and five offsets.
pub const HEADER: usize = 40;
pub const CONCATENATION_ENTRY: usize = 4;
pub const COMPONENT_ENTRY: usize = 8;
pub const RECORD_ENTRY: usize = 12;

pub const MAX_CONCATENATIONS: usize = 16;
pub const MAX_COMPONENTS: usize = 256;
pub const MAX_RECORDS: usize = 2_048;
pub const MAX_TEXT: usize = 16_384;
pub const MAX_LITERAL_BYTES: usize = 8_192;
pub const MAX_WIDTH: usize = 4_096;
pub const MAX_DEPTH: usize = 32;

/// Record kinds that open no group.
pub const CHARACTERS: u32 = 0;
pub const CLOSER: u32 = 5;

/// The kinds of group, by their record kinds.
#[derive(Debug, Clone, Copy, PartialEq, Eq)]
pub enum Kind {
    Space = 1,
    Parenthesis = 2,
    Bracket = 3,
    Brace = 4,
}

impl Kind {
    pub const ALL: [Kind; 4] = [Kind::Space, Kind::Parenthesis, Kind::Bracket, Kind::Brace];

    pub fn from_number(number: u32) -> Option<Self> {
        Self::ALL.into_iter().find(|kind| *kind as u32 == number)
    }

    /// The bytes that open and close a group of this kind.
    pub fn delimiters(self) -> (u8, u8) {
        match self {
            Kind::Space => (b' ', b' '),
            Kind::Parenthesis => (b'(', b')'),
            Kind::Bracket => (b'[', b']'),
            Kind::Brace => (b'{', b'}'),
        }
    }
}

/// A record of characters, or an opener with what stands up to its closer.
#[derive(Debug, Clone, PartialEq, Eq)]
pub enum Item {
    Chars(Vec<u8>),
    Group(Kind, Vec<Item>),
}

/// One component: its records, its literal width, its literal bytes.
#[derive(Debug, Clone, PartialEq, Eq, Default)]
pub struct Comp {
    pub items: Vec<Item>,
    pub width: usize,
    pub bits: Vec<u8>,
}

/// Concatenations of components, the least significant component first.
#[derive(Debug, Clone, PartialEq, Eq, Default)]
pub struct Tree {
    pub concatenations: Vec<Vec<Comp>>,
}

impl Tree {
    pub fn components(&self) -> impl Iterator<Item = &Comp> {
        self.concatenations.iter().flatten()
    }

    /// Whether every record's text is UTF-8, as the domain of equality asks.
    pub fn is_utf8(&self) -> bool {
        fn all_utf8(items: &[Item]) -> bool {
            items.iter().all(|item| match item {
                Item::Chars(text) => str::from_utf8(text).is_ok(),
                Item::Group(_, inside) => all_utf8(inside),
            })
        }
        self.components().all(|comp| all_utf8(&comp.items))
    }
}

/// The five tables while they are being written.
#[derive(Default)]
struct Tables {
    concatenations: Vec<u8>,
    components: Vec<u8>,
    records: Vec<u8>,
    text: Vec<u8>,
    literals: Vec<u8>,
}

fn push_u32(table: &mut Vec<u8>, number: usize) {
    let number = u32::try_from(number).expect("numbers of an image have 32 bits");
    table.extend(number.to_le_bytes());
}

impl Tables {
    fn record(&mut self, kind: u32, text: &[u8], skip: usize) {
        push_u32(&mut self.records, kind as usize);
        push_u32(&mut self.records, self.text.len());
        push_u32(&mut self.records, skip);
        self.text.extend(text);
    }

    fn items(&mut self, items: &[Item]) {
        for item in items {
            match item {
                Item::Chars(text) => self.record(CHARACTERS, text, 1),
                Item::Group(kind, inside) => {
                    let (open, close) = kind.delimiters();
                    self.record(*kind as u32, &[open], count_records(inside) + 2);
                    self.items(inside);
                    self.record(CLOSER, &[close], 1);
                }
            }
        }
    }
}

/// How many records these items are written as.
pub fn count_records(items: &[Item]) -> usize {
    let count = |item: &Item| match item {
        Item::Chars(_) => 1,
        Item::Group(_, inside) => count_records(inside) + 2,
    };
    items.iter().map(count).sum()
}

/// The image of a tree: counts, offsets, text starts and skips computed. It
/// passes the check when the tree keeps document 01's limits.
pub fn image_of(tree: &Tree) -> Vec<u8> {
    let mut tables = Tables::default();
    for comps in &tree.concatenations {
        push_u32(&mut tables.concatenations, comps.len());
        for comp in comps {
            push_u32(&mut tables.components, count_records(&comp.items));
            push_u32(&mut tables.components, comp.width);
            tables.items(&comp.items);
            tables.literals.extend(&comp.bits);
        }
    }
    let mut image = vec![];
    push_u32(&mut image, tables.concatenations.len() / CONCATENATION_ENTRY);
    push_u32(&mut image, tables.components.len() / COMPONENT_ENTRY);
    push_u32(&mut image, tables.records.len() / RECORD_ENTRY);
    push_u32(&mut image, tables.text.len());
    push_u32(&mut image, tables.literals.len());
    let tables =
        [tables.concatenations, tables.components, tables.records, tables.text, tables.literals];
    let mut offset = HEADER;
    for table in &tables {
        push_u32(&mut image, offset);
        offset += table.len();
    }
    image.extend(tables.concat());
    image
}
