//! The examples of L2's page that are accepted, in its notation, and the bytes of
//! their lists and images: by hand from the page and document 01's layout of an
//! image.

use layout_reader::{
    Token,
    TokenKind::{self, *},
};

/// In the order of their numbers.
pub const KINDS: [TokenKind; 8] =
    [Identifier, Punctuation, Literal, Space, Parenthesis, Bracket, Brace, Closer];

/// An example of the page that is accepted: text and tokens, how long the image
/// is, and its tables: components of each concatenation, records of each
/// component, the records (kind, text start, skip), the text.
pub struct Example {
    pub text: &'static str,
    pub tokens: &'static str,
    pub length: usize,
    pub concatenations: &'static [u32],
    pub components: &'static [u32],
    pub records: &'static str,
    pub joined: &'static str,
}

/// Examples 1 to 10, and the page's line about literals beside identifiers. A
/// token is `kind:start+length`, or the kind alone of an
/// opener or a closer; a record is `kind,start,skip`.
pub const EXAMPLES: [Example; 11] = [
    Example {
        text: "a",
        tokens: "0:0+1",
        length: 65,
        concatenations: &[1],
        components: &[1],
        records: "0,0,1",
        joined: "a",
    },
    Example {
        text: "a , b ; c",
        tokens: "0:0+1 1:2+1 0:4+1 1:6+1 0:8+1",
        length: 111,
        concatenations: &[2, 1],
        components: &[1, 1, 1],
        records: "0,0,1 0,1,1 0,2,1",
        joined: "bac",
    },
    Example {
        text: "",
        tokens: "4 7",
        length: 78,
        concatenations: &[1],
        components: &[2],
        records: "2,0,2 5,1,1",
        joined: "()",
    },
    Example {
        text: "x y z",
        tokens: "3 0:0+1 0:2+1 7 0:4+1",
        length: 106,
        concatenations: &[1],
        components: &[4],
        records: "1,0,3 0,1,1 5,4,1 0,5,1",
        joined: " x y z",
    },
    Example {
        text: "",
        tokens: "3 7",
        length: 78,
        concatenations: &[1],
        components: &[2],
        records: "1,0,2 5,1,1",
        joined: "  ",
    },
    Example {
        text: "a b (c) d e",
        tokens: "0:0+1 0:2+1 4 0:5+1 7 0:8+1 0:10+1",
        length: 121,
        concatenations: &[1],
        components: &[5],
        records: "0,0,1 2,3,3 0,4,1 5,5,1 0,6,1",
        joined: "a b(c)d e",
    },
    Example {
        text: "f(a, b; c)",
        tokens: "0:0+1 4 0:2+1 1:3+1 0:5+1 1:6+1 0:8+1 7",
        length: 156,
        concatenations: &[1],
        components: &[8],
        records: "0,0,1 2,1,7 0,2,1 0,3,1 0,4,1 0,5,1 0,6,1 5,7,1",
        joined: "f(a,b;c)",
    },
    Example {
        text: "x as usize[(n as u16+1)..=7]",
        tokens: "0:0+1 0:2+2 0:5+5 5 4 0:12+1 0:14+2 0:17+3 1:20+1 2:21+1 7 1:23+1 1:24+1 1:25+1 \
                 2:26+1 7",
        length: 224,
        concatenations: &[1],
        components: &[12],
        records: "0,0,1 3,10,11 2,11,5 0,12,1 0,20,1 0,21,1 5,22,1 0,23,1 0,24,1 0,25,1 0,26,1 \
                  5,27,1",
        joined: "x as usize[(n as u16+1)..=7]",
    },
    Example {
        text: "10u4, 5u4; rec[..8]",
        tokens: "2:0+4 1:4+1 2:6+3 1:9+1 0:11+3 5 1:15+1 1:16+1 2:17+1 7",
        length: 183,
        concatenations: &[2, 1],
        components: &[1, 1, 6],
        records: "0,0,1 0,3,1 0,7,1 3,10,5 0,11,1 0,12,1 0,13,1 5,14,1",
        joined: "5u410u4rec[..8]",
    },
    Example {
        text: "'q, \"s,;\"",
        tokens: "1:0+1 0:1+1 1:2+1 2:4+5",
        length: 103,
        concatenations: &[2],
        components: &[1, 2],
        records: "0,0,1 0,5,1 0,6,1",
        joined: "\"s,;\"'q",
    },
    Example {
        text: "5u8 a b 6 c",
        tokens: "2:0+3 0:4+1 0:6+1 2:8+1 0:10+1",
        length: 108,
        concatenations: &[1],
        components: &[4],
        records: "0,0,1 0,3,1 0,6,1 0,7,1",
        joined: "5u8a b6c",
    },
];

/// A list in the page's notation. Start and length of a group's token are not
/// looked at: they are garbage here.
pub fn list_of(tokens: &str) -> Vec<u8> {
    let token = |word: &str| match word.split_once(':') {
        Some((kind, text)) => {
            let (start, length) = text.split_once('+').expect("start+length");
            let number = |digits: &str| digits.parse().expect("a number");
            Token::new(KINDS[number(kind) as usize], number(start), number(length))
        }
        None => Token::new(KINDS[word.parse::<usize>().expect("a kind")], u32::MAX, 0x8000_0001),
    };
    tokens.split_whitespace().flat_map(|word| token(word).to_bytes()).collect()
}

impl Example {
    pub fn image(&self) -> Vec<u8> {
        let records: Vec<u32> = self
            .records
            .split([' ', ','])
            .map(|number| number.parse().expect("a number of a record"))
            .collect();
        let (c, n) = (self.concatenations.len(), self.components.len());
        let counts = [c, n, records.len() / 3, self.joined.len(), 0].map(|count| count as u32);
        let [c, n, r, t, _] = counts;
        let offsets = [
            40,
            40 + 4 * c,
            40 + 4 * c + 8 * n,
            40 + 4 * c + 8 * n + 12 * r,
            40 + 4 * c + 8 * n + 12 * r + t,
        ];
        // records and a literal width of 0
        let components = self.components.iter().flat_map(|records| [*records, 0]).collect();
        let numbers = [counts.to_vec(), offsets.to_vec(), self.concatenations.to_vec(), components];
        let numbers = numbers.concat().into_iter().chain(records);
        let mut bytes: Vec<u8> = numbers.flat_map(u32::to_le_bytes).collect();
        bytes.extend(self.joined.as_bytes());
        bytes
    }
}
