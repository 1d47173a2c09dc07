//! Runs under a default: what the Rust says and what ours says, with a last
//! line about the starting value in force.

use layout_compare::lent::needed;
use layout_rust::with_default::{InForce, Told, Way, told};

use crate::compare::{Call, Expected, parts};

/// The whole default is in force.
const DEFAULT: u64 = 1 << 63;

/// What the Rust says, numbers 1 and 8 judged as document 01 has it, by the
/// image and area as they are. None where it cannot be asked.
pub fn expected(input: &[u8], call: Call, default: &[u8]) -> Option<Expected> {
    let before = |number: u32| Told {
        listing: format!("refused {number} 0 0\n"),
        in_force: InForce::Nothing,
        way: Way::BeforeStages,
        lifted: false,
    };
    let told = match told(input, default) {
        _ if call.mode > 2 => before(1),
        Some(told) if told.way == Way::BeforeStages => told,
        _ if call.area < needed(parts(input).1) => before(8),
        told => told?,
    };
    let number = match &told.in_force {
        InForce::Nothing => 0,
        InForce::Image(at, text) => (*at as u64) << 32 | text.len() as u64,
        InForce::Default => DEFAULT,
    };
    let listing = told.listing.clone() + &in_force(number, parts(input).1);
    Some(Expected { listing, counted: headings(&told, default) })
}

/// The way in which the Rust was asked, what came of a lifted 40, and what is
/// in force.
fn headings(told: &Told, default: &[u8]) -> Vec<String> {
    let way = match told.way {
        Way::BeforeStages => "not at all, refused before the stages",
        Way::NoDefault => "as it is, no default",
        Way::OwnColon => "as it is, a colon of its own",
        Way::Stage1 => "as it is, stage 1 would see another thing behind `word:`",
        Way::Word => "as it is and with `word:`",
        Way::WordAndPath => "as it is and with `word:`, its `::` one token",
    };
    let in_force = match &told.in_force {
        InForce::Nothing => "nothing",
        InForce::Image(_, text) if text.is_empty() => "the image's, empty",
        InForce::Image(..) => "the image's",
        InForce::Default if default.is_empty() => "the default, empty",
        InForce::Default => "the default",
    };
    let mut all = vec![format!("the Rust asked {way}"), format!("in force {in_force}")];
    if told.lifted {
        let outcome = layout_rust::stats::outcome_of(&told.listing);
        all.push(format!("40 but for the default, so {outcome}"));
    }
    all
}

/// The bytes that a number names; none where it names nothing.
pub fn value<'a>(told: u64, image: &'a [u8], default: &'a [u8]) -> Option<&'a [u8]> {
    let (at, length) = ((told >> 32) as usize, told as u32 as usize);
    match told {
        0 => None,
        DEFAULT => Some(default),
        _ => image.get(at..at + length),
    }
}

/// What a number names, in words, with the bytes where they are the image's.
pub fn in_force(told: u64, image: &[u8]) -> String {
    let named = match (told, value(told, image, &[])) {
        (0, _) => "nothing".to_owned(),
        (DEFAULT, _) => "the default".to_owned(),
        (_, Some(bytes)) => {
            format!("{} bytes of the image at {}: {bytes:02x?}", bytes.len(), told >> 32)
        }
        (_, None) => format!("{told:#x}, no part of the image"),
    };
    format!("in force: {named}\n")
}

/// Whether what was told is what the answer's own head says, or 0 where there
/// is no answer. This can be asked of every image.
pub fn as_the_head_says(told: u64, answer: &[u8], image: &[u8]) -> bool {
    let number = |bytes: &[u8], at: usize| {
        u32::from_le_bytes(bytes[at..at + 4].try_into().expect("four bytes"))
    };
    let (flags, start, length, text) = (16, 24, 28, 32);
    told == match answer {
        [] => 0,
        head if number(head, flags) & 4 == 0 => DEFAULT,
        head => {
            let at = number(image, text) + number(head, start);
            u64::from(at) << 32 | u64::from(number(head, length))
        }
    }
}
