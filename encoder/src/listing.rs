//! Document 01's listing, as a program printed it.

/// What a listing's first line says.
#[derive(Debug, Clone, Copy, PartialEq, Eq)]
pub enum Outcome {
    Accepted,
    Refused {
        number: u32,
        first: usize,
        second: usize,
    },
    /// No listing of document 01.
    Unknown,
}

pub fn outcome(listing: &str) -> Outcome {
    let first = listing.lines().next().unwrap_or_default();
    let fields: Vec<&str> = first.split(' ').collect();
    match fields[..] {
        ["layout", _, _, _, _, _, _, _] => Outcome::Accepted,
        ["refused", number, first, second] => {
            let places = (first.parse(), second.parse());
            match (number.parse(), places) {
                (Ok(number), (Ok(first), Ok(second))) => Outcome::Refused { number, first, second },
                _ => Outcome::Unknown,
            }
        }
        _ => Outcome::Unknown,
    }
}

/// Each concatenation's static width, nothing where it is not known.
pub fn static_widths(listing: &str) -> Vec<Option<&str>> {
    let concatenations = listing.lines().filter_map(|line| line.strip_prefix("c "));
    concatenations.map(|fields| fields.split(' ').nth(2).filter(|width| *width != "-")).collect()
}

/// The texts of all bounds, in the listing's order, empty ones left out.
pub fn bound_texts(listing: &str) -> Vec<&str> {
    let mut texts = vec![];
    for line in listing.lines() {
        let mut fields = line.split(' ');
        if !matches!(fields.next(), Some("literal" | "variable" | "filler")) {
            continue;
        }
        // a bound is a text and a signed number; `-` alone is no end
        let bounds =
            fields.take(2).filter_map(|bound| bound.rfind(['+', '-']).map(|at| &bound[..at]));
        texts.extend(bounds.filter(|text| !text.is_empty()));
    }
    texts
}
