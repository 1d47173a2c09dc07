//! Document 01's image check, numbers 2 to 7, and the tree that it finds.

use crate::{
    image::{
        CHARACTERS, CLOSER, COMPONENT_ENTRY, CONCATENATION_ENTRY, Comp, HEADER, Item, Kind,
        MAX_COMPONENTS, MAX_CONCATENATIONS, MAX_DEPTH, MAX_LITERAL_BYTES, MAX_RECORDS, MAX_TEXT,
        MAX_WIDTH, RECORD_ENTRY, Tree,
    },
    refusal::Refusal,
};

/// Checks an image and reads it as a tree; a refusal has the places 0, 0.
pub fn check(image: &[u8]) -> Result<Tree, Refusal> {
    let tables = Tables::read(image)?;
    let counts = tables.counts()?;
    tables.tree(&counts)
}

fn need(right: bool, number: u32) -> Result<(), Refusal> {
    if right { Ok(()) } else { Err(Refusal::plain(number)) }
}

fn u32_at(bytes: &[u8], at: usize) -> u32 {
    u32::from_le_bytes(bytes[at..at + 4].try_into().expect("four bytes"))
}

/// The five tables of an image whose header and length are right.
struct Tables<'a> {
    concatenations: &'a [u8],
    components: &'a [u8],
    records: &'a [u8],
    text: &'a [u8],
    literals: &'a [u8],
}

/// What the concatenation and component entries say.
struct Counts {
    /// Components of each concatenation.
    comps: Vec<usize>,
    /// Records and literal width of each component.
    entries: Vec<(usize, usize)>,
}

impl<'a> Tables<'a> {
    /// Numbers 2, 3 and 4.
    fn read(image: &'a [u8]) -> Result<Self, Refusal> {
        need(image.len() >= HEADER, 2)?;
        let field = |i: usize| u32_at(image, 4 * i) as usize;
        let ranges = [
            1..=MAX_CONCATENATIONS,
            1..=MAX_COMPONENTS,
            1..=MAX_RECORDS,
            1..=MAX_TEXT,
            0..=MAX_LITERAL_BYTES,
        ];
        let in_range =
            |(i, range): (usize, &std::ops::RangeInclusive<usize>)| range.contains(&field(i));
        need(ranges.iter().enumerate().all(in_range), 3)?;
        let sizes = [
            CONCATENATION_ENTRY * field(0),
            COMPONENT_ENTRY * field(1),
            RECORD_ENTRY * field(2),
            field(3),
            field(4),
        ];
        let mut offset = HEADER;
        let mut parts = [&image[..0]; 5];
        for (i, size) in sizes.into_iter().enumerate() {
            need(field(5 + i) == offset, 4)?;
            parts[i] = image.get(offset..offset + size).ok_or(Refusal::plain(4))?;
            offset += size;
        }
        need(image.len() == offset, 4)?;
        let [concatenations, components, records, text, literals] = parts;
        Ok(Self { concatenations, components, records, text, literals })
    }

    /// Number 5.
    fn counts(&self) -> Result<Counts, Refusal> {
        let numbers = |table: &[u8]| -> Vec<usize> {
            let number = |entry: &[u8]| u32_at(entry, 0) as usize;
            table.chunks(4).map(number).collect()
        };
        let comps = numbers(self.concatenations);
        let entries: Vec<_> = numbers(self.components).chunks(2).map(|e| (e[0], e[1])).collect();
        need(comps.iter().all(|&count| count >= 1), 5)?;
        need(comps.iter().sum::<usize>() == entries.len(), 5)?;
        need(entries.iter().all(|&(records, width)| records >= 1 && width <= MAX_WIDTH), 5)?;
        let records: usize = entries.iter().map(|&(records, _)| records).sum();
        need(records == self.records.len() / RECORD_ENTRY, 5)?;
        let mut at = 0;
        for &(_, width) in &entries {
            let bytes = self.literals.get(at..at + width.div_ceil(8));
            need(bytes.is_some_and(|bytes| spare_bits_are_zero(bytes, width)), 5)?;
            at += width.div_ceil(8);
        }
        need(at == self.literals.len(), 5)?;
        Ok(Counts { comps, entries })
    }

    /// Numbers 6 and 7, record by record.
    fn tree(&self, counts: &Counts) -> Result<Tree, Refusal> {
        let mut tree = Tree::default();
        let mut entries = counts.entries.iter();
        let (mut record, mut byte) = (0, 0);
        for &count in &counts.comps {
            let mut comps = vec![];
            for &(records, width) in entries.by_ref().take(count) {
                let items = self.items(record, record + records, 0)?;
                let bits = self.literals[byte..byte + width.div_ceil(8)].to_vec();
                comps.push(Comp { items, width, bits });
                record += records;
                byte += width.div_ceil(8);
            }
            tree.concatenations.push(comps);
        }
        Ok(tree)
    }

    /// The records from `at` up to `end`, which stand inside `depth` groups.
    fn items(&self, mut at: usize, end: usize, depth: usize) -> Result<Vec<Item>, Refusal> {
        let mut items = vec![];
        while at < end {
            if self.kind(at) == CHARACTERS {
                need(self.skip(at) == 1, 6)?;
                items.push(Item::Chars(self.text_of(at)?.to_vec()));
                at += 1;
                continue;
            }
            // a closer that closes nothing is as wrong here as an unknown kind
            let kind = Kind::from_number(self.kind(at)).ok_or(Refusal::plain(6))?;
            let next = self.opener(at, end, kind)?;
            need(depth < MAX_DEPTH, 7)?;
            let inside = self.items(at + 1, next - 1, depth + 1)?;
            self.closer(next - 1, kind)?;
            items.push(Item::Group(kind, inside));
            at = next;
        }
        Ok(items)
    }

    /// The opener at `at`: its text, its skip, its closer's kind. Gives the
    /// number of the record just after the closer.
    fn opener(&self, at: usize, end: usize, kind: Kind) -> Result<usize, Refusal> {
        need(self.text_of(at)? == [kind.delimiters().0], 6)?;
        let skip = self.skip(at);
        need((2..=end - at).contains(&skip), 6)?;
        need(self.kind(at + skip - 1) == CLOSER, 6)?;
        Ok(at + skip)
    }

    fn closer(&self, at: usize, kind: Kind) -> Result<(), Refusal> {
        need(self.text_of(at)? == [kind.delimiters().1], 6)?;
        need(self.skip(at) == 1, 6)
    }

    fn kind(&self, record: usize) -> u32 {
        u32_at(self.records, RECORD_ENTRY * record)
    }

    fn start(&self, record: usize) -> usize {
        u32_at(self.records, RECORD_ENTRY * record + 4) as usize
    }

    fn skip(&self, record: usize) -> usize {
        u32_at(self.records, RECORD_ENTRY * record + 8) as usize
    }

    /// The record's text, if its start is right: 0 at first, then rising.
    fn text_of(&self, record: usize) -> Result<&'a [u8], Refusal> {
        let start = self.start(record);
        match record {
            0 => need(start == 0, 6)?,
            _ => need(start > self.start(record - 1), 6)?,
        }
        need(start < self.text.len(), 6)?;
        let last = RECORD_ENTRY * (record + 1) == self.records.len();
        let end = if last { self.text.len() } else { self.start(record + 1) };
        // an end that is wrong is the next record's wrong start
        need(end > start, 6)?;
        self.text.get(start..end).ok_or(Refusal::plain(6))
    }
}

fn spare_bits_are_zero(bytes: &[u8], width: usize) -> bool {
    match (bytes.last(), width % 8) {
        (Some(top), used) if used > 0 => top >> used == 0,
        _ => true,
    }
}
