//! Three data files for the leaves in code: texts with the number that the
//! unchanged `i128_try_parse` reads in them, images with the number that
//! document 01's check gives them, and lists of tokens with the image that the
//! unchanged `token_stream_to_ast` makes of them. README.md has their layout.

mod images;
mod numbers;
mod tokens;

pub use images::{Size, changed, images, sized_tree};
pub use numbers::{drawn, texts};
pub use tokens::{Asked, lists};

use std::{collections::BTreeMap, fs, io, path::Path};

use crate::{check::check, i128_try_parse};

/// The image check's refusals, and 0 for an image that passes.
pub fn judged(image: &[u8]) -> u8 {
    match check(image) {
        Ok(_) => 0,
        Err(refusal) => u8::try_from(refusal.number).expect("2 to 7"),
    }
}

/// What the unchanged Rust reads in a text.
pub fn read(text: &str) -> Option<i128> {
    i128_try_parse(&text.chars().collect::<Vec<_>>())
}

/// The file `numbers`: a text's length in 2 bytes, the text, 1 or 0, 16 bytes.
pub fn numbers_file(count: usize, seed: u64) -> Vec<u8> {
    let mut file = vec![];
    for text in texts(count, seed) {
        let length = u16::try_from(text.len()).expect("texts are short");
        let number = read(&text);
        file.extend(length.to_le_bytes());
        file.extend(text.as_bytes());
        file.push(number.is_some().into());
        file.extend(number.unwrap_or(0).to_le_bytes());
    }
    file
}

/// The file `images`: an image's length in 4 bytes, the image, its number.
pub fn images_file(count: usize, seed: u64) -> Vec<u8> {
    let mut file = vec![];
    for image in images(count, seed) {
        let length = u32::try_from(image.len()).expect("images are short");
        file.extend(length.to_le_bytes());
        file.extend(&image);
        file.push(judged(&image));
    }
    file
}

/// The file `tokens`: the lengths of a list, its text and its area, the number
/// or 0, the image's length, in 4 bytes each; the list, the text, the image.
/// Three for four of the others are drawn, so that the Rust answers more than a thousand.
pub fn tokens_file(count: usize, seed: u64) -> Vec<u8> {
    let mut file = vec![];
    for Asked { lent, area, answer } in lists(3 * count / 4, seed) {
        let number = answer.as_ref().err().map_or(0, |number| *number as usize);
        let image = answer.unwrap_or_default();
        for number in [lent.list.len(), lent.text.len(), area, number, image.len()] {
            file.extend(u32::try_from(number).expect("lists are short").to_le_bytes());
        }
        file.extend([lent.list, lent.text, image].concat());
    }
    file
}

/// Writes the files and tells how many entries of each kind they have.
pub fn write(count: usize, seed: u64, folder: &Path) -> io::Result<String> {
    fs::write(folder.join("numbers"), numbers_file(count, seed))?;
    fs::write(folder.join("images"), images_file(count, seed))?;
    fs::write(folder.join("tokens"), tokens_file(count, seed))?;
    let texts = texts(count, seed);
    let read = texts.iter().filter(|text| read(text).is_some()).count();
    let images = images(count, seed).iter().map(|image| judged(image).into()).collect();
    let lists = lists(3 * count / 4, seed)
        .iter()
        .map(|asked| *asked.answer.as_ref().err().unwrap_or(&0))
        .collect();
    let mut told = format!("numbers {}: {read} read\n", texts.len());
    told += &counts("images", "passed", images);
    Ok(told + &counts("tokens", "accepted", lists))
}

/// How often each number occurs; 0 is none.
fn counts(name: &str, none: &str, numbers: Vec<u32>) -> String {
    let mut told = format!("{name} {}:", numbers.len());
    let mut kinds = BTreeMap::new();
    for number in numbers {
        *kinds.entry(number).or_insert(0) += 1;
    }
    for (number, count) in kinds {
        told += &match number {
            0 => format!(" {count} {none}"),
            _ => format!(", {count} refused {number}"),
        };
    }
    told + "\n"
}
