//! Our whole run (check, stages, answer) through the static library beside the
//! Rust's stages 1 to 5 on an `Ast` that is already built; how our time grows;
//! tokens to an image; the stack that our run uses. All images are accepted in
//! mode 0.

mod clock;
mod images;
mod sides;
mod stack;
mod tokens;

use clock::{Times, interleaved};
use images::Image;
use sides::{Ours, rust_batch, rust_stages};

/// Batches of each size; short ones, so that most run undisturbed.
const BATCHES: usize = 301;

/// Numbers from 1 digit to as many as fit 128 bits, decimal and hexadecimal.
const DIGITS: [&str; 8] = [
    "4",
    "31",
    "123456789012345678",
    "1234567890123456789",
    "170141183460469231731687303715884105727",
    "0x4",
    "0x123456789abcdef0",
    "0x7FfFfFfFfFfFfFfFfFfFfFfFfFfFfFfF",
];

/// Variables of each image that they are timed in.
const NUMBERS: usize = 64;

/// Runs in a batch, so that a batch takes some tenths of a millisecond.
fn rounds(image: &Image) -> usize {
    (600 / image.components()).clamp(2, 100)
}

fn main() {
    println!(
        "ns an image: median of {BATCHES} batches (fastest batch). Ours: one image and one area, \
         not cleared between runs.\nThe Rust: a new Ast for each run, built before the clock and \
         dropped after it; its literal bits and arena are stand-ins."
    );
    let compared = [images::two(), images::thirty(), images::largest()];
    for image in &compared {
        compare(image);
    }
    let others = [
        images::open(),
        images::started(),
        images::odd(),
        images::nested(),
        images::deepest(),
        images::one_bound(2_000),
        images::numbers(NUMBERS, DIGITS[4]),
    ];
    for image in &others {
        compare(image);
    }
    println!("\ngrowth over components, ours");
    for count in [1, 4, 16, 64, 256] {
        grow(&images::variables(count), count, "component");
    }
    println!("\ngrowth over the digits of a number, ours: {NUMBERS} variables with one each");
    for number in DIGITS {
        grow(&images::numbers(NUMBERS, number), NUMBERS, "component");
    }
    println!("\ngrowth over literal bits, ours: 16 literals that become one");
    for bits in [64, 512, 4096] {
        for odd in [0, 3] {
            grow(&images::literals(16, bits - odd), 2 * bits, "literal byte");
        }
    }
    println!("\ngrowth over the records of one bound, ours");
    for records in [8, 64, 512, 2_000] {
        grow(&images::one_bound(records), records, "record");
    }
    println!("\ngrowth over the bytes of one text, ours");
    for bytes in [16, 256, 4_096, 16_384] {
        grow(&images::one_text(bytes), bytes, "byte");
    }
    tokens::compare(BATCHES);
    println!("\nstack of our run, bytes below its caller's frame");
    for image in compared.iter().chain([&images::deepest()]) {
        println!("{}: {}", image.name, stack::used(&[image.call()]));
    }
    let cases = images::generated(5_000);
    println!(
        "the most in {} mixed cases: {}",
        cases.len(),
        stack::used(&cases)
    );
}

fn compare(image: &Image) {
    let mut ours = Ours::new(image);
    let rounds = rounds(image);
    let [ours, rust] = interleaved(
        BATCHES,
        [&mut || ours.batch(rounds), &mut || {
            rust_batch(image, rounds)
        }],
    );
    println!(
        "\n{}: {} components, {} records, {} bytes of text, {} literal bytes",
        image.name,
        image.components(),
        image.count(2),
        image.count(3),
        image.count(4)
    );
    println!("ours {ours}\nthe Rust {rust}");
    println!(
        "ratio {:.1} ({:.1} of the fastest)",
        rust.median / ours.median,
        rust.best / ours.best
    );
    let stages = rust_stages(image, BATCHES / 3, rounds).map(|ns| format!("{ns:.0}"));
    println!("the Rust by stage {}", stages.join(" "));
}

fn grow(image: &Image, units: usize, unit: &str) {
    let mut ours = Ours::new(image);
    let rounds = rounds(image);
    let [times]: [Times; 1] = interleaved(BATCHES, [&mut || ours.batch(rounds)]);
    println!(
        "{}: {times}, {:.2} ns a {unit}",
        image.name,
        times.median / units as f64
    );
}
