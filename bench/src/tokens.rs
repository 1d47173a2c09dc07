//! Tokens to an image, ours with all its tests, beside `token_stream_to_ast` on
//! a stream that is already built (over the stand-in for proc_macro2).

use std::{hint::black_box, time::Instant};

use layout_compare::ours;
use layout_rust::{
    generate::{LARGEST_WRITTEN, lent_of},
    token_stream_to_ast,
    tokens::{Lent, Texts, stream_of},
};

use crate::clock::interleaved;

/// The lines that are timed.
fn lines() -> [(&'static str, String); 5] {
    let many = |count, field: &str| vec![field; count].join(", ");
    [
        ("2 components", "0x2au8, rec[4..(n+12)]".to_owned()),
        ("30 components", many(30, "rec[4..n]")),
        ("256 components", many(256, "rec[4..n]")),
        ("one run of 2,000 identifiers", vec!["ab"; 2_000].join(" ")),
        (
            "32 groups in each other, 31 times",
            many(31, &format!("{}a{}", "(".repeat(32), ")".repeat(32))),
        ),
    ]
}

fn ours_batch(lent: &Lent, area: &mut [u8], rounds: usize) -> f64 {
    let from = Instant::now();
    for _ in 0..rounds {
        black_box(ours::coded_tokens(
            black_box(&lent.list),
            &lent.text,
            black_box(area),
        ));
    }
    from.elapsed().as_nanos() as f64 / rounds as f64
}

fn rust_batch(lent: &Lent, rounds: usize) -> f64 {
    let stream = || stream_of(lent, Texts::of(lent)).expect("a stream");
    let streams: Vec<_> = (0..rounds).map(|_| stream()).collect();
    let mut asts = Vec::with_capacity(rounds);
    let from = Instant::now();
    for stream in streams {
        asts.push(token_stream_to_ast(black_box(stream)));
    }
    from.elapsed().as_nanos() as f64 / rounds as f64
}

pub fn compare(batches: usize) {
    println!("\ntokens to an image, ns a list; the Rust: token_stream_to_ast alone");
    for (name, line) in lines() {
        let lent = lent_of(&line).expect("well written");
        let mut area = vec![0; LARGEST_WRITTEN];
        let written = ours::decoded(ours::coded_tokens(&lent.list, &lent.text, &mut area));
        let Ok(bytes) = written else {
            panic!("{name}: refused")
        };
        let tokens = lent.list.len() / 12;
        let rounds = (2_000 / tokens).clamp(2, 100);
        let [ours, rust] = interleaved(
            batches,
            [&mut || ours_batch(&lent, &mut area, rounds), &mut || {
                rust_batch(&lent, rounds)
            }],
        );
        let ratio = rust.median / ours.median;
        println!(
            "{name}, {tokens} tokens, {bytes} bytes: ours {ours}, the Rust {rust}, ratio {ratio:.1}"
        );
    }
}
