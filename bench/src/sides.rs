//! The two sides that are timed.

use std::{hint::black_box, time::Instant};

use layout_compare::{lent::needed, ours};
use layout_rust::{
    Ast,
    ast::{answer_literals, ast_of},
    stage1, stage2, stage3, stage4, stage5,
};

use crate::{clock::Times, images::Image};

/// Our run on one image.
pub struct Ours<'a> {
    image: &'a [u8],
    area: Vec<u8>,
}

impl<'a> Ours<'a> {
    /// Looks first that the image is accepted.
    pub fn new(image: &'a Image) -> Self {
        let mut area = vec![0; needed(&image.bytes)];
        let code = ours::coded(&image.bytes, 0, &mut area);
        assert!(
            ours::decoded(code).is_ok(),
            "{}: refused: {code:#x}",
            image.name
        );
        Self {
            image: &image.bytes,
            area,
        }
    }

    /// Nanoseconds a run.
    pub fn batch(&mut self, rounds: usize) -> f64 {
        let from = Instant::now();
        for _ in 0..rounds {
            black_box(ours::coded(
                black_box(self.image),
                0,
                black_box(&mut self.area),
            ));
        }
        from.elapsed().as_nanos() as f64 / rounds as f64
    }
}

/// As many new Asts, whose literals `Awi::from_str` then answers.
fn asts(image: &Image, rounds: usize) -> Vec<Ast> {
    let asts: Vec<Ast> = (0..rounds).map(|_| ast_of(&image.tree)).collect();
    answer_literals(&image.tree, &asts[0]);
    asts
}

fn stage(stage: usize, ast: &mut Ast) {
    let done = match stage {
        1 => stage1(ast),
        2 => stage2(ast),
        3 => stage3(ast),
        4 => stage4(ast, &None, false),
        _ => {
            stage5(ast);
            Ok(())
        }
    };
    assert!(done.is_ok(), "the images are accepted");
}

/// Nanoseconds that stages 1 to 5 of the Rust take on one Ast.
pub fn rust_batch(image: &Image, rounds: usize) -> f64 {
    let mut asts = asts(image, rounds);
    let from = Instant::now();
    for ast in &mut asts {
        for number in 1..=5 {
            stage(number, black_box(ast));
        }
    }
    from.elapsed().as_nanos() as f64 / rounds as f64
}

/// Nanoseconds that each stage takes: the median of the batches.
pub fn rust_stages(image: &Image, batches: usize, rounds: usize) -> [f64; 5] {
    let mut took = [const { vec![] }; 5];
    for _ in 0..batches {
        let mut asts = asts(image, rounds);
        for (number, took) in (1..).zip(&mut took) {
            let from = Instant::now();
            for ast in &mut asts {
                stage(number, black_box(ast));
            }
            took.push(from.elapsed().as_nanos() as f64 / rounds as f64);
        }
    }
    took.map(|took| Times::of(took).median)
}
