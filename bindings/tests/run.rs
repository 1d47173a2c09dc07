//! The safe function over the static library: accepted, refused, guard bytes,
//! the area as lent after a refusal, empty slices.

use layout_reader::{
    area_needed, check, listing, run, Refusal, ANY_AREA, ANY_LISTING, CONCATENATION_SIZE, HEAD_SIZE,
};

/// A mode byte and an image each.
const WHOLE: &[u8] = include_bytes!("../../examples/whole.in");
const CUT: &[u8] = include_bytes!("../../examples/cut.in");

/// What stands in an area before it is lent.
const LENT: u8 = 0xa5;

/// 2 concatenations, 3 components after merging, 2 literal bytes.
const LENGTH: usize = area_needed(2, 3, 2);

fn refusal(number: u32, concatenation: u32, component: u32) -> Result<usize, Refusal> {
    Err(Refusal { number, concatenation, component })
}

fn u32_at(s: &[u8], at: usize) -> u32 {
    u32::from_le_bytes(s[at..at + 4].try_into().unwrap())
}

#[test]
fn accepted_and_the_bytes_beyond_untouched() {
    let mut area = [LENT; ANY_AREA + 64];
    assert_eq!(run(&WHOLE[1..], 0, &mut area[..ANY_AREA]), Ok(LENGTH));
    assert_eq!((u32_at(&area, 0), u32_at(&area, 4), u32_at(&area, 8)), (2, 3, 40));
    assert_eq!(area[LENGTH - 2..LENGTH], [0x34, 0x12]);
    assert!(area[LENGTH..].iter().all(|byte| *byte == LENT));
}

#[test]
fn the_cut_line_has_the_same_numbers() {
    let (mut area, mut other) = ([LENT; ANY_AREA], [LENT; ANY_AREA]);
    assert_eq!(run(&WHOLE[1..], 0, &mut area), run(&CUT[1..], 0, &mut other));
    // texts stand at other places, since the cut line has more text
    let blocks = HEAD_SIZE + 2 * CONCATENATION_SIZE;
    assert_eq!(area[..blocks], other[..blocks]);
    assert_eq!(area[LENGTH - 2..LENGTH], other[LENGTH - 2..LENGTH]);
}

#[test]
fn refused_and_the_area_as_lent() {
    let mut area = [LENT; ANY_AREA + 64];
    assert_eq!(run(&WHOLE[1..], 3, &mut area), refusal(1, 0, 0));
    assert_eq!(run(&WHOLE[1..], 0, &mut area[..LENGTH - 1]), refusal(8, 0, 0));
    assert_eq!(run(&WHOLE[2..], 0, &mut area), refusal(3, 0, 0));
    // the literal moved into the sink
    let mut sink = WHOLE[1..].to_vec();
    (sink[40], sink[44]) = (1, 2);
    assert_eq!(run(&sink, 0, &mut area), refusal(30, 1, 0));
    assert!(area.iter().all(|byte| *byte == LENT));
}

#[test]
fn an_area_just_long_enough() {
    let mut area = [LENT; LENGTH + 64];
    assert_eq!(run(&WHOLE[1..], 0, &mut area[..LENGTH]), Ok(LENGTH));
    assert!(area[LENGTH..].iter().all(|byte| *byte == LENT));
}

#[test]
fn empty_slices() {
    assert_eq!(run(&[], 0, &mut []), refusal(2, 0, 0));
    assert_eq!(run(&[], 9, &mut []), refusal(1, 0, 0));
    assert_eq!(run(&WHOLE[1..], 0, &mut []), refusal(8, 0, 0));
    let mut area = [LENT; 8];
    assert_eq!(run(&[], 2, &mut area), refusal(2, 0, 0));
    assert_eq!(area, [LENT; 8]);
}

#[test]
fn listings() {
    let text = "layout 2 3 40 none D Z -\nc 0 2 40 none D Z\nvariable +0 +24 amount\n\
                literal +0 +16 1234\nc 1 1 40 none D Z\nvariable +0 +40 card\n";
    for input in [WHOLE, CUT] {
        let mut out = vec![LENT; ANY_LISTING];
        assert_eq!(listing(input, &mut out), Some(text.len()));
        assert_eq!(out[..text.len()], *text.as_bytes());
        assert!(out[text.len()..].iter().all(|byte| *byte == LENT));
    }
    let mut out = [LENT; 14];
    assert_eq!(listing(&[], &mut out), Some(14));
    assert_eq!(out, *b"refused 2 0 0\n");
    assert_eq!(listing(&[], &mut out[..13]), None);
    assert_eq!(listing(&[], &mut []), None);
}

#[test]
fn the_check_alone() {
    let refused = |number| Err(Refusal { number, concatenation: 0, component: 0 });
    assert_eq!(check(&WHOLE[1..]), Ok(()));
    assert_eq!(check(&[]), refused(2));
    assert_eq!(check(&WHOLE[2..]), refused(3));
    assert_eq!(check(&WHOLE[1..WHOLE.len() - 1]), refused(4));
    let mut sum = WHOLE[1..].to_vec();
    sum[40] = 9;
    assert_eq!(check(&sum), refused(5));
}
