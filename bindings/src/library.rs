//! The calls of the static library, safe.

use crate::{fields::entry, Answer, Refusal};

/// What `layout_run_with` tells where the whole default is in force.
const DEFAULT_IN_FORCE: u64 = 1 << 63;

// Lengths are 64-bit on every target, as the compiled library takes them.
extern "C" {
    fn layout_run(
        image: *const u8,
        image_length: u64,
        mode: u32,
        area: *mut u8,
        area_length: u64,
    ) -> u64;

    fn layout_run_with(
        image: *const u8,
        image_length: u64,
        mode: u32,
        start: *const u8,
        start_length: u64,
        area: *mut u8,
        area_length: u64,
        told: *mut u64,
    ) -> u64;

    fn layout_listing(input: *const u8, input_length: u64, out: *mut u8, out_length: u64) -> u64;

    fn layout_check(image: *const u8, image_length: u64) -> u32;

    fn layout_tokens(
        list: *const u8,
        list_length: u64,
        text: *const u8,
        text_length: u64,
        area: *mut u8,
        area_length: u64,
    ) -> u64;
}

/// Runs a prepared image in mode 0, 1 or 2 (any other is refused).
///
/// Accepted: the length of the answer, which stands in the area from its first
/// byte; the bytes after it are as lent. Refused: the area is as lent.
pub fn run(image: &[u8], mode: u32, area: &mut [u8]) -> Result<usize, Refusal> {
    let (image_length, area_length) = (image.len() as u64, area.len() as u64);
    // SAFETY: each pointer is that of a slice of the length beside it, and the
    // area, being lent as `&mut`, does not overlap the image. The function reads
    // the image and writes the area, both within their lengths, and keeps
    // neither: that is proved of it.
    let outcome =
        unsafe { layout_run(image.as_ptr(), image_length, mode, area.as_mut_ptr(), area_length) };
    length_of(outcome)
}

/// Runs as `run` does, under a default: the starting value of a line that has
/// no prefix of its own. It may be any bytes, and is never parsed. An empty one
/// means none; under any other, number 40 is not given and the next test
/// answers. Nothing else in the outcome and the area depends on it.
///
/// Accepted: the answer's length, and the starting value in force. That is the
/// line's own prefix, even an empty one, as a part of the image, else the default
/// as it was lent, whatever the mode. The answer speaks only of the line's own.
pub fn run_with<'a>(
    image: &'a [u8],
    mode: u32,
    default: &'a [u8],
    area: &mut [u8],
) -> Result<(usize, &'a [u8]), Refusal> {
    let mut told = 0;
    // SAFETY: as in `run`; the default is read, and `told`, a number of our own,
    // is written.
    let outcome = unsafe {
        layout_run_with(
            image.as_ptr(),
            image.len() as u64,
            mode,
            default.as_ptr(),
            default.len() as u64,
            area.as_mut_ptr(),
            area.len() as u64,
            &mut told,
        )
    };
    Ok((length_of(outcome)?, in_force(told, image, default)))
}

/// An outcome taken apart: the length of what was written, or the refusal.
fn length_of(outcome: u64) -> Result<usize, Refusal> {
    match (outcome >> 32) as u32 {
        0 => Ok(outcome as usize),
        number => Err(Refusal {
            number,
            concatenation: (outcome >> 16) as u32 & 0xffff,
            component: outcome as u32 & 0xffff,
        }),
    }
}

/// What is told of the starting value in force, taken apart: the default, or a
/// place in the image and a length.
fn in_force<'a>(told: u64, image: &'a [u8], default: &'a [u8]) -> &'a [u8] {
    match told {
        DEFAULT_IN_FORCE => default,
        _ => entry(image, (told >> 32) as usize, told as u32 as usize),
    }
}

/// Runs as `run` does, and hands out the answer that the area now holds. That
/// its bytes are laid out as an answer is the run's promise; they are not
/// checked again.
///
/// ```
/// use layout_reader::{answer, Kind, ANY_AREA};
///
/// // 0x1234u16[8..], 0x1234u16[..8], amount[..24]; card[..40]
/// let input = include_bytes!(concat!(env!("CARGO_MANIFEST_DIR"), "/../examples/cut.in"));
/// let mut area = [0; ANY_AREA];
/// let answer = answer(&input[1..], 0, &mut area)?;
/// assert_eq!(answer.width(), Some(40));
/// let source = answer.concatenations().next().unwrap();
/// let mut components = source.components();
/// assert_eq!(components.next().unwrap().kind(), Kind::Variable(b"amount"));
/// let merged = Kind::Literal { width: 16, bytes: &[0x34, 0x12] };
/// assert_eq!(components.next().unwrap().kind(), merged);
/// assert_eq!(components.next(), None);
///
/// let refusal = layout_reader::answer(&[], 0, &mut []).unwrap_err();
/// assert_eq!(refusal.to_string(), "refused 2 0 0");
/// assert_eq!(refusal.words(), "the image is shorter than its header");
/// # Ok::<(), layout_reader::Refusal>(())
/// ```
pub fn answer<'a>(image: &'a [u8], mode: u32, area: &'a mut [u8]) -> Result<Answer<'a>, Refusal> {
    let length = run(image, mode, area)?;
    Ok(left(image, area, length))
}

/// Runs as `run_with` does, and hands out the answer that the area now holds,
/// as `answer` does, and the starting value in force.
///
/// ```
/// use layout_reader::{answer, answer_with, ANY_AREA};
///
/// // ..4, a[..4]; b[..8]
/// let input = include_bytes!(concat!(env!("CARGO_MANIFEST_DIR"), "/../tests/link.d/filler.in"));
/// let (image, mut area) = (&input[1..], [0; ANY_AREA]);
/// let refusal = answer(image, 1, &mut area).unwrap_err();
/// assert_eq!(refusal.words(), "a filler in the source, with a return type and no starting value");
///
/// let (answer, value) = answer_with(image, 1, b"umax", &mut area)?;
/// assert_eq!((answer.width(), value), (Some(8), &b"umax"[..]));
/// assert_eq!(answer.starting_value(), None); // the line has none of its own
/// # Ok::<(), layout_reader::Refusal>(())
/// ```
pub fn answer_with<'a>(
    image: &'a [u8],
    mode: u32,
    default: &'a [u8],
    area: &'a mut [u8],
) -> Result<(Answer<'a>, &'a [u8]), Refusal> {
    let (length, value) = run_with(image, mode, default, area)?;
    Ok((left(image, area, length), value))
}

/// The answer that a run has left in an area.
fn left<'a>(image: &'a [u8], area: &'a [u8], length: usize) -> Answer<'a> {
    Answer::unchecked(entry(area, 0, length), image)
}

/// The text that the program `layout` prints for an input, one mode byte and an
/// image: its length, or nothing where it is longer than the buffer.
pub fn listing(input: &[u8], out: &mut [u8]) -> Option<usize> {
    let (input_length, out_length) = (input.len() as u64, out.len() as u64);
    // SAFETY: as in `run`, with the input read and the buffer written.
    let length =
        unsafe { layout_listing(input.as_ptr(), input_length, out.as_mut_ptr(), out_length) };
    (length > 0).then_some(length as usize)
}

/// The image check alone: nothing, or the refusal (numbers 2 to 7) that a run of
/// this image gets in each of the three modes.
pub fn check(image: &[u8]) -> Result<(), Refusal> {
    // SAFETY: as in `run`, with the image read.
    match unsafe { layout_check(image.as_ptr(), image.len() as u64) } {
        0 => Ok(()),
        number => Err(Refusal { number, concatenation: 0, component: 0 }),
    }
}

/// Writes the image of a layout editor's flat list of tokens, whose texts are
/// parts of a text, and hands it out; `Token::to_bytes` makes the list. Any bytes
/// may be lent as either.
///
/// Outside all groups `,` ends a component, and `;` a concatenation too. A run
/// of identifiers becomes one text, joined by spaces; every other token is a
/// record of its own. A list has the most significant component of a
/// concatenation first, as a line has it; the image has it last.
///
/// Accepted: the image stands in the area from its first byte, the bytes after it
/// are as lent. It passes `check`. Its literal widths are 0, so a run refuses a
/// component that begins with a digit or `-` with number 17, until its width and
/// its bits are filled in. Refused (numbers 50 to 53, in this order, each over
/// the whole list before the next): the area is as lent.
///
/// ```
/// use layout_reader::{answer, tokens, Kind, Token, TokenKind, ANY_AREA, ANY_IMAGE};
/// use TokenKind::{Identifier, Punctuation};
///
/// let text = b"high, low; all";
/// let list = [
///     Token::new(Identifier, 0, 4),
///     Token::new(Punctuation, 4, 1),
///     Token::new(Identifier, 6, 3),
///     Token::new(Punctuation, 9, 1),
///     Token::new(Identifier, 11, 3),
/// ];
/// let list = list.map(Token::to_bytes).concat();
/// let (mut area, mut room) = ([0; ANY_IMAGE], [0; ANY_AREA]);
/// let image = tokens(&list, text, &mut area)?;
/// let answer = answer(image, 0, &mut room)?;
/// let kinds: Vec<Kind> = answer.components().map(|component| component.kind()).collect();
/// let expected = [b"low", &b"high"[..], b"all"].map(Kind::Variable);
/// assert_eq!(kinds, expected);
///
/// // high, low;
/// let refusal = tokens(&list[..4 * 12], text, &mut area).unwrap_err();
/// assert_eq!(refusal.to_string(), "refused 51 0 0");
/// assert_eq!(refusal.words(), "a component without a token");
/// # Ok::<(), layout_reader::Refusal>(())
/// ```
pub fn tokens<'a>(list: &[u8], text: &[u8], area: &'a mut [u8]) -> Result<&'a [u8], Refusal> {
    // SAFETY: as in `run`, with list and text read and the area written.
    let outcome = unsafe {
        layout_tokens(
            list.as_ptr(),
            list.len() as u64,
            text.as_ptr(),
            text.len() as u64,
            area.as_mut_ptr(),
            area.len() as u64,
        )
    };
    Ok(entry(area, 0, length_of(outcome)?))
}

#[cfg(test)]
mod tests {
    use super::{in_force, DEFAULT_IN_FORCE};

    /// A part of one of the two, whatever the number is.
    #[test]
    fn any_number_told() {
        let (image, default) = (&b"image"[..], &b"default"[..]);
        for (told, part) in [
            (DEFAULT_IN_FORCE, default),
            (1 << 32 | 3, b"mag"),
            (5 << 32, b""),
            (0, b""),
            (1 << 32 | 5, b""),
            (6 << 32, b""),
            (DEFAULT_IN_FORCE | 1, b""),
            (u64::MAX, b""),
        ] {
            assert_eq!(in_force(told, image, default), part, "{told:#x}");
        }
    }
}
