//! A stand-in for the integers that the layout sources lean on: digits of 64
//! bits, lowest first, as the real ones are held, so that the stages take no
//! longer over them. `from_str` reads no text; it asks a function that the
//! caller has set ([`answer_with`]), for the image says what a literal holds.

use std::{
    cell::RefCell,
    num::NonZeroUsize,
    ops::{Deref, DerefMut},
    str::FromStr,
};

/// Bits of a digit.
const DIGIT: usize = 64;

#[derive(Debug, Clone, PartialEq, Eq)]
pub struct Bits {
    width: usize,
    /// The bits from the width on are zeros.
    digits: Vec<u64>,
}

/// Up to 64 bits of some digits from a place on; zeros where there are none.
fn bits_at(digits: &[u64], at: usize) -> u64 {
    let digit = |i: usize| digits.get(i).copied().unwrap_or(0);
    match at % DIGIT {
        0 => digit(at / DIGIT),
        low => digit(at / DIGIT) >> low | digit(at / DIGIT + 1) << (DIGIT - low),
    }
}

impl Bits {
    /// Width in bits.
    pub fn bw(&self) -> usize {
        self.width
    }

    /// Number of bits up to the highest one that is set.
    pub fn sig(&self) -> usize {
        let top = self.digits.iter().rposition(|digit| *digit != 0);
        top.map_or(0, |i| DIGIT * (i + 1) - self.digits[i].leading_zeros() as usize)
    }

    /// The `width` bits from `to` on become those of `rhs` from `from` on;
    /// `None` where one of the two is too short.
    fn field(&mut self, to: usize, rhs: &Bits, from: usize, width: usize) -> Option<()> {
        if to.checked_add(width)? > self.width || from.checked_add(width)? > rhs.width {
            return None;
        }
        let mut done = 0;
        while done < width {
            let low = (to + done) % DIGIT;
            let some = (DIGIT - low).min(width - done);
            let mask = u64::MAX >> (DIGIT - some) << low;
            let digit = &mut self.digits[(to + done) / DIGIT];
            *digit = *digit & !mask | bits_at(&rhs.digits, from + done) << low & mask;
            done += some;
        }
        Some(())
    }

    /// Takes the value of `rhs`, cut or filled with zeros at the high end.
    pub fn zero_resize_(&mut self, rhs: &Bits) {
        self.digits.fill(0);
        self.field(0, rhs, 0, self.width.min(rhs.width)).expect("both are long enough");
    }

    /// The lowest `width` bits become those of `rhs` from `from` on; `None`
    /// where one of the two is too short.
    pub fn field_from(&mut self, rhs: &Bits, from: usize, width: usize) -> Option<()> {
        self.field(0, rhs, from, width)
    }

    /// The `width` bits from `to` on become the lowest of `rhs`; `None` where
    /// one of the two is too short.
    pub fn field_to(&mut self, to: usize, rhs: &Bits, width: usize) -> Option<()> {
        self.field(to, rhs, 0, width)
    }

    /// Writes the bits into `buf`, lowest byte first, cut or filled with zeros.
    pub fn to_u8_slice(&self, buf: &mut [u8]) {
        let bytes = self.digits.iter().flat_map(|digit| digit.to_le_bytes());
        buf.fill(0);
        buf.iter_mut().zip(bytes).for_each(|(to, byte)| *to = byte);
    }
}

#[derive(Debug, Clone, PartialEq, Eq)]
pub struct Awi(Bits);

impl Awi {
    pub fn zero(width: NonZeroUsize) -> Self {
        let width = width.get();
        Self(Bits { width, digits: vec![0; width.div_ceil(DIGIT)] })
    }

    /// `width` bits of `bytes`, lowest byte first.
    pub fn from_bytes(width: NonZeroUsize, bytes: &[u8]) -> Self {
        let digit =
            |bytes: &[u8]| bytes.iter().rev().fold(0, |digit, byte| digit << 8 | u64::from(*byte));
        let digits = bytes[..width.get().div_ceil(8)].chunks(DIGIT / 8).map(digit).collect();
        let given = Bits { width: width.get(), digits };
        // what stands above the width is dropped
        let mut awi = Self::zero(width);
        awi.zero_resize_(&given);
        awi
    }
}

impl Deref for Awi {
    type Target = Bits;

    fn deref(&self) -> &Bits {
        &self.0
    }
}

impl DerefMut for Awi {
    fn deref_mut(&mut self) -> &mut Bits {
        &mut self.0
    }
}

/// Why a text is no integer; one reason is enough here.
#[derive(Debug, Clone, Copy, PartialEq, Eq)]
pub enum SerdeError {
    NoLiteral,
}

type Answer = Box<dyn Fn(&str) -> Option<Awi>>;

thread_local! {
    static ANSWER: RefCell<Option<Answer>> = const { RefCell::new(None) };
}

/// Sets what [`Awi::from_str`] answers on this thread; `None` is an error.
pub fn answer_with(answer: impl Fn(&str) -> Option<Awi> + 'static) {
    ANSWER.set(Some(Box::new(answer)));
}

impl FromStr for Awi {
    type Err = SerdeError;

    fn from_str(s: &str) -> Result<Self, SerdeError> {
        ANSWER
            .with_borrow(|answer| answer.as_ref().expect("answer_with was not called")(s))
            .ok_or(SerdeError::NoLiteral)
    }
}
