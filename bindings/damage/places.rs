//! A slice to lend, inside a larger allocation. Around the slice lie guard places, and beyond the places that a call
//! may write lie further ones, all filled with a known pattern.

use crate::random::mixed;

/// Guard places before a slice and after it.
const GUARD: usize = 64;
/// How many places longer than it needs a slice can be lent.
pub const MORE: usize = 40;

/// A number of a place, as its bits.
pub trait Place: Copy + PartialEq {
    const BITS: u32;
    fn from_bits(bits: u64) -> Self;
    fn to_bits(self) -> u64;
}

macro_rules! place {
    ($($number:ident, $unsigned:ident;)*) => {$(
        impl Place for $number {
            const BITS: u32 = <$number>::BITS;
            fn from_bits(bits: u64) -> Self {
                bits as $number
            }
            fn to_bits(self) -> u64 {
                self as $unsigned as u64
            }
        }
    )*};
}

place! { u32, u32; i32, u32; u64, u64; i64, u64; usize, usize; }

/// The pattern of a place.
fn pattern<T: Place>(place: usize) -> T {
    T::from_bits(mixed(place as u64 + 0x5EED))
}

/// The allocation: guard places, the places that are needed, further ones, guard places.
pub struct Places<T> {
    all: Vec<T>,
    needed: usize,
    /// How many places the next call is lent.
    lent: usize,
    /// The lent places in an allocation of just their length, where that was asked for.
    exact: Option<Box<[T]>>,
}

/// What damage and checks need of a slice, whatever its numbers are.
pub trait Slice {
    /// How many places it needs.
    fn needed(&self) -> usize;
    fn lent(&self) -> usize;
    fn set_lent(&mut self, places: usize);
    /// The width of a number.
    fn bits(&self) -> u32;
    fn get(&self, place: usize) -> u64;
    fn put(&mut self, place: usize, bits: u64);
    /// Whether guards and the places beyond the needed ones hold their pattern.
    fn frame_holds(&self) -> bool;
}

impl<T: Place> Places<T> {
    pub fn new(needed: usize, exact: bool) -> Places<T> {
        let length = GUARD + needed + MORE + GUARD;
        let exact = exact.then(|| Vec::new().into_boxed_slice());
        Places { all: (0..length).map(pattern).collect(), needed, lent: needed, exact }
    }

    /// The places that are needed.
    pub fn values(&self) -> &[T] {
        &self.all[GUARD..GUARD + self.needed]
    }

    pub fn values_mut(&mut self) -> &mut [T] {
        &mut self.all[GUARD..GUARD + self.needed]
    }

    /// The pointer and the number of places that a call is given.
    pub fn lend(&mut self) -> (*mut T, usize) {
        let lent = &mut self.all[GUARD..GUARD + self.lent];
        let Some(exact) = &mut self.exact else {
            return (lent.as_mut_ptr(), self.lent);
        };
        *exact = lent.to_vec().into_boxed_slice();
        (exact.as_mut_ptr(), self.lent)
    }

    /// After the call: what was lent in an allocation of its own comes back.
    pub fn take_back(&mut self) {
        if let Some(exact) = &self.exact {
            self.all[GUARD..GUARD + self.lent].copy_from_slice(exact);
        }
    }

    /// Every place holds its pattern.
    pub fn refill(&mut self) {
        for (place, value) in self.all.iter_mut().enumerate() {
            *value = pattern(place);
        }
    }

    pub fn copy_from(&mut self, other: &Places<T>) {
        self.all.copy_from_slice(&other.all);
        self.lent = other.lent;
    }

    /// Whether every place is equal, guards too.
    pub fn same(&self, other: &Places<T>) -> bool {
        self.all == other.all
    }

    /// Whether every place is equal but the first ones.
    pub fn same_from(&self, first: usize, other: &Places<T>) -> bool {
        let from = GUARD + first;
        self.all[from..] == other.all[from..] && self.all[..GUARD] == other.all[..GUARD]
    }
}

impl<T: Place> Slice for Places<T> {
    fn needed(&self) -> usize {
        self.needed
    }

    fn lent(&self) -> usize {
        self.lent
    }

    fn set_lent(&mut self, places: usize) {
        assert!(places <= self.needed + MORE);
        self.lent = places;
    }

    fn bits(&self) -> u32 {
        T::BITS
    }

    fn get(&self, place: usize) -> u64 {
        self.values()[place].to_bits()
    }

    fn put(&mut self, place: usize, bits: u64) {
        self.values_mut()[place] = T::from_bits(bits);
    }

    fn frame_holds(&self) -> bool {
        let beyond = GUARD + self.needed;
        let holds = |place: usize| self.all[place] == pattern(place);
        (0..GUARD).all(holds) && (beyond..self.all.len()).all(holds)
    }
}
