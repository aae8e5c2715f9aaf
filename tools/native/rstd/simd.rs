//! Vectors of sixteen bytes.

#[allow(non_camel_case_types)]
#[derive(Clone, Copy)]
pub struct u8x16(lanes::Lanes);
#[derive(Clone, Copy)]
pub struct Mask(lanes::Lanes);

pub mod prelude {
    pub use super::u8x16;
}

/// A lane of a mask has all bits set, or none.
#[cfg(target_arch = "x86_64")]
mod lanes {
    use std::arch::x86_64::*;
    pub type Lanes = __m128i;
    #[inline(always)]
    pub fn splat(byte: u8) -> Lanes {
        unsafe { _mm_set1_epi8(byte as i8) }
    }
    #[inline(always)]
    pub fn load(bytes: &[u8; 16]) -> Lanes {
        unsafe { _mm_loadu_si128(bytes.as_ptr().cast()) }
    }
    #[inline(always)]
    pub fn at_least(a: Lanes, b: Lanes) -> Lanes {
        unsafe { _mm_cmpeq_epi8(_mm_max_epu8(a, b), a) }
    }
    #[inline(always)]
    pub fn equal(a: Lanes, b: Lanes) -> Lanes {
        unsafe { _mm_cmpeq_epi8(a, b) }
    }
    #[inline(always)]
    pub fn less(a: Lanes, b: Lanes) -> Lanes {
        unsafe { _mm_sub_epi8(a, b) }
    }
    #[inline(always)]
    pub fn both(a: Lanes, b: Lanes) -> Lanes {
        unsafe { _mm_and_si128(a, b) }
    }
    #[inline(always)]
    pub fn not(a: Lanes) -> Lanes {
        unsafe { _mm_xor_si128(a, _mm_set1_epi8(-1)) }
    }
    #[inline(always)]
    pub fn bits(a: Lanes) -> u64 {
        unsafe { _mm_movemask_epi8(a) as u32 as u64 }
    }
}

#[cfg(not(target_arch = "x86_64"))]
mod lanes {
    pub type Lanes = [u8; 16];
    fn each(a: Lanes, b: Lanes, lane: impl Fn(u8, u8) -> u8) -> Lanes {
        let mut lanes = a;
        for (place, other) in lanes.iter_mut().zip(b) {
            *place = lane(*place, other);
        }
        lanes
    }
    fn all(is_set: bool) -> u8 {
        if is_set {
            u8::MAX
        } else {
            0
        }
    }
    pub fn splat(byte: u8) -> Lanes {
        [byte; 16]
    }
    pub fn load(bytes: &[u8; 16]) -> Lanes {
        *bytes
    }
    pub fn at_least(a: Lanes, b: Lanes) -> Lanes {
        each(a, b, |x, y| all(x >= y))
    }
    pub fn equal(a: Lanes, b: Lanes) -> Lanes {
        each(a, b, |x, y| all(x == y))
    }
    pub fn less(a: Lanes, b: Lanes) -> Lanes {
        each(a, b, u8::wrapping_sub)
    }
    pub fn both(a: Lanes, b: Lanes) -> Lanes {
        each(a, b, |x, y| x & y)
    }
    pub fn not(a: Lanes) -> Lanes {
        a.map(|lane| !lane)
    }
    pub fn bits(a: Lanes) -> u64 {
        let bit = |(place, lane): (usize, &u8)| u64::from(lane >> 7) << place;
        a.iter().enumerate().map(bit).sum()
    }
}

impl u8x16 {
    #[inline(always)]
    pub fn splat(byte: u8) -> Self {
        u8x16(lanes::splat(byte))
    }
    #[inline(always)]
    pub fn from_slice(bytes: &[u8]) -> Self {
        let mut front = [0; 16];
        front.copy_from_slice(&bytes[..16]);
        u8x16(lanes::load(&front))
    }
    #[inline(always)]
    pub fn simd_ge(self, other: Self) -> Mask {
        Mask(lanes::at_least(self.0, other.0))
    }
    #[inline(always)]
    pub fn simd_eq(self, other: Self) -> Mask {
        Mask(lanes::equal(self.0, other.0))
    }
    #[inline(always)]
    pub fn simd_ne(self, other: Self) -> Mask {
        Mask(lanes::not(lanes::equal(self.0, other.0)))
    }
}
impl std::ops::Sub for u8x16 {
    type Output = Self;
    #[inline(always)]
    fn sub(self, other: Self) -> Self {
        u8x16(lanes::less(self.0, other.0))
    }
}
impl std::ops::BitAnd for Mask {
    type Output = Self;
    #[inline(always)]
    fn bitand(self, other: Self) -> Self {
        Mask(lanes::both(self.0, other.0))
    }
}
impl Mask {
    #[inline(always)]
    pub fn to_bitmask(self) -> u64 {
        lanes::bits(self.0)
    }
}
