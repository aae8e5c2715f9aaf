//! What the code uses of the kit's library, over that of Rust. Memory that isn't given is
//! told, as the kit's library tells it: nothing here takes it by force.

pub mod alloc {
    #[derive(Clone, Copy, Debug, PartialEq, Eq)]
    pub struct AllocError;
    #[derive(Clone, Copy, Debug, PartialEq, Eq, Default)]
    pub struct Global;
    pub struct AllocFailed<T>(pub T);
    impl<T> From<AllocFailed<T>> for AllocError {
        fn from(_: AllocFailed<T>) -> Self {
            AllocError
        }
    }
}
pub mod marker {
    pub use std::marker::PhantomData;
    pub struct Brand;
    pub trait Model {}
}
pub mod num {
    pub fn f64_from_bits_with_nan(x: u64) -> f64 {
        f64::from_bits(x)
    }
    pub fn f64_to_bits_with_nan(x: f64) -> u64 {
        x.to_bits()
    }
    pub fn nearest_i64_to_f64(x: i64) -> f64 {
        x as f64
    }
    pub fn nearest_u64_to_f64(x: u64) -> f64 {
        x as f64
    }
    pub fn nearest_u32_to_f64(x: u32) -> f64 {
        x as f64
    }
    pub fn nearest_i128_to_f64(x: i128) -> f64 {
        x as f64
    }
    pub fn nearest_u128_to_f64(x: u128) -> f64 {
        x as f64
    }
    pub fn saturating_f64_to_i64(x: f64) -> i64 {
        x as i64
    }
    pub fn saturating_f64_to_u32(x: f64) -> u32 {
        x as u32
    }
    pub fn saturating_f64_to_u64(x: f64) -> u64 {
        x as u64
    }
}
pub mod rc {
    use crate::alloc::{AllocError, Global};
    use std::cell::Cell;
    use std::ptr::NonNull;
    /// A value that is shared in one thread, and how many share it.
    struct Shared<T> {
        count: Cell<usize>,
        value: T,
    }
    pub struct Rc<T>(NonNull<Shared<T>>);
    impl<T> Rc<T> {
        pub fn new(_: Global, value: T) -> Result<Self, AllocError> {
            let shared = Shared {
                count: Cell::new(1),
                value,
            };
            Ok(Rc(NonNull::from(Box::leak(crate::boxed(shared)?))))
        }
        #[inline]
        fn shared(&self) -> &Shared<T> {
            // It is there as long as one shares it.
            unsafe { self.0.as_ref() }
        }
        #[inline]
        pub fn clone(&self) -> Result<Self, AllocError> {
            let count = &self.shared().count;
            count.set(count.get().checked_add(1).ok_or(AllocError)?);
            Ok(Rc(self.0))
        }
    }
    impl<T> Drop for Rc<T> {
        fn drop(&mut self) {
            let left = self.shared().count.get() - 1;
            self.shared().count.set(left);
            if left == 0 {
                // This was the last one.
                drop(unsafe { Box::from_raw(self.0.as_ptr()) });
            }
        }
    }
    impl<T> std::ops::Deref for Rc<T> {
        type Target = T;
        #[inline]
        fn deref(&self) -> &T {
            &self.shared().value
        }
    }
}
pub mod thiserror {
    pub trait Error {}
}
pub mod memchr {
    extern "C" {
        #[link_name = "memchr"]
        fn c_memchr(s: *const u8, c: i32, n: usize) -> *const u8;
    }
    pub fn memchr(c: u8, s: &[u8]) -> Option<usize> {
        let p = unsafe { c_memchr(s.as_ptr(), c as i32, s.len()) };
        if p.is_null() {
            None
        } else {
            Some(p as usize - s.as_ptr() as usize)
        }
    }
}
pub mod itoa {
    pub struct Buffer {
        b: [u8; 48],
    }
    pub trait Int: Copy {
        fn wide(self) -> i128;
    }
    macro_rules! ints { ($($t:ty)*) => { $(impl Int for $t { fn wide(self) -> i128 { self as i128 } })* } }
    ints!(i8 u8 i16 u16 i32 u32 i64 u64 isize usize i128 u128);
    #[inline(always)]
    fn write_pair(pair: u64, buf: &mut [u8], at: usize) {
        let from = pair as usize * 2;
        buf[at] = D[from];
        buf[at + 1] = D[from + 1];
    }
    #[inline(always)]
    fn write_first(n: u64, buf: &mut [u8], end: usize) -> usize {
        if n < 10 {
            buf[end - 1] = b'0' + n as u8;
            return end - 1;
        }
        write_pair(n, buf, end - 2);
        end - 2
    }
    #[inline]
    pub fn write_digits(n: u64, buf: &mut [u8], end: usize) -> usize {
        let (mut left, mut at) = (n, end);
        while left >= 10_000 {
            let four = left % 10_000;
            left /= 10_000;
            write_pair(four % 100, buf, at - 2);
            write_pair(four / 100, buf, at - 4);
            at -= 4;
        }
        if left < 100 {
            return write_first(left, buf, at);
        }
        write_pair(left % 100, buf, at - 2);
        write_first(left / 100, buf, at - 2)
    }
    const D: &[u8; 200] = b"00010203040506070809101112131415161718192021222324252627282930313233343536373839404142434445464748495051525354555657585960616263646566676869707172737475767778798081828384858687888990919293949596979899";
    impl Buffer {
        #[inline]
        pub fn new() -> Self {
            Buffer { b: [0; 48] }
        }
        #[inline]
        pub fn format<T: Int>(&mut self, t: T) -> &str {
            let w = t.wide();
            let neg = w < 0;
            let mut big = w.unsigned_abs();
            let mut i = 48;
            while big >= 10000000000000000000 {
                let r = (big % 10) as u8;
                big /= 10;
                i -= 1;
                self.b[i] = b'0' + r;
            }
            let mut n = big as u64;
            while n >= 100 {
                let r = (n % 100) as usize * 2;
                n /= 100;
                i -= 2;
                self.b[i] = D[r];
                self.b[i + 1] = D[r + 1];
            }
            if n >= 10 {
                let r = n as usize * 2;
                i -= 2;
                self.b[i] = D[r];
                self.b[i + 1] = D[r + 1];
            } else {
                i -= 1;
                self.b[i] = b'0' + n as u8;
            }
            if neg {
                i -= 1;
                self.b[i] = b'-';
            }
            unsafe { std::str::from_utf8_unchecked(&self.b[i..]) }
        }
    }
}
pub mod clap;
pub mod collections;
pub mod indexmap;
pub mod simd;
pub mod system;
pub mod vec;
pub use system::{env, io, process};
pub mod prelude {
    pub use crate::rvec;
    pub use crate::system::HostRuntime;
    pub use crate::vec::Vec;
    pub use crate::{DivCeil, IterExt};
}

#[macro_export]
macro_rules! rvec {
    (in $a:expr; $x:expr; $n:expr) => { $crate::vec::Vec::from_elem($a, $x, $n) };
    (in $a:expr; $($x:expr),* $(,)?) => { $crate::vec::Vec::from_array($a, [$($x),*]) };
}
pub trait IterExt: Iterator + Sized {
    fn rcollect(self, alloc: alloc::Global) -> Result<vec::Vec<Self::Item>, alloc::AllocError> {
        let mut items = vec::Vec::with_capacity(alloc, self.size_hint().0)?;
        for item in self {
            items.push(item)?;
        }
        Ok(items)
    }
}
impl<I: Iterator> IterExt for I {}

/// A quotient rounded up, for compilers that don't have it. Where one does, its own is called.
pub trait DivCeil {
    fn div_ceil(self, other: Self) -> Self;
}
impl DivCeil for u128 {
    fn div_ceil(self, other: u128) -> u128 {
        self / other + u128::from(self % other != 0)
    }
}

/// A value in a box. A list that has one place has the room of a box.
pub fn boxed<T>(value: T) -> Result<Box<T>, alloc::AllocError> {
    let items = vec::Vec::from_array(alloc::Global, [value])?.0;
    let place = Box::into_raw(items.into_boxed_slice());
    // A slice of one value lies where the value does.
    Ok(unsafe { Box::from_raw(place as *mut T) })
}
