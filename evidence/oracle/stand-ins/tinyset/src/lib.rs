//! Stand-in: a set as a short sorted list. It is gone through in rising order, which is rule 5's; the true one has an order of
//! its own.
use smallvec::SmallVec;
use std::borrow::Borrow;

/// 0 for the rising order. Any other number scrambles it, to see that clear sessions do not depend on it.
pub static SCRAMBLE: std::sync::atomic::AtomicU64 = std::sync::atomic::AtomicU64::new(0);
#[inline]
fn key(x: u64) -> u64 {
    let m = SCRAMBLE.load(std::sync::atomic::Ordering::Relaxed);
    if m == 0 { x } else { (x ^ m).wrapping_mul(0x9E37_79B9_7F4A_7C15) }
}

pub trait Fits64: Copy + Eq {
    unsafe fn from_u64(x: u64) -> Self;
    fn to_u64(self) -> u64;
}
macro_rules! fits {
    ($($t:ty),*) => { $(impl Fits64 for $t {
        unsafe fn from_u64(x: u64) -> Self { x as $t }
        fn to_u64(self) -> u64 { self as u64 }
    })* };
}
fits!(u8, u16, u32, u64, usize);

pub mod set64 {
    use super::*;
    pub struct Set64<T>(pub(crate) SmallVec<[T; 8]>);
    impl<T: Fits64> Clone for Set64<T> {
        fn clone(&self) -> Self {
            Set64(SmallVec::from_slice(&self.0))
        }
    }
    impl<T> Default for Set64<T> {
        fn default() -> Self {
            Set64(SmallVec::new_const())
        }
    }
    impl<T: Fits64 + std::fmt::Debug> std::fmt::Debug for Set64<T> {
        fn fmt(&self, f: &mut std::fmt::Formatter<'_>) -> std::fmt::Result {
            f.debug_set().entries(self.0.iter()).finish()
        }
    }
    impl<T: Fits64> PartialEq for Set64<T> {
        fn eq(&self, o: &Self) -> bool {
            self.0 == o.0
        }
    }
    impl<T: Fits64> Eq for Set64<T> {}
    impl<T: Fits64> std::hash::Hash for Set64<T> {
        fn hash<H: std::hash::Hasher>(&self, h: &mut H) {
            h.write_usize(self.0.len());
            for x in &self.0 {
                h.write_u64(x.to_u64());
            }
        }
    }
    impl<T: Fits64> Set64<T> {
        pub fn new() -> Self {
            Self::default()
        }
        pub fn len(&self) -> usize {
            self.0.len()
        }
        pub fn is_empty(&self) -> bool {
            self.0.is_empty()
        }
        fn find(&self, k: u64) -> Result<usize, usize> {
            match self.0.last() {
                None => Err(0),
                Some(l) if key(l.to_u64()) < k => Err(self.0.len()),
                _ => self.0.binary_search_by_key(&k, |x| key(x.to_u64())),
            }
        }
        pub fn insert(&mut self, x: T) -> bool {
            match self.find(key(x.to_u64())) {
                Ok(_) => false,
                Err(i) => {
                    self.0.insert(i, x);
                    true
                }
            }
        }
        pub fn contains<R: Borrow<T>>(&self, x: R) -> bool {
            self.find(key(x.borrow().to_u64())).is_ok()
        }
        pub fn iter(&self) -> std::iter::Copied<std::slice::Iter<'_, T>> {
            self.0.iter().copied()
        }
    }
    impl<T: Fits64> FromIterator<T> for Set64<T> {
        fn from_iter<I: IntoIterator<Item = T>>(i: I) -> Self {
            let mut v: SmallVec<[T; 8]> = i.into_iter().collect();
            if !v.windows(2).all(|w| key(w[0].to_u64()) < key(w[1].to_u64())) {
                v.sort_unstable_by_key(|x| key(x.to_u64()));
                v.dedup();
            }
            Set64(v)
        }
    }
    impl<T: Fits64> Extend<T> for Set64<T> {
        fn extend<I: IntoIterator<Item = T>>(&mut self, i: I) {
            for x in i {
                self.insert(x);
            }
        }
    }
    pub struct IntoIter<T>(smallvec::IntoIter<[T; 8]>);
    impl<T> Iterator for IntoIter<T> {
        type Item = T;
        fn next(&mut self) -> Option<T> {
            self.0.next()
        }
        fn size_hint(&self) -> (usize, Option<usize>) {
            self.0.size_hint()
        }
    }
    impl<T: Fits64> IntoIterator for Set64<T> {
        type Item = T;
        type IntoIter = IntoIter<T>;
        fn into_iter(self) -> IntoIter<T> {
            IntoIter(self.0.into_iter())
        }
    }
}
pub use set64::Set64;
