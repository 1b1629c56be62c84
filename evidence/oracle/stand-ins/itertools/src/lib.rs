//! itertools 0.10.3, with what the Rust uses of later ones: collect_array, all_equal_value, try_collect.
use real::Itertools as R;
use std::hash::Hash;

pub fn chain<I, J>(i: I, j: J) -> std::iter::Chain<I::IntoIter, J::IntoIter>
where
    I: IntoIterator,
    J: IntoIterator<Item = I::Item>,
{
    i.into_iter().chain(j)
}

pub trait Itertools: Iterator {
    fn collect_vec(self) -> Vec<Self::Item>
    where
        Self: Sized,
    {
        self.collect()
    }
    fn positions<P>(self, p: P) -> real::Positions<Self, P>
    where
        Self: Sized,
        P: FnMut(Self::Item) -> bool,
    {
        R::positions(self, p)
    }
    fn collect_array<const N: usize>(mut self) -> Option<[Self::Item; N]>
    where
        Self: Sized,
    {
        let mut tmp: [Option<Self::Item>; N] = std::array::from_fn(|_| None);
        for t in &mut tmp {
            *t = Some(self.next()?);
        }
        if self.next().is_some() {
            return None;
        }
        Some(tmp.map(|x| x.unwrap()))
    }
    fn all_equal(&mut self) -> bool
    where
        Self: Sized,
        Self::Item: PartialEq,
    {
        R::all_equal(self)
    }
    fn all_equal_value(&mut self) -> Result<Self::Item, Option<(Self::Item, Self::Item)>>
    where
        Self: Sized,
        Self::Item: PartialEq,
    {
        let first = self.next().ok_or(None)?;
        match self.find(|x| *x != first) {
            Some(other) => Err(Some((first, other))),
            None => Ok(first),
        }
    }
    fn try_collect<T, U, E>(self) -> Result<U, E>
    where
        Self: Sized + Iterator<Item = Result<T, E>>,
        Result<U, E>: FromIterator<Result<T, E>>,
    {
        self.collect()
    }
    fn join(&mut self, sep: &str) -> String
    where
        Self: Sized,
        Self::Item: std::fmt::Display,
    {
        R::join(self, sep)
    }
    fn unique(self) -> real::Unique<Self>
    where
        Self: Sized,
        Self::Item: Clone + Eq + Hash,
    {
        R::unique(self)
    }
    fn pad_using<F>(self, min: usize, f: F) -> real::PadUsing<Self, F>
    where
        Self: Sized,
        F: FnMut(usize) -> Self::Item,
    {
        R::pad_using(self, min, f)
    }
    /// Pairs only, for the Rust asks for no longer tuple.
    fn tuple_combinations(self) -> std::vec::IntoIter<(Self::Item, Self::Item)>
    where
        Self: Sized,
        Self::Item: Clone,
    {
        let v: Vec<_> = self.collect();
        let mut out = vec![];
        for i in 0..v.len() {
            for j in i + 1..v.len() {
                out.push((v[i].clone(), v[j].clone()));
            }
        }
        out.into_iter()
    }
    fn combinations(self, k: usize) -> real::Combinations<Self>
    where
        Self: Sized,
        Self::Item: Clone,
    {
        R::combinations(self, k)
    }
    fn position_max_by_key<K, F>(self, key: F) -> Option<usize>
    where
        Self: Sized,
        K: Ord,
        F: FnMut(&Self::Item) -> K,
    {
        R::position_max_by_key(self, key)
    }
}
impl<I: Iterator> Itertools for I {}
