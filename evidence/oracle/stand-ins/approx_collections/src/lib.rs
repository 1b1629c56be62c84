//! Stand-in: matches as document 01 has them, and the lowest match. Floats stay as they are given.
use smallvec::SmallVec;
use std::collections::HashMap;
use std::sync::atomic::{AtomicBool, AtomicU64, Ordering::Relaxed};

/// The tolerance, exactly 2^-20.
pub const T: f64 = 1.0 / 1048576.0;
const LO: f64 = 1.0 / 1073741824.0; // 2^-30
const HI: f64 = 1.0 / 1024.0; // 2^-10

/// Whether it is watched that a session is clear, and how many distances and pairs were not.
pub static WATCH: AtomicBool = AtomicBool::new(false);
pub static BAD_DISTANCE: AtomicU64 = AtomicU64::new(0);
pub static BAD_PAIR: AtomicU64 = AtomicU64::new(0);
pub fn watch_distance(s: f64) {
    if WATCH.load(Relaxed) && !(s.abs() < LO || s.abs() > HI) {
        BAD_DISTANCE.fetch_add(1, Relaxed);
    }
}
fn watch_pair(a: &[f64], b: &[f64]) {
    let near = a.iter().zip(b).all(|(x, y)| x.to_bits() == y.to_bits() || (x - y).abs() < LO);
    let far = a.iter().zip(b).any(|(x, y)| (x - y).abs() > HI);
    if !near && !far {
        BAD_PAIR.fetch_add(1, Relaxed);
    }
}

#[derive(Debug, Copy, Clone, PartialEq)]
pub struct Precision(());
impl Precision {
    pub const fn new_simple(_bits: u32) -> Self {
        Precision(())
    }
    pub fn eq<A: ApproxEq>(&self, a: A, b: A) -> bool {
        a.approx_eq(&b, *self)
    }
    pub fn ne<A: ApproxEq>(&self, a: A, b: A) -> bool {
        !self.eq(a, b)
    }
    pub fn eq_zero<A: ApproxEqZero>(&self, a: A) -> bool {
        a.approx_eq_zero(*self)
    }
    pub fn ne_zero<A: ApproxEqZero>(&self, a: A) -> bool {
        !self.eq_zero(a)
    }
}

pub trait ApproxEq {
    fn approx_eq(&self, other: &Self, prec: Precision) -> bool;
}
pub trait ApproxEqZero {
    fn approx_eq_zero(&self, prec: Precision) -> bool;
}
pub trait ApproxInternable {
    fn intern_floats<F: FnMut(&mut f64)>(&mut self, f: &mut F);
}
pub trait ApproxHash: ApproxInternable {
    fn interned_eq(&self, other: &Self) -> bool;
    fn interned_hash<H: std::hash::Hasher>(&self, state: &mut H);
}
impl ApproxEq for f64 {
    fn approx_eq(&self, o: &f64, _: Precision) -> bool {
        let d = self - o;
        self.to_bits() == o.to_bits() || (-T <= d && d <= T)
    }
}
impl ApproxEq for f32 {
    fn approx_eq(&self, o: &f32, p: Precision) -> bool {
        (*self as f64).approx_eq(&(*o as f64), p)
    }
}
impl ApproxEqZero for f64 {
    fn approx_eq_zero(&self, _: Precision) -> bool {
        -T <= *self && *self <= T
    }
}
impl ApproxEqZero for f32 {
    fn approx_eq_zero(&self, p: Precision) -> bool {
        (*self as f64).approx_eq_zero(p)
    }
}
impl<A: ApproxEq + ?Sized> ApproxEq for &A {
    fn approx_eq(&self, o: &Self, p: Precision) -> bool {
        (**self).approx_eq(*o, p)
    }
}
impl<A: ApproxEqZero + ?Sized> ApproxEqZero for &A {
    fn approx_eq_zero(&self, p: Precision) -> bool {
        (**self).approx_eq_zero(p)
    }
}
impl<A: ApproxEq> ApproxEq for [A] {
    fn approx_eq(&self, o: &Self, p: Precision) -> bool {
        self.len() == o.len() && self.iter().zip(o).all(|(a, b)| a.approx_eq(b, p))
    }
}
impl<A: ApproxEqZero> ApproxEqZero for [A] {
    fn approx_eq_zero(&self, p: Precision) -> bool {
        self.iter().all(|a| a.approx_eq_zero(p))
    }
}
impl<A: ApproxEq, const N: usize> ApproxEq for [A; N] {
    fn approx_eq(&self, o: &Self, p: Precision) -> bool {
        self.as_slice().approx_eq(o.as_slice(), p)
    }
}
impl<A: ApproxEqZero, const N: usize> ApproxEqZero for [A; N] {
    fn approx_eq_zero(&self, p: Precision) -> bool {
        self.as_slice().approx_eq_zero(p)
    }
}
impl ApproxInternable for f64 {
    fn intern_floats<F: FnMut(&mut f64)>(&mut self, f: &mut F) {
        f(self)
    }
}
impl ApproxHash for f64 {
    fn interned_eq(&self, o: &f64) -> bool {
        self.to_bits() == o.to_bits() || self == o
    }
    fn interned_hash<H: std::hash::Hasher>(&self, h: &mut H) {
        h.write_u64(self.to_bits())
    }
}
impl<A: smallvec::Array> ApproxInternable for SmallVec<A>
where
    A::Item: ApproxInternable,
{
    fn intern_floats<F: FnMut(&mut f64)>(&mut self, f: &mut F) {
        for x in self.iter_mut() {
            x.intern_floats(f)
        }
    }
}
type Floats = SmallVec<[f64; 8]>;

#[derive(Default, Clone)]
struct IdHasher(u64);
impl std::hash::Hasher for IdHasher {
    fn finish(&self) -> u64 {
        self.0
    }
    fn write(&mut self, _: &[u8]) {
        unreachable!()
    }
    fn write_u64(&mut self, x: u64) {
        self.0 = x
    }
}
type IdBuild = std::hash::BuildHasherDefault<IdHasher>;

/// Keys by their lowest match. Cells of width 2^-8, whose borders no round number is on, make the search short; what it finds
/// is what a search from the first key would.
pub struct ApproxHashMap<K, V> {
    keys: Vec<K>,
    floats: Vec<Floats>,
    values: Vec<V>,
    cells: HashMap<u64, SmallVec<[u32; 4]>, IdBuild>,
    odd: Vec<u32>,
}
const INV_W: f64 = 256.0;
const SHIFT: f64 = 0.001_357_913;
const BIG: f64 = 1099511627776.0; // 2^40
fn mix(h: u64, c: i64) -> u64 {
    let h = (h ^ (c as u64)).wrapping_mul(0x9E37_79B9_7F4A_7C15);
    h ^ (h >> 29)
}
fn is_odd(f: &Floats) -> bool {
    !f.iter().all(|x| x.abs() <= BIG)
}
fn own_cell(f: &Floats) -> u64 {
    f.iter().fold(0x1234, |h, x| mix(h, ((x + SHIFT) * INV_W).floor() as i64))
}
fn probes(f: &[f64], h: u64, out: &mut SmallVec<[u64; 8]>) {
    match f.split_first() {
        None => out.push(h),
        Some((x, rest)) => {
            let lo = ((x - 2.0 * T + SHIFT) * INV_W).floor() as i64;
            let hi = ((x + 2.0 * T + SHIFT) * INV_W).floor() as i64;
            for c in lo..=hi {
                probes(rest, mix(h, c), out);
            }
        }
    }
}
fn matches(old: &[f64], new: &[f64]) -> bool {
    old.len() == new.len()
        && old.iter().zip(new).all(|(a, b)| {
            let d = a - b;
            a.to_bits() == b.to_bits() || (-T <= d && d <= T)
        })
}
impl<K: Clone + ApproxInternable, V> ApproxHashMap<K, V> {
    pub fn new(_prec: Precision) -> Self {
        Self { keys: vec![], floats: vec![], values: vec![], cells: HashMap::default(), odd: vec![] }
    }
    pub fn from_iter(prec: Precision, it: impl IntoIterator<Item = (K, V)>) -> Self {
        let mut m = Self::new(prec);
        for (k, v) in it {
            m.insert(k, v);
        }
        m
    }
    fn floats_of(k: &K) -> Floats {
        let mut out = Floats::new();
        k.clone().intern_floats(&mut |x| out.push(*x));
        out
    }
    fn find(&self, f: &Floats) -> Option<usize> {
        if WATCH.load(Relaxed) {
            for (i, o) in self.floats.iter().enumerate() {
                watch_pair(o, f);
                if matches(o, f) {
                    return Some(i);
                }
            }
            return None;
        }
        if is_odd(f) {
            return self.odd.iter().map(|&i| i as usize).find(|&i| matches(&self.floats[i], f));
        }
        let mut ps = SmallVec::new();
        probes(f, 0x1234, &mut ps);
        let mut best: Option<usize> = None;
        for p in ps {
            if let Some(list) = self.cells.get(&p) {
                for &i in list {
                    let i = i as usize;
                    if best.is_some_and(|b| b <= i) {
                        break;
                    }
                    if matches(&self.floats[i], f) {
                        best = Some(i);
                        break;
                    }
                }
            }
        }
        best
    }
    fn append(&mut self, k: K, f: Floats, v: V) -> usize {
        let i = self.keys.len();
        if is_odd(&f) {
            self.odd.push(i as u32);
        } else {
            self.cells.entry(own_cell(&f)).or_default().push(i as u32);
        }
        self.keys.push(k);
        self.floats.push(f);
        self.values.push(v);
        i
    }
    pub fn insert(&mut self, k: K, v: V) -> Option<V> {
        let f = Self::floats_of(&k);
        match self.find(&f) {
            Some(i) => Some(std::mem::replace(&mut self.values[i], v)),
            None => {
                self.append(k, f, v);
                None
            }
        }
    }
    pub fn entry(&mut self, k: K) -> hash_map::Entry<'_, K, V> {
        let f = Self::floats_of(&k);
        match self.find(&f) {
            Some(i) => hash_map::Entry::Occupied(hash_map::OccupiedEntry { v: &mut self.values[i] }),
            None => hash_map::Entry::Vacant(hash_map::VacantEntry { map: self, k, f }),
        }
    }
}
pub mod hash_map {
    use super::*;
    pub enum Entry<'a, K, V> {
        Occupied(OccupiedEntry<'a, V>),
        Vacant(VacantEntry<'a, K, V>),
    }
    pub struct OccupiedEntry<'a, V> {
        pub(crate) v: &'a mut V,
    }
    impl<'a, V> OccupiedEntry<'a, V> {
        pub fn get(&self) -> &V {
            self.v
        }
    }
    pub struct VacantEntry<'a, K, V> {
        pub(crate) map: &'a mut ApproxHashMap<K, V>,
        pub(crate) k: K,
        pub(crate) f: Floats,
    }
    impl<'a, K: Clone + ApproxInternable, V> VacantEntry<'a, K, V> {
        pub fn key(&self) -> &K {
            &self.k
        }
        pub fn insert(self, v: V) -> &'a mut V {
            let i = self.map.append(self.k, self.f, v);
            &mut self.map.values[i]
        }
    }
}
