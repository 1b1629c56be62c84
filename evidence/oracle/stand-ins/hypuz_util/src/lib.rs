//! Stand-in: lists with numbers of their own type. With `ti::LIMITS` set they have document 01's room, and what does not fit
//! is an error whose text says the refusal: 8, 9 or 10.
pub use tinyset;
pub mod ti {
    use std::marker::PhantomData;
    use std::sync::atomic::{AtomicBool, Ordering::Relaxed};

    pub static LIMITS: AtomicBool = AtomicBool::new(false);

    #[derive(Debug, Clone)]
    pub struct PushError(pub &'static str);
    impl std::fmt::Display for PushError {
        fn fmt(&self, f: &mut std::fmt::Formatter<'_>) -> std::fmt::Result {
            f.write_str(self.0)
        }
    }
    impl std::error::Error for PushError {}

    pub trait TypedIndex: Copy + Eq + std::hash::Hash + std::fmt::Debug {
        const MAX: usize;
        const NAME: &'static str;
        fn to_index(self) -> usize;
        fn from_index(i: usize) -> Self;
    }
    fn check<I: TypedIndex>(len: usize) -> Result<(), PushError> {
        if LIMITS.load(Relaxed) {
            let (room, code) = match I::NAME {
                "VertexId" => (256, "reply 8"),
                "ElementId" => (512, "reply 9"),
                "HyperplaneId" => (64, "reply 10"),
                _ => (usize::MAX, "?"),
            };
            if len >= room {
                return Err(PushError(code));
            }
        }
        if len > I::MAX {
            return Err(PushError("index overflow"));
        }
        Ok(())
    }
    /// What is appended may refuse: 11.
    pub trait PushCheck {
        fn refusal(&self) -> Option<&'static str> {
            None
        }
    }

    pub struct TiVec<I, T>(pub Vec<T>, PhantomData<I>);
    impl<I, T: std::fmt::Debug> std::fmt::Debug for TiVec<I, T> {
        fn fmt(&self, f: &mut std::fmt::Formatter<'_>) -> std::fmt::Result {
            self.0.fmt(f)
        }
    }
    impl<I: TypedIndex, T> TiVec<I, T> {
        pub fn new() -> Self {
            TiVec(Vec::new(), PhantomData)
        }
        pub fn new_with_len(n: usize) -> Self
        where
            T: Default + Clone,
        {
            TiVec(vec![T::default(); n], PhantomData)
        }
        pub fn len(&self) -> usize {
            self.0.len()
        }
        pub fn push(&mut self, t: T) -> Result<I, PushError>
        where
            T: PushCheck,
        {
            if LIMITS.load(Relaxed)
                && let Some(r) = t.refusal()
            {
                return Err(PushError(r));
            }
            check::<I>(self.0.len())?;
            self.0.push(t);
            Ok(I::from_index(self.0.len() - 1))
        }
        pub fn get(&self, i: I) -> Result<&T, PushError> {
            self.0.get(i.to_index()).ok_or(PushError("index out of range"))
        }
        pub fn iter(&self) -> impl Iterator<Item = (I, &T)> {
            self.0.iter().enumerate().map(|(i, t)| (I::from_index(i), t))
        }
    }
    impl<I: TypedIndex, T> std::ops::Index<I> for TiVec<I, T> {
        type Output = T;
        fn index(&self, i: I) -> &T {
            &self.0[i.to_index()]
        }
    }
    impl<I: TypedIndex, T> std::ops::IndexMut<I> for TiVec<I, T> {
        fn index_mut(&mut self, i: I) -> &mut T {
            &mut self.0[i.to_index()]
        }
    }

    pub mod flat_vec {
        use super::*;
        pub struct FlatTiVec<I, T> {
            width: usize,
            data: Vec<T>,
            p: PhantomData<I>,
        }
        impl<I: TypedIndex, T: Clone + Default> FlatTiVec<I, T> {
            pub fn new(width: usize) -> Self {
                Self { width, data: vec![], p: PhantomData }
            }
            pub fn len(&self) -> usize {
                self.data.len() / self.width
            }
            pub fn push_row(&mut self, row: impl IntoIterator<Item = T>) -> Result<I, PushError> {
                let n = self.len();
                check::<I>(n)?;
                self.data.extend(row.into_iter().take(self.width));
                self.data.resize((n + 1) * self.width, T::default());
                Ok(I::from_index(n))
            }
            pub fn get(&self, i: I) -> Result<&[T], PushError> {
                self.data
                    .get(i.to_index() * self.width..(i.to_index() + 1) * self.width)
                    .ok_or(PushError("index out of range"))
            }
            pub fn iter(&self) -> impl Iterator<Item = (I, &[T])> {
                self.data.chunks(self.width).enumerate().map(|(i, r)| (I::from_index(i), r))
            }
        }
        impl<I: TypedIndex, T> std::ops::Index<I> for FlatTiVec<I, T> {
            type Output = [T];
            fn index(&self, i: I) -> &[T] {
                &self.data[i.to_index() * self.width..(i.to_index() + 1) * self.width]
            }
        }
    }
}
#[macro_export]
macro_rules! typed_index_struct {
    ($($(#[$m:meta])* pub struct $name:ident(pub $t:ty);)*) => { $(
        $(#[$m])*
        #[derive(Debug, Default, Copy, Clone, PartialEq, Eq, Hash, PartialOrd, Ord)]
        pub struct $name(pub $t);
        impl std::fmt::Display for $name {
            fn fmt(&self, f: &mut std::fmt::Formatter<'_>) -> std::fmt::Result { write!(f, "{}", self.0) }
        }
        impl $crate::tinyset::Fits64 for $name {
            unsafe fn from_u64(x: u64) -> Self { $name(x as $t) }
            fn to_u64(self) -> u64 { self.0 as u64 }
        }
        impl $crate::ti::TypedIndex for $name {
            const MAX: usize = <$t>::MAX as usize;
            const NAME: &'static str = stringify!($name);
            fn to_index(self) -> usize { self.0 as usize }
            fn from_index(i: usize) -> Self { $name(i as $t) }
        }
    )* };
}
