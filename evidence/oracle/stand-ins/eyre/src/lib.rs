//! eyre 0.6.8, with what the Rust uses of later ones.
pub use real::{Report, Result, bail, ensure, eyre};

#[allow(non_snake_case)]
pub fn Ok<T>(t: T) -> Result<T> {
    Result::Ok(t)
}

pub trait OptionExt<T> {
    fn ok_or_eyre<M>(self, message: M) -> Result<T>
    where
        M: std::fmt::Debug + std::fmt::Display + Send + Sync + 'static;
}
impl<T> OptionExt<T> for Option<T> {
    fn ok_or_eyre<M>(self, message: M) -> Result<T>
    where
        M: std::fmt::Debug + std::fmt::Display + Send + Sync + 'static,
    {
        match self {
            Some(t) => Result::Ok(t),
            None => Err(Report::msg(message)),
        }
    }
}
