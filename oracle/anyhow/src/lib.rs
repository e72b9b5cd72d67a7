//! Stands in for the crate of this name: an error is its text. No registry is needed.

#[derive(Debug)]
pub struct Error(pub String);

pub type Result<T> = std::result::Result<T, Error>;

impl std::fmt::Display for Error {
    fn fmt(&self, f: &mut std::fmt::Formatter<'_>) -> std::fmt::Result {
        self.0.fmt(f)
    }
}

// `Error` itself is no `std::error::Error`, so that this does not meet `From<Error> for Error`.
impl<E: std::error::Error> From<E> for Error {
    fn from(error: E) -> Error {
        Error(error.to_string())
    }
}

#[macro_export]
macro_rules! anyhow {
    ($($part:tt)*) => { $crate::Error(format!($($part)*)) };
}
