// The crate's error type, as far as raw/mod.rs names it: a `Result`, and a conversion from the raw layer's error.

pub type Result<T> = std::result::Result<T, Error>;

#[derive(Debug)]
pub enum Error {
    Fst(crate::raw::Error),
}

impl From<crate::raw::Error> for Error {
    fn from(error: crate::raw::Error) -> Error {
        Error::Fst(error)
    }
}
