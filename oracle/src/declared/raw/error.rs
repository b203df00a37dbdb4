// The raw layer's error type, as far as raw/mod.rs names it.

#[derive(Debug)]
pub enum Error {
    Version { expected: u64, got: u64 },
    Format { size: usize },
    ChecksumMissing,
    ChecksumMismatch { expected: u32, got: u32 },
    FromUtf8(std::string::FromUtf8Error),
}

impl From<std::string::FromUtf8Error> for Error {
    fn from(error: std::string::FromUtf8Error) -> Error {
        Error::FromUtf8(error)
    }
}
