//! Stand-in for `anyhow`: an error that is a message.

use std::fmt;

pub struct Error(String);

pub type Result<T> = std::result::Result<T, Error>;

impl Error {
    pub fn msg(message: String) -> Self {
        Error(message)
    }
}

impl fmt::Debug for Error {
    fn fmt(&self, f: &mut fmt::Formatter<'_>) -> fmt::Result {
        f.write_str(&self.0)
    }
}

impl<E: std::error::Error> From<E> for Error {
    fn from(error: E) -> Self {
        Error(error.to_string())
    }
}

#[macro_export]
macro_rules! anyhow {
    ($($message:tt)*) => {
        $crate::Error::msg(format!($($message)*))
    };
}
