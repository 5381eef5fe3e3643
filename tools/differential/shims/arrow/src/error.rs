//! Why a call of this crate fails.

#[derive(Debug)]
pub enum ArrowError {
    /// Something that the stand-in does not have.
    NotYetImplemented(String),
    /// Arguments that do not go together.
    InvalidArgumentError(String),
}

impl std::fmt::Display for ArrowError {
    fn fmt(&self, f: &mut std::fmt::Formatter) -> std::fmt::Result {
        match self {
            ArrowError::NotYetImplemented(what) => write!(f, "not there: {what}"),
            ArrowError::InvalidArgumentError(what) => write!(f, "wrong arguments: {what}"),
        }
    }
}

impl std::error::Error for ArrowError {}
