//! Why a call fails.

use arrow::error::ArrowError;

#[derive(Debug)]
pub enum DataFusionError {
    ArrowError(ArrowError),
    Internal(String),
    NotImplemented(String),
}

pub type Result<T, E = DataFusionError> = std::result::Result<T, E>;

impl std::fmt::Display for DataFusionError {
    fn fmt(&self, f: &mut std::fmt::Formatter) -> std::fmt::Result {
        match self {
            DataFusionError::ArrowError(error) => write!(f, "{error}"),
            DataFusionError::Internal(what) => write!(f, "{what}"),
            DataFusionError::NotImplemented(what) => write!(f, "not implemented: {what}"),
        }
    }
}

impl std::error::Error for DataFusionError {}

impl From<ArrowError> for DataFusionError {
    fn from(error: ArrowError) -> Self {
        DataFusionError::ArrowError(error)
    }
}

/// An error of the arrays, as one of this crate.
#[macro_export]
macro_rules! arrow_datafusion_err {
    ($error:expr) => {
        $crate::DataFusionError::ArrowError($error)
    };
}

/// A failure that nobody expects.
#[macro_export]
macro_rules! internal_err {
    ($($text:tt)*) => {
        Err($crate::DataFusionError::Internal(format!($($text)*)))
    };
}

/// A call that is not there.
#[macro_export]
macro_rules! not_impl_err {
    ($($text:tt)*) => {
        Err($crate::DataFusionError::NotImplemented(format!($($text)*)))
    };
}
