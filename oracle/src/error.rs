//! Stand-in for the original's `crate::error`, which is not at hand.
//! image.rs needs only this much of it, to turn down ill-sized images;
//! no answer of the harness comes from here.

/// The one case that image.rs builds.
#[derive(Debug)]
pub enum MjpegError {
    InvalidData(String),
}

impl MjpegError {
    pub fn invalid(message: impl Into<String>) -> Self {
        Self::InvalidData(message.into())
    }
}

pub type Result<T> = core::result::Result<T, MjpegError>;
