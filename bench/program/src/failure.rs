//! How a work fails.
use anyhow::{Error, Result};

/// Fails for a reason. It is put together here, since doing so takes many cases of a proof.
pub fn fail<T>(why: &'static str) -> Result<T> {
    Err(Error::msg(why))
}
