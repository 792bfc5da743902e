//! What must be so; a fault is told in words.
use std::fmt::Debug;

/// The two are the same.
pub fn same<T: PartialEq + Debug>(what: &str, is: &T, should: &T) -> Result<(), String> {
    if is == should {
        return Ok(());
    }
    Err(format!("{what}: {is:?}, not {should:?}"))
}

pub fn holds(what: &str, ok: bool) -> Result<(), String> {
    if ok {
        return Ok(());
    }
    Err(what.to_string())
}
