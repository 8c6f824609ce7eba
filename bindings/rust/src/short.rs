//! Lists in [`Debug`](core::fmt::Debug): how many, and not each.
use core::fmt;

/// A list by its length: `[14850]`.
pub(crate) struct Short(pub(crate) usize);

impl fmt::Debug for Short {
    fn fmt(&self, f: &mut fmt::Formatter<'_>) -> fmt::Result {
        write!(f, "[{}]", self.0)
    }
}
