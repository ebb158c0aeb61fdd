//! The period taken of several that fit equally well.

/// The period that a search takes of several with the same least mean of differences. A sound that repeats exactly after a period also
/// repeats after twice and three times that, and silence after any.
#[derive(Debug, Default, Clone, Copy, PartialEq, Eq, Hash)]
pub enum Ties {
    /// The smallest, as libsonic-rs does.
    #[default]
    Smallest,
    /// The largest.
    Largest,
}

impl Ties {
    /// The number of this choice in the C interface.
    pub(crate) fn number(self) -> u32 {
        match self {
            Self::Smallest => 0,
            Self::Largest => 1,
        }
    }
}
