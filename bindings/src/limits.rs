//! What may be charged.

/// What may be charged before a script is refused.
///
/// A limit can be lowered, not raised: each counts as the smaller of itself and its figure
/// in [`Limits::MOST`], which is also the default.
///
/// ```
/// use kagari_flow::Limits;
///
/// let limits = Limits {
///     work: 1_000_000,
///     ..Limits::default()
/// };
/// assert_eq!(limits.state, Limits::MOST_STATE);
/// ```
#[repr(C)]
#[derive(Debug, Clone, Copy, PartialEq, Eq)]
pub struct Limits {
    /// Steps of work. If [`Budget::work`](crate::Budget::work) comes to more, the script is
    /// refused with [`Number::WorkLimit`](crate::Number::WorkLimit).
    pub work: u64,
    /// Bytes of the check's state. With B blocks, and sets of w words, it takes B × (32 × w +
    /// 264) + 16 × w; if that is more, the script is refused with
    /// [`Number::StateLimit`](crate::Number::StateLimit).
    pub state: u64,
    /// Bytes of await facts. Each await that a path reaches adds 8 × w + 24 to
    /// [`Budget::retained`](crate::Budget::retained); if one brings it to more, the script is
    /// refused with [`Number::FactsLimit`](crate::Number::FactsLimit).
    pub facts: u64,
}

impl Limits {
    /// The most that [`Limits::work`] counts as.
    pub const MOST_WORK: u64 = 100_000_000;

    /// The most that [`Limits::state`] counts as.
    pub const MOST_STATE: u64 = 67_108_864;

    /// The most that [`Limits::facts`] counts as.
    pub const MOST_FACTS: u64 = 67_108_864;

    /// The limits of a call that is handed none.
    pub const MOST: Self = Self {
        work: Self::MOST_WORK,
        state: Self::MOST_STATE,
        facts: Self::MOST_FACTS,
    };
}

impl Default for Limits {
    /// [`Limits::MOST`].
    fn default() -> Self {
        Self::MOST
    }
}
