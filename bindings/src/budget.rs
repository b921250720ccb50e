//! What is charged.

/// What is charged so far. Begin with [`Budget::default`], which is zero; hand in the
/// budget of the last answer to let several scripts share one. Sums stop at [`u64::MAX`].
#[repr(C)]
#[derive(Debug, Clone, Copy, PartialEq, Eq, Default)]
pub struct Budget {
    /// Steps of work. Above the limit, [`Limits::work`](crate::Limits::work) or 100,000,000,
    /// a script is refused.
    pub work: u64,
    /// Bytes of await facts. If an await leaves more than the limit,
    /// [`Limits::facts`](crate::Limits::facts) or 67,108,864, its script is refused.
    pub retained: u64,
}
