//! Stand-in for `kagari_types`: the one name that the carried files use.

pub mod ty {
    /// The semantic type of a slot, as far as `inline_host` tells types apart.
    #[derive(Debug, Clone, PartialEq, Eq)]
    pub enum Ty {
        /// Any type that is none of the others.
        Other,
        /// A host type. Which one is never looked at.
        Host(()),
        /// A reference. To what is never looked at.
        Reference {},
        Tuple(Vec<Ty>),
    }

    impl Ty {
        /// The port leaves the stored-reference gate out. `flow.rs` asks this only
        /// of functions whose effects say `may_suspend`, and the oracle builds none.
        pub fn contains_stored_reference(&self) -> bool {
            unreachable!("no function of the oracle has the effect may_suspend")
        }
    }
}
