//! Stand-in for `kagari_abi`: the one name that the carried files use.

pub mod representation {
    /// The physical representation of a slot, as named by `physical` in the
    /// source's presentation.rs.
    #[derive(Debug, Clone, Copy, PartialEq, Eq)]
    pub enum ValueType {
        Never,
        Unit,
        Bool,
        I32,
        I64,
        U64,
        F32,
        F64,
        Str,
        HeapObject,
        HostHandle,
        Generic,
        Char,
    }
}
