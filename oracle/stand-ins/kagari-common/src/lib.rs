//! Stand-in for `kagari_common`: the one name that the carried files use.

pub mod cancellation {
    /// A token that is never cancelled; the port leaves cancellation out.
    #[derive(Debug, Clone, Default)]
    pub struct CancellationToken;

    /// The error of a cancelled token. It is never made.
    #[derive(Debug)]
    pub enum Cancelled {}

    impl CancellationToken {
        pub fn check(&self) -> Result<(), Cancelled> {
            Ok(())
        }
    }
}
