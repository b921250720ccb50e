//! The one child that build.rs adds to the module `flow`: it reads the private sets.

use super::Block;
use crate::verifier::BlockFacts;

impl Block {
    pub(crate) fn read_out(self) -> BlockFacts {
        BlockFacts {
            start: self.start,
            end: self.end,
            successors: self.successors,
            predecessors: self.predecessors,
            reachable: self.reachable,
            initialized: self.initialized,
            live: self.live,
        }
    }
}
