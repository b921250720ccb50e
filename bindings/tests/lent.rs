//! What the check leaves in lent memory.

use kagari_flow::{Accepted, Block, Budget, Buffers, Number, Refusal, Sizes, verify_in};
use kagari_oracle::cases::*;
use kagari_oracle::{Script, sheet};

/// What a word of lent memory holds before the call.
const DIRT: u64 = 0xDEAD_BEEF_DEAD_BEEF;

/// Lent memory that the test looks into afterwards.
struct Memory {
    blocks: Vec<Block>,
    sets: Vec<u64>,
    scratch: Vec<u64>,
}

impl Memory {
    /// Memory of these sizes, full of dirt.
    fn dirty(sizes: Sizes) -> Self {
        Self {
            blocks: vec![dirty_block(); sizes.blocks],
            sets: vec![DIRT; sizes.sets],
            scratch: vec![DIRT; sizes.scratch],
        }
    }

    fn verify(&mut self, sheet: &[u8]) -> Result<Accepted<'static>, Refusal> {
        let mut buffers = Buffers {
            blocks: &mut self.blocks,
            sets: &mut self.sets,
            scratch: &mut self.scratch,
        };
        verify_in(sheet, Budget::default(), &mut buffers).map(Accepted::into_owned)
    }

    /// Whether all is zero but so many block records and words of sets.
    fn is_zero_past(&self, blocks: usize, sets: usize) -> bool {
        let zero_blocks = self.blocks[blocks..]
            .iter()
            .all(|&block| block == Block::default());
        let mut words = self.sets[sets..].iter().chain(&self.scratch);
        zero_blocks && words.all(|&word| word == 0)
    }
}

/// A record that is none of zeros: block 1 of the second case h.
fn dirty_block() -> Block {
    let sheet = sheet(&case_h_filled());
    let accepted = kagari_flow::verify(&sheet, Budget::default()).expect("accepted");
    accepted.blocks()[1]
}

/// The sizes that document 01 gives for so many blocks.
fn exact(script: &Script, blocks: usize) -> Sizes {
    let (n, w) = (script.code.len(), script.slots.len().div_ceil(64));
    let awaits = script.code.iter().filter(|item| item.kind == 1).count();
    Sizes {
        blocks,
        sets: blocks * 2 * w + awaits * (1 + w),
        scratch: 4 * n + blocks * (4 * w + 16) + 4 * w,
    }
}

/// Scripts that are accepted, and how many blocks and reached awaits they have.
fn accepted() -> [(Script, usize, usize); 6] {
    [
        (case_b(), 1, 0),
        (case_c(), 1, 0),
        (case_d(), 1, 1),
        (case_f(), 1, 1),
        (case_h_filled(), 4, 0),
        (case_i(), 2, 0),
    ]
}

#[test]
fn after_an_acceptance_the_answer_and_then_zeros() {
    for (script, blocks, awaits) in accepted() {
        let mut sizes = exact(&script, blocks);
        let w = script.slots.len().div_ceil(64);
        let sets = blocks * 2 * w + awaits * (1 + w);
        for more in [0, 1, 9] {
            sizes.blocks += more;
            sizes.sets += more;
            sizes.scratch += more;
            let mut memory = Memory::dirty(sizes);
            let answer = memory.verify(&sheet(&script)).expect("accepted");
            assert_eq!(answer.blocks(), &memory.blocks[..blocks]);
            assert_eq!(answer.awaits().len(), awaits);
            assert!(memory.is_zero_past(blocks, sets));
        }
    }
}

#[test]
fn after_a_refusal_zeros() {
    let plenty = Sizes::for_counts(64, 64, 64);
    for script in [case_a(), case_e(), case_g(), case_h(), case_j(), case_l()] {
        let mut memory = Memory::dirty(plenty);
        memory.verify(&sheet(&script)).expect_err("refused");
        assert!(memory.is_zero_past(0, 0));
    }
    let whole = sheet(&case_d());
    for end in 0..whole.len() {
        let mut memory = Memory::dirty(plenty);
        let refusal = memory.verify(&whole[..end]).expect_err("refused");
        assert_eq!(refusal.number, Number::ShortSheet);
        assert!(memory.is_zero_past(0, 0));
    }
}

/// A parameter named twice is refused whatever is lent, and nothing is charged.
#[test]
fn a_parameter_twice_needs_no_room() {
    let script = Script {
        parameters: vec![0, 0],
        ..case_d()
    };
    let plenty = Sizes::for_counts(64, 64, 64);
    for sizes in [Sizes::NONE, exact(&script, 1), plenty] {
        let mut memory = Memory::dirty(sizes);
        let refusal = memory.verify(&sheet(&script)).expect_err("refused");
        assert_eq!(refusal.number, Number::ParameterTwice);
        assert_eq!(refusal.function, 7);
        assert_eq!(refusal.budget, Budget::default());
        assert!(memory.is_zero_past(0, 0));
    }
}

/// One record or word less than document 01 says is refusal 10.
#[test]
fn one_less_is_no_room() {
    for (script, blocks, _) in accepted() {
        let exact = exact(&script, blocks);
        let fewer = [
            Sizes {
                blocks: exact.blocks - 1,
                ..exact
            },
            Sizes {
                sets: exact.sets.saturating_sub(1),
                ..exact
            },
            Sizes {
                scratch: exact.scratch - 1,
                ..exact
            },
        ];
        for sizes in fewer.into_iter().filter(|&sizes| sizes != exact) {
            let mut memory = Memory::dirty(sizes);
            let refusal = memory.verify(&sheet(&script)).expect_err("refused");
            assert_eq!(refusal.number, Number::NoRoom);
            assert_eq!(refusal.budget.work, script.code.len() as u64);
            assert!(memory.is_zero_past(0, 0));
        }
    }
}

/// Without four words an instruction nothing is charged.
#[test]
fn the_early_no_room_charges_nothing() {
    for scratch in 0..8 {
        let mut memory = Memory::dirty(Sizes {
            scratch,
            ..exact(&case_d(), 1)
        });
        let refusal = memory.verify(&sheet(&case_d())).expect_err("refused");
        assert_eq!(refusal.number, Number::NoRoom);
        assert_eq!(refusal.budget, Budget::default());
    }
}

#[test]
fn the_same_memory_serves_again() {
    let mut memory = Memory::dirty(Sizes::for_counts(64, 64, 64));
    for _ in 0..2 {
        for (script, blocks, awaits) in accepted() {
            let answer = memory.verify(&sheet(&script)).expect("accepted");
            assert_eq!(answer.blocks().len(), blocks);
            assert_eq!(answer.awaits().len(), awaits);
            memory.verify(&[]).expect_err("refused");
        }
    }
}
