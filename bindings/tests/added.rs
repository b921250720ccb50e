//! The check with slots that are added to the parameters.

#[allow(dead_code)]
#[path = "../../oracle/compare/src/random.rs"]
mod random;
#[allow(dead_code)]
#[path = "../../oracle/compare/src/scripts.rs"]
mod scripts;

use kagari_flow::{
    Accepted, Block, Budget, Buffers, Limits, Number, Refusal, Sizes, slot_words, verify_with,
    verify_with_in, verify_within,
};
use kagari_oracle::cases::*;
use kagari_oracle::{self as oracle, Instruction, Script, sheet};
use random::Random;

const MOST: Limits = Limits::MOST;

const ZERO: Budget = Budget {
    work: 0,
    retained: 0,
};

/// Above every limit.
const SPENT: Budget = Budget {
    work: u64::MAX,
    retained: u64::MAX,
};

fn budget(work: u64, retained: u64) -> Budget {
    Budget { work, retained }
}

/// Judges a script from zero with the slots of a set as further parameters.
fn judge(script: &Script, added: &[u64]) -> Result<Accepted<'static>, Refusal> {
    verify_with(&sheet(script), added, ZERO, MOST)
}

/// The number of the refusal.
#[track_caller]
fn number(result: Result<Accepted<'_>, Refusal>) -> Number {
    result.expect_err("refused").number
}

/// A script that returns at once, over so many slots.
fn with_slots(count: u32) -> Script {
    Script {
        slots: vec![plain(); count as usize],
        ..script([], [], [return_absent()])
    }
}

/// The script with these parameters in the place of its own.
fn with_parameters(script: &Script, parameters: Vec<u32>) -> Script {
    Script {
        parameters,
        ..script.clone()
    }
}

/// A random script, and a set of its slots as slot numbers.
fn drawn(random: &mut Random) -> (Script, Vec<u32>) {
    let mut script = scripts::script(random);
    if random.once_in(2) {
        script.parameters.clear();
    }
    let count = script.slots.len() as u32;
    let times = random.pick(&[1, 2, 5]);
    let added = (0..count).filter(|_| random.once_in(times)).collect();
    (script, added)
}

/// Case e lacks slot 0, case h slot 1.
#[test]
fn a_script_gets_what_it_lacks() {
    assert_eq!(number(judge(&case_e(), &[0])), Number::UnfilledSlot);
    let accepted = judge(&case_e(), &slot_words(1, [0])).expect("accepted");
    assert_eq!(accepted.budget(), budget(23, 0));
    assert!(accepted.initialized(0).contains(0) && accepted.live(0).contains(0));

    assert_eq!(number(judge(&case_h(), &[0])), Number::UnfilledSlot);
    let not_enough = slot_words(2, [0]);
    assert_eq!(number(judge(&case_h(), &not_enough)), Number::UnfilledSlot);
    let accepted = judge(&case_h(), &slot_words(2, [1])).expect("accepted");
    assert_eq!(accepted.budget(), budget(113, 0));
    assert_eq!(accepted.blocks().len(), 4);
}

/// The handle is saved whoever fills it.
#[test]
fn a_handle_that_is_handed_in() {
    let script = with_parameters(&case_g(), vec![]);
    assert_eq!(number(judge(&script, &[0])), Number::UnfilledSlot);
    assert_eq!(number(judge(&script, &[1])), Number::HostOverAwait);
}

/// A set of no slots, and one of the slots that the sheet names, are the call without one.
#[test]
fn no_new_slot_is_a_call_without_a_set() {
    let given = [ZERO, budget(99_999_980, 67_108_833), SPENT];
    let small = Limits {
        work: 200,
        state: 2_000,
        facts: 50,
    };
    let mut random = Random::new(1);
    for _ in 0..2_000 {
        let script = scripts::script(&mut random);
        let count = script.slots.len() as u32;
        let sets = [vec![], script.parameters.clone()];
        let mut bytes = sheet(&script);
        if random.once_in(4) {
            let place = random.below(bytes.len());
            bytes[place] = random.pick(&[0, 1, 2, 41, 255]);
        }
        // The sheet may have another count of slots by now.
        if bytes[8..12] != count.to_le_bytes() {
            continue;
        }
        let given = random.pick(&given);
        let limits = random.pick(&[MOST, small]);
        let expected = verify_within(&bytes, given, limits);
        for set in sets {
            let added = slot_words(count, set);
            assert_eq!(verify_with(&bytes, &added, given, limits), expected);
        }
    }
}

/// The answer is the oracle's on the script whose parameters are both, and that on its
/// sheet: the same budget too.
#[test]
fn as_if_the_sheet_named_them() {
    let mut random = Random::new(2);
    let mut accepted = 0;
    for _ in 0..2_000 {
        let (script, added) = drawn(&mut random);
        let count = script.slots.len() as u32;
        let named = script
            .parameters
            .iter()
            .filter(|slot| !added.contains(slot));
        let both = with_parameters(&script, named.chain(&added).copied().collect());
        let expected = oracle::verify(&both, oracle::Budget::default());
        let found = judge(&script, &slot_words(count, added));
        let after = match &found {
            Ok(accepted) => accepted.budget(),
            Err(refusal) => refusal.budget,
        };
        assert_eq!(after.work, expected.budget.work);
        assert_eq!(after.retained, expected.budget.retained);
        let number = found.as_ref().err().map(|refusal| refusal.number as u32);
        assert_eq!(number, expected.result.err());
        assert_eq!(found, verify_within(&sheet(&both), ZERO, MOST));
        accepted += u32::from(found.is_ok());
    }
    assert!((200..1_800).contains(&accepted), "{accepted}");
}

/// A word too few is refused with the budget as given, whatever it is; so is a bit that is no
/// slot, after it.
#[test]
fn short_sets_and_stray_bits() {
    let spent = [ZERO, budget(5, 3), SPENT];
    let none = Limits {
        work: 0,
        state: 0,
        facts: 0,
    };
    for count in [1, 2, 63, 64, 65, 127, 128, 130, 65_535, 65_536] {
        let bytes = sheet(&with_slots(count));
        let whole = slot_words(count, 0..count);
        for given in spent {
            for limits in [MOST, none] {
                let refused = |number| {
                    Err(Refusal {
                        number,
                        function: 7,
                        budget: given,
                    })
                };
                for length in [0, whole.len() - 1] {
                    for word in [0, u64::MAX] {
                        let found = verify_with(&bytes, &vec![word; length], given, limits);
                        assert_eq!(found, refused(Number::NoRoom));
                    }
                }
                // The bit at the slot count, and the last one of its word.
                for bit in [count % 64, 63] {
                    let mut stray = whole.clone();
                    let last = stray.last_mut().expect("a word");
                    if *last >> bit & 1 == 1 {
                        continue;
                    }
                    *last |= 1 << bit;
                    let found = verify_with(&bytes, &stray, given, limits);
                    assert_eq!(found, refused(Number::NoSuchSlot));
                }
            }
        }
        assert!(verify_with(&bytes, &whole, ZERO, MOST).is_ok());
    }
    // Without slots a set has no words.
    assert!(judge(&case_b(), &[]).is_ok());
}

#[test]
fn words_behind_the_set_are_not_looked_at() {
    for (script, added) in [
        (case_b(), vec![]),
        (case_h(), vec![0b10]),
        (case_d(), vec![0]),
    ] {
        let accepted = judge(&script, &added).expect("accepted");
        for behind in [&[0][..], &[1], &[u64::MAX; 3]] {
            let longer = [&added, behind].concat();
            assert_eq!(judge(&script, &longer).as_ref(), Ok(&accepted));
        }
    }
}

/// The sheet checks come before a set that is short or has a stray bit.
#[test]
fn a_bad_sheet_has_its_own_number() {
    let twice = with_parameters(&case_d(), vec![0, 0]);
    let scripts = [
        (case_a(), Number::NoCode),
        (case_j(), Number::OpenEnd),
        (case_k(2), Number::NoSuchTarget),
        (case_l(), Number::NoSuchSlot),
        (twice, Number::ParameterTwice),
    ];
    for added in [&[][..], &[0], &[1 << 20]] {
        assert_eq!(
            number(verify_with(&[], added, SPENT, MOST)),
            Number::ShortSheet
        );
        for (script, expected) in &scripts {
            assert_eq!(number(judge(script, added)), *expected);
        }
    }
}

/// All 65,536 slots, more than a record can name: a script that reads each of them is
/// accepted with all, and refused without any one.
#[test]
fn all_the_slots_that_there_can_be() {
    const COUNT: u32 = 65_536;
    let all: Vec<u32> = (0..COUNT).collect();
    let reads = all
        .chunks(16_382)
        .map(|part| Instruction::new(14, [&[0], part].concat()));
    let code = [await_value(0, 0)].into_iter().chain(reads);
    let script = Script {
        code: code.chain([return_absent()]).collect(),
        ..with_slots(COUNT)
    };
    let bytes = sheet(&script);
    let judge = |added: &[u64]| verify_with(&bytes, added, ZERO, MOST);
    let whole = slot_words(COUNT, 0..COUNT);
    let accepted = judge(&whole).expect("accepted");
    let point = accepted.awaits().next().expect("an await");
    assert_eq!(point.slots.words(), whole);
    assert_eq!(accepted.load(&bytes), Ok(u64::from(COUNT)));
    for left_out in [0, 63, 64, 16_382, 16_383, 16_384, 50_000, COUNT - 1] {
        let added = slot_words(COUNT, (0..COUNT).filter(|&slot| slot != left_out));
        assert_eq!(number(judge(&added)), Number::UnfilledSlot);
    }
}

/// Once a script is accepted, more slots never make it 13.
#[test]
fn growing_sets() {
    let mut random = Random::new(3);
    let mut grown = 0;
    for _ in 0..300 {
        let (script, _) = drawn(&mut random);
        let bytes = sheet(&script);
        let count = script.slots.len() as u32;
        let mut accepted = false;
        let order = random.distinct(count, count);
        for many in (0..=order.len()).step_by(1 + order.len() / 8) {
            let added = slot_words(count, order[..many].iter().copied());
            let found = verify_with(&bytes, &added, ZERO, MOST);
            assert!(found.is_ok() || !accepted);
            grown += u32::from(accepted);
            accepted = found.is_ok();
        }
    }
    assert!(grown > 100, "{grown}");
}

/// In lent memory: too little scratch for the early look comes before a stray bit, and after
/// a refusal all memory is zero.
#[test]
fn in_lent_memory() {
    let bytes = sheet(&case_d());
    let judge = |added: &[u64], sizes: Sizes| {
        let mut blocks = vec![dirty_block(); sizes.blocks];
        let mut sets = vec![9; sizes.sets];
        let mut scratch = vec![9; sizes.scratch];
        let mut buffers = Buffers {
            blocks: &mut blocks,
            sets: &mut sets,
            scratch: &mut scratch,
        };
        let result = verify_with_in(&bytes, added, budget(5, 3), MOST, &mut buffers);
        let result = result.map(Accepted::into_owned);
        assert!(scratch.iter().all(|&word| word == 0));
        if result.is_err() {
            assert!(blocks.iter().all(|&block| block == Block::default()));
            assert!(sets.iter().all(|&word| word == 0));
        }
        result
    };
    let refused = |number, work| {
        Err(Refusal {
            number,
            function: 7,
            budget: budget(work, 3),
        })
    };
    let exact = Sizes {
        blocks: 1,
        sets: 4,
        scratch: 32,
    };
    let early = Sizes {
        scratch: 7,
        ..exact
    };
    let stray = slot_words(3, [2]);
    assert_eq!(judge(&stray, exact), refused(Number::NoSuchSlot, 5));
    assert_eq!(judge(&stray, early), refused(Number::NoRoom, 5));
    assert_eq!(judge(&[], exact), refused(Number::NoRoom, 5));
    assert_eq!(judge(&[], early), refused(Number::NoRoom, 5));
    let fewer = [
        Sizes { blocks: 0, ..exact },
        Sizes { sets: 3, ..exact },
        Sizes {
            scratch: 31,
            ..exact
        },
    ];
    for late in fewer {
        assert_eq!(judge(&[0b10], late), refused(Number::NoRoom, 7));
        assert_eq!(judge(&stray, late), refused(Number::NoSuchSlot, 5));
    }
    let accepted = judge(&[0b10], exact).expect("accepted");
    assert_eq!(accepted.budget(), budget(37, 35));
}

/// A record that is none of zeros.
fn dirty_block() -> Block {
    let accepted = judge(&case_h(), &[0b10]).expect("accepted");
    accepted.blocks()[1]
}
