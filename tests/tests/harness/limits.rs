//! Wrong limits of N and K: each too wide by one at one end, in a single call.

use tests::calls::{ByNodes, FileCalls, WordCalls};
use tests::compare::{compare_limit_of_program, compare_limit_of_search};
use tests::compare::{compare_limit_on_files, compare_limit_on_words};
use tests::limits::{limit_cases, LimitCase};
use tests::model::{refuse_if, List, Quick, Refusal, Rules, Size};

/// The model with N in `N0..=N1` and K in `K0..=K1`.
#[derive(Clone, Copy)]
struct Limits<const N0: u32, const N1: u32, const K0: u32, const K1: u32>;

impl<const N0: u32, const N1: u32, const K0: u32, const K1: u32> Rules for Limits<N0, N1, K0, K1> {
    fn size(n: u32, k: u32) -> Result<Size, Refusal> {
        let good = (N0..=N1).contains(&n) && (K0..=K1).contains(&k);
        refuse_if(!good, 1, 0, 0)?;
        Ok(Size { links: n as usize, steps: k as usize })
    }
}

/// Each limit too wide is found, in every call, by every case that it wrongly takes.
pub fn assert_wide_limits_found() {
    assert_wide_limit_found(Limits::<0, 64, 1, 1_440>, true);
    assert_wide_limit_found(Limits::<1, 65, 1, 1_440>, true);
    assert_wide_limit_found(Limits::<1, 64, 0, 1_440>, true);
    // The program takes no input as long as 1,441 steps.
    assert_wide_limit_found(Limits::<1, 64, 1, 1_441>, false);
}

fn assert_wide_limit_found<R: Rules + Copy>(wide: R, in_program: bool) {
    let wrongly_taken = |case: &LimitCase| !case.is_within() && R::size(case.n, case.k).is_ok();
    let cases: Vec<_> = limit_cases().filter(wrongly_taken).collect();
    assert_eq!(cases.len(), 6);
    for case in &cases {
        for call in 0..4 {
            let variant = InOneCall(call, wide);
            assert_accepted(compare_limit_on_words([&Quick, &variant], case));
            let variant = InOneCall(call, ByNodes(wide));
            assert_accepted(compare_limit_on_words([&ByNodes(Quick), &variant], case));
        }
        // Where there is no step there is no search that could be taken.
        if case.k > 0 {
            assert_accepted(compare_limit_of_search([&Quick, &InOneCall(4, wide)], case));
        }
        for call in 0..10 {
            let variant = InOneCall(call, wide);
            assert_accepted(compare_limit_on_files([&Quick, &variant], case));
        }
    }
    let mut outcomes = cases.iter().map(|case| compare_limit_of_program([&Quick, &wide], case));
    assert_eq!(outcomes.any(|outcome| outcome.is_err()), in_program);
}

/// Passes if the one difference found is that the variant accepts: then the case has no other fault
/// than the one that the variant does not see.
fn assert_accepted(outcome: Result<(), String>) {
    let text = outcome.expect_err("the variant was not found out");
    assert!(text.ends_with("answers 1 (row 0, node 0) and 0 (row 0, node 0)"), "{text}");
    println!("found: {text}");
}

/// The model with the one call of that number made by a variant.
struct InOneCall<C>(usize, C);

impl<C: WordCalls> WordCalls for InOneCall<C> {
    fn simulate(&self, corridor: &[u32], demands: &[u32], plan: &[u32], record: &mut [u32]) -> u32 {
        self.word_calls(0).simulate(corridor, demands, plan, record)
    }

    fn check(&self, corridor: &[u32], demands: &[u32], record: &[u32]) -> u32 {
        self.word_calls(1).check(corridor, demands, record)
    }

    fn convert(&self, corridor: &[u32], demands: &[u32], record: &[u32], plan: &mut [u32]) -> u32 {
        self.word_calls(2).convert(corridor, demands, record, plan)
    }

    fn normal(
        &self,
        corridor: &[u32],
        demands: &[u32],
        plan: &[u32],
        work: &mut [u32],
        normal: &mut [u32],
    ) -> u32 {
        self.word_calls(3).normal(corridor, demands, plan, work, normal)
    }

    fn search(&self, lists: [&[u32]; 3], place: (u32, u32), out: &mut [u32]) -> u32 {
        self.word_calls(4).search(lists, place, out)
    }
}

impl<C: WordCalls> InOneCall<C> {
    fn word_calls(&self, number: usize) -> &dyn WordCalls {
        if number == self.0 {
            &self.1
        } else {
            &Quick
        }
    }
}

impl<C: FileCalls> FileCalls for InOneCall<C> {
    fn read(&self, list: List, n: u32, k: u32, file: &[u8], words: &mut [u32]) -> u32 {
        self.file_calls(list as usize).read(list, n, k, file, words)
    }

    fn write(&self, list: List, n: u32, k: u32, words: &[u32], file: &mut [u8]) -> u32 {
        self.file_calls(list as usize + 4).write(list, n, k, words, file)
    }

    fn check_files(&self, n: u32, k: u32, files: [&[u8]; 3]) -> u32 {
        self.file_calls(8).check_files(n, k, files)
    }

    fn convert_files(&self, n: u32, k: u32, files: [&[u8]; 3], plan_file: &mut [u8]) -> u32 {
        self.file_calls(9).convert_files(n, k, files, plan_file)
    }
}

impl<C: FileCalls> InOneCall<C> {
    fn file_calls(&self, number: usize) -> &dyn FileCalls {
        if number == self.0 {
            &self.1
        } else {
            &Quick
        }
    }
}
