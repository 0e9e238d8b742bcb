//! The program `normal` against the model: what it prints, byte for byte; and what it says where it
//! cannot read or write.

use std::fs::{self, File};
use std::io::Write;
use std::os::fd::OwnedFd;
use std::os::unix::net::UnixStream;
use std::path::Path;
use std::process::Output;
use tests::calls::Program;
use tests::compare::{compare_limit_of_program, compare_program, Series};
use tests::completed::*;
use tests::examples::assert_program_examples;
use tests::limits::limit_cases;
use tests::model::lists::{MOST_LINKS, MOST_STEPS};
use tests::model::program::{file_ends, MOST_BYTES};
use tests::model::{Kinds, List, Quick, Size};
use tests::program::{run, Executable};
use tests::random::files::{name_kind, program_input, ThreeFiles};
use tests::random::sound::{sound_case, sound_case_of};
use tests::random::Random;
use tests::samples;
use tests::tally::kinds::CALLS_BY_KIND;
use tests::tally::Tally;

#[test]
fn printed_examples() {
    assert_program_examples(&Executable::new());
}

#[test]
fn random_inputs() {
    let program = Executable::new();
    let mut tally = Tally::default();
    let series = Series::new("program", 120_000_000, 6_000);
    let outcome =
        series.run(program_input, |input| compare_program([&Quick, &program], input, &mut tally));
    tally.print();
    assert_eq!(outcome, Ok(()));
    tally.expect("normal", &[1, 14], 20);
    for [.., normal] in CALLS_BY_KIND {
        tally.expect(normal, &[0, 2, 3, 4, 5, 7, 8, 9, 10, 11, 12, 13, 15, 16, 17, 18], 10);
    }
    tally.expect_refusals_by_kind(2);
    tally.expect("held lines", &[0], 1_000);
    tally.expect("full lines", &[0], 1_000);
}

/// Sizes whose three files have just that many bytes, for all N, being of those kinds.
fn sizes_of(bytes: usize, kinds: Kinds) -> Vec<Size> {
    let all = (1..=MOST_LINKS).flat_map(|n| (1..=MOST_STEPS).map(move |k| Size::new(n, k)));
    let all = all.map(|size| size.expect("within limits"));
    all.filter(|size| file_ends(*size, kinds)[2] == bytes).collect()
}

/// Inputs just as long as the program takes, one block shorter and one longer.
#[test]
fn longest_inputs() {
    let program = Executable::new();
    let mut tally = Tally::default();
    let mut random = Random::new(130_000_000);
    for kinds in Kinds::all() {
        for bytes in [MOST_BYTES - 512, MOST_BYTES, MOST_BYTES + 512] {
            for size in sizes_of(bytes, kinds).into_iter().step_by(8) {
                let case = sound_case_of(&mut random, size, kinds, false);
                let input = ThreeFiles::of_case(size, &case).files().concat();
                assert_eq!(compare_program([&Quick, &program], &input, &mut tally), Ok(()));
            }
        }
    }
    tally.expect("normal", &[14], 10);
    for [.., normal] in CALLS_BY_KIND {
        tally.expect(normal, &[0], 5);
    }
}

/// Inputs of just the length that a bad N or K tells are refused, and its good neighbours' taken.
#[test]
fn limits_of_links_and_steps() {
    let sides = [&Quick as _, &Executable::new() as _];
    let outcome = limit_cases().try_for_each(|case| compare_limit_of_program(sides, &case));
    assert_eq!(outcome, Ok(()));
}

/// Sound inputs cut at every byte up to the end of N and around the end of K, whose place the
/// corridor's kind tells, and beside every block's end.
#[test]
fn inputs_that_end_early() {
    let program = Executable::new();
    let mut tally = Tally::default();
    let sizes = [(2, 3), (11, 1)].map(|(links, steps)| Size { links, steps });
    for (kinds, size) in Kinds::all().flat_map(|kinds| sizes.map(|size| (kinds, size))) {
        let case = sound_case_of(&mut Random::new(140_000_000), size, kinds, false);
        let three = ThreeFiles::of_case(size, &case);
        let (input, demands) = (three.files().concat(), three.corridor.len());
        let near_blocks =
            (1..=input.len() / 512).flat_map(|block| 512 * block - 1..=512 * block + 1);
        let lengths = (0..=16).chain(demands - 4..=demands + 16).chain(near_blocks);
        for length in lengths.filter(|&length| length <= input.len()) {
            let outcome = compare_program([&Quick, &program], &input[..length], &mut tally);
            assert_eq!(outcome, Ok(()), "{length} bytes");
        }
    }
    tally.expect("normal", &[14], 250);
}

/// Inputs of both kinds in which the file of that list says that it is of any kind, in its first
/// block or in all, the rest of the input being where it was or where that kind has it; asserts
/// that these answers came up.
fn run_with_another_kind_said(list: List, numbers: &[u32]) {
    let program = Executable::new();
    // The kinds of each list then differ in their number of blocks.
    let size = Size { links: 11, steps: 10 };
    let mut tally = Tally::default();
    for kinds in Kinds::all() {
        let case = sound_case_of(&mut Random::new(210_000_000), size, kinds, false);
        let three = ThreeFiles::of_case(size, &case);
        for (said, in_all_blocks) in (0..=12).flat_map(|said| [(said, false), (said, true)]) {
            for length in list.kinds().iter().map(|kind| kind.bytes(size)) {
                let mut files = three.files().map(<[u8]>::to_vec);
                name_kind(&mut files[list as usize], said, in_all_blocks);
                files[list as usize].resize(length, 0);
                let outcome = compare_program([&Quick, &program], &files.concat(), &mut tally);
                assert_eq!(outcome, Ok(()), "{kinds:?}, {said}, {length} bytes");
            }
        }
    }
    tally.expect("normal", numbers, 4);
}

/// K is looked for at another place then, where a bad one stands.
#[test]
fn corridors_that_say_another_kind() {
    run_with_another_kind_said(List::Corridor, &[0, 1, 16]);
}

#[test]
fn demands_that_say_another_kind() {
    run_with_another_kind_said(List::Demands, &[0, 14, 16]);
}

/// The record is the last file: where it is of another length than its kind tells, that is seen from
/// the input's.
#[test]
fn records_that_say_another_kind() {
    run_with_another_kind_said(List::Record, &[0, 14, 16]);
}

#[test]
fn kind_three_is_kind_seven_completed() {
    assert_completed_inputs_are_the_same(&Executable::new(), List::Record);
}

#[test]
fn kind_two_is_kind_five_completed() {
    assert_completed_inputs_are_the_same(&Executable::new(), List::Demands);
}

#[test]
fn kind_one_is_kind_ten_completed() {
    assert_completed_inputs_are_the_same(&Executable::new(), List::Corridor);
}

/// A case out of the example files.
fn example(case: &str) -> Vec<u8> {
    samples::input(case).concat()
}

/// The program ended by itself, and said just that on standard error.
fn assert_says(output: &Output, line: &str) {
    assert_eq!(String::from_utf8_lossy(&output.stderr), line);
    assert_eq!(output.status.code(), Some(0));
}

/// An input that is accepted, one that is refused and one that is too long.
#[test]
fn output_that_takes_nothing() {
    for input in [example("case1"), example("case5"), vec![0; MOST_BYTES + 1]] {
        let mut command = Executable::new().command();
        command.stdout(File::options().write(true).open("/dev/full").expect("Linux has it"));
        assert_says(&run(command, &input), "normal: cannot write standard output\n");
    }
}

/// What is written is the start of the plan, up to where no more could be written.
#[test]
fn output_that_takes_a_part() {
    let size = Size { links: 2, steps: 100 };
    let mut random = Random::new(150_000_000);
    let inputs = std::iter::repeat_with(|| {
        let case = sound_case(&mut random, size, false);
        ThreeFiles::of_case(size, &case).files().concat()
    });
    let mut printed = inputs.map(|input| (Quick.print(&input), input));
    let (plan, input) =
        printed.find(|(text, _)| text.starts_with(b"PLAN")).expect("one has a plan");
    let path = Path::new(env!("CARGO_TARGET_TMPDIR")).join("part_of_a_plan");
    for blocks in [1, 2, 3] {
        let mut command = Executable::new().command_within(blocks);
        command.stdout(File::create(&path).expect("a file can be made"));
        assert_says(&run(command, &input), "normal: cannot write standard output\n");
        let written = fs::read(&path).expect("the file was made");
        assert_eq!(written, plan[..512 * blocks as usize]);
    }
}

/// A directory opens, and no read of it succeeds.
#[test]
fn input_that_cannot_be_read() {
    let folder = File::open(samples::folder()).expect("the folder is there");
    let output = Executable::new().command().stdin(folder).output().expect("the program starts");
    assert_eq!(output.stdout, b"");
    assert_says(&output, "normal: cannot read standard input\n");
}

/// Reads that fail after so many bytes: a socket with nothing in it that does not wait for more. An
/// input that would be accepted or refused if it ended there is neither.
#[test]
fn input_that_can_be_read_in_part() {
    let accepted = example("case1");
    let inputs = [&accepted[..0], &accepted[..700], &accepted, &[0; MOST_BYTES]];
    for input in inputs {
        let (mut giver, taker) = UnixStream::pair().expect("a socket can be made");
        taker.set_nonblocking(true).expect("a socket can be told not to wait");
        giver.write_all(input).expect("the socket takes the input");
        let mut command = Executable::new().command();
        let output = command.stdin(OwnedFd::from(taker)).output().expect("the program starts");
        assert_eq!(output.stdout, b"", "{} bytes", input.len());
        assert_says(&output, "normal: cannot read standard input\n");
    }
}
