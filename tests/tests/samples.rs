//! The example files are those that document 01's words make, and what examples/expected has for
//! them is what the model computes.

use tests::calls::FileCalls;
use tests::examples::b_size;
use tests::model::{List, Quick};
use tests::pages::{header_refusals, text_of, top};
use tests::samples;

#[test]
fn example_files_are_the_worked_cases() {
    let files = samples::files();
    for (name, bytes) in &files {
        let kept = std::fs::read(samples::folder().join(name)).expect("the example is there");
        assert_eq!(&kept, bytes, "{name}");
    }
    let kept = std::fs::read_dir(samples::folder()).expect("the folder is there").count();
    assert_eq!(kept, files.len());
}

/// What the example host prints for a case, by the model's converter and the header's words.
fn host_lines(case: &str) -> String {
    let files = samples::input(case);
    let files = [&files[0][..], &files[1], &files[2]];
    let (mut plan_file, mut plan) = (vec![0; 512], vec![0; b_size().plan()]);
    let answer = Quick.convert_files(2, 1, files, &mut plan_file);
    if answer != 0 {
        let (number, row, node) = (answer % 256, answer / 65_536, answer / 256 % 256);
        let header = text_of("include/gigorchid.h");
        let texts = header_refusals(&header);
        let (_, text) = texts.iter().find(|(known, _)| *known == number).expect("in the header");
        return format!("check: refused by {number} at row {row}, node {node}: {text}\n");
    }
    assert_eq!(Quick.read(List::Plan, 2, 1, &plan_file, &mut plan), 0);
    let settings = plan.chunks_exact(2).enumerate();
    let line = |(node, setting): (usize, &[u32])| {
        format!("step 0, node {node}: rate {}, limit {}\n", setting[0], setting[1])
    };
    settings.map(line).collect()
}

#[test]
fn expected_lines_are_the_models() {
    let cases = std::fs::read_dir(samples::folder()).expect("the folder is there");
    let names = cases.map(|entry| entry.expect("it can be read").path());
    let names = names.filter_map(|path| Some(path.file_stem()?.to_str()?.to_string()));
    let cases: Vec<String> = names.filter(|name| name.starts_with("case")).collect();
    for case in &cases {
        assert_eq!(host_lines(case), text_of(&format!("examples/expected/{case}.txt")), "{case}");
    }
    let folder = top().join("examples/expected");
    assert_eq!(std::fs::read_dir(folder).expect("the folder is there").count(), cases.len());
}
