//! What readers see is true: quoted passages stand in their files, the worked lists of the model
//! page are what the calls compute, page and header say the same, links and names lead somewhere.

use std::collections::BTreeSet;
use tests::calls::{Program, WordCalls};
use tests::host::Host;
use tests::model::Quick;
use tests::pages::{
    all_text, header_refusals, links, names, pages, passage, passages, rows, single_spaced,
    text_of, top,
};
use tests::program::Executable;
use tests::samples;

#[test]
fn quoted_passages_stand_in_their_files() {
    let quoted = passages(&text_of("docs/READING.md"));
    assert!(quoted.len() >= 2, "nothing is quoted");
    for passage in quoted {
        let (_language, path) = passage.label.split_once(' ').expect("a language and a path");
        let file = format!("\n{}", text_of(path));
        assert!(file.contains(&format!("\n{}", passage.text)), "not in {path}:\n{}", passage.text);
    }
}

/// The words of a labelled passage of the model page.
fn words(name: &str) -> Vec<u32> {
    let text = passage(&text_of("docs/MODEL.md"), &format!("words {name}"));
    text.split_whitespace().map(|word| word.parse().expect("a word")).collect()
}

#[test]
fn worked_lists_are_what_the_calls_compute() {
    let [corridor, demands, plan] = ["corridor", "demands", "plan"].map(words);
    let (record, normal_form) = (words("record"), words("normal form"));
    for side in [&Quick as &dyn WordCalls, &Host] {
        let mut work = vec![u32::MAX; record.len()];
        let mut normal = vec![u32::MAX; plan.len()];
        assert_eq!(side.simulate(&corridor, &demands, &plan, &mut work), 0);
        assert_eq!(work, record);
        assert_eq!(side.convert(&corridor, &demands, &record, &mut normal), 0);
        assert_eq!(normal, normal_form);
        (work.fill(u32::MAX), normal.fill(u32::MAX));
        assert_eq!(side.normal(&corridor, &demands, &plan, &mut work, &mut normal), 0);
        assert_eq!((work, normal), (record.clone(), normal_form.clone()));
    }
}

/// The words that the search leaves for each node of the worked record, and for node 1 where f is 60
/// and r is 50.
#[test]
fn worked_searches_are_what_the_calls_compute() {
    let [corridor, demands, record, searches] =
        ["corridor", "demands", "record", "search"].map(words);
    let mut held = record.clone();
    let changes = [(6, 60), (7, 50), (16, 140), (17, 10), (20, 195), (24, 375)];
    changes.into_iter().for_each(|(place, word)| held[place] = word);
    for side in [&Quick as &dyn WordCalls, &Host] {
        let search = |record: &[u32], node| {
            let mut out = [u32::MAX; 3];
            assert_eq!(side.search([&corridor, &demands, record], (0, node), &mut out), 0);
            out
        };
        assert_eq!([0, 1, 2].map(|node| search(&record, node)).concat(), searches);
        assert_eq!(search(&held, 1), [6, 0, 0]);
    }
}

/// The worked plan with that corridor and those demands has the worked record, but for f of node 2,
/// n of link 2 after it, and the cost.
fn assert_out_of_link_2(corridor: &str, demands: &str, out: [u32; 3]) {
    let [corridor, demands, plan, mut record] = [corridor, demands, "plan", "record"].map(words);
    let (f, n, cost) = (10, 20, 24);
    [record[f], record[n], record[cost]] = out;
    for side in [&Quick as &dyn WordCalls, &Host] {
        let mut work = vec![u32::MAX; record.len()];
        assert_eq!(side.simulate(&corridor, &demands, &plan, &mut work), 0);
        assert_eq!(work, record);
    }
}

/// Where 70 units may leave link 2.
#[test]
fn worked_demands_of_kind_five_are_what_the_calls_compute() {
    assert_out_of_link_2("corridor", "downstream", [70, 230, 400]);
}

/// Where link 2 discharges 80 units above a density that it has passed.
#[test]
fn worked_corridor_of_kind_ten_is_what_the_calls_compute() {
    assert_out_of_link_2("drop", "demands", [80, 220, 390]);
}

/// The record of kind 7 that the page lists, as simulator and normal form write it, with the plan
/// that the normal form leaves; and what the checker says of it with another exit.
fn assert_exits(corridor: &str, demands: &str, plan: &[u32], record: &str) -> Vec<u32> {
    let [corridor, demands, record] = [corridor, demands, record].map(words);
    let mut normal = vec![u32::MAX; plan.len()];
    for side in [&Quick as &dyn WordCalls, &Host] {
        let mut work = vec![u32::MAX; record.len()];
        assert_eq!(side.simulate(&corridor, &demands, plan, &mut work), 0);
        assert_eq!(work, record);
        work.fill(u32::MAX);
        normal.fill(u32::MAX);
        assert_eq!(side.normal(&corridor, &demands, plan, &mut work, &mut normal), 0);
        assert_eq!(work, record);
        for (place, number, node) in [(9, 11, 1), (14, 7, 2)] {
            let mut other = record.clone();
            other[place] += 1;
            assert_eq!(side.check(&corridor, &demands, &other), node * 256 + number);
        }
    }
    normal
}

/// Where a quarter of what leaves link 1 takes the off-ramp.
#[test]
fn worked_exits_are_what_the_calls_compute() {
    assert_eq!(assert_exits("corridor", "demands", &words("plan"), "exits"), words("normal form"));
}

/// With a lane merge at the end of link 2, a junction past it that queues, and a rate of 26 at node
/// 1.
#[test]
fn worked_record_of_all_later_kinds_is_what_the_calls_compute() {
    let mut plan = words("plan");
    plan[2] = 26;
    assert_exits("drop", "downstream", &plan, "rest");
}

#[test]
fn printed_lines_are_what_the_program_prints() {
    let printed = passages(&text_of("docs/MODEL.md")).into_iter().filter_map(|passage| {
        let case = passage.label.strip_prefix("printed ")?.to_string();
        Some((case, passage.text))
    });
    let printed: Vec<(String, String)> = printed.collect();
    assert!(printed.len() >= 2, "nothing printed is shown");
    for (case, text) in printed {
        let output = Executable::new().print(&samples::input(&case).concat());
        assert_eq!(String::from_utf8_lossy(&output), text, "{case}");
    }
}

/// The rows of five cells that begin with a number are the refusals.
#[test]
fn page_and_header_have_the_same_refusals() {
    let (page, header) = (text_of("docs/MODEL.md"), text_of("include/gigorchid.h"));
    let table = rows(&page).into_iter().filter(|row| row.len() == 5);
    let table = table.filter_map(|row| Some((row[0].parse().ok()?, row[1].replace('×', "x"))));
    let in_page: Vec<(u32, String)> =
        [(0, "accepted".to_string())].into_iter().chain(table).collect();
    let in_header: Vec<(u32, String)> = header_refusals(&header)
        .into_iter()
        .map(|(number, text)| (number, text.to_string()))
        .collect();
    assert_eq!(in_page.len(), 19);
    assert_eq!(in_page, in_header);
}

/// In the header a list may take more than one line; the four follow one another.
#[test]
fn page_and_header_have_the_same_order_of_words() {
    let (page, header) = (text_of("docs/MODEL.md"), text_of("include/gigorchid.h"));
    let lines: Vec<&str> = header.lines().map(|line| line.trim_start_matches([' ', '*'])).collect();
    let table = rows(&page);
    let lists = ["corridor", "demands", "plan", "record"].map(|list| {
        let row = table.iter().find(|row| row[0] == list).expect("a row for the list");
        format!("{list} {}", row[1])
    });
    let (header, lists) = (single_spaced(&lines.join(" ")), lists.join(" "));
    assert!(header.contains(&lists), "{lists}");
}

#[test]
fn links_lead_somewhere() {
    let mut followed = 0;
    for page in pages() {
        let text = text_of(&page);
        let folder = top().join(&page);
        for link in links(&text) {
            let target = folder.parent().expect("a folder").join(link);
            assert!(target.exists(), "{page}: {link}");
            followed += 1;
        }
    }
    assert!(followed > 5, "only {followed} links");
}

/// Every name that a page quotes stands in the code, the tests, the header or a file's name.
#[test]
fn quoted_names_exist() {
    let plain = |c: char| c.is_ascii_alphanumeric() || c == '-' || c == '_';
    let folders = ["crates", "tests", "tools", "include", "examples", "python", ".ci"];
    let code = folders.map(all_text).concat();
    let known: BTreeSet<&str> = code.split(|c| !plain(c)).collect();
    for (page, least) in [
        ("README.md", 10),
        ("docs/PROMISES.md", 200),
        ("docs/READING.md", 50),
        ("docs/MODEL.md", 10),
        ("docs/DECISIONS.md", 40),
        ("docs/TRUST.md", 5),
    ] {
        let text = text_of(page);
        let quoted = names(&text);
        assert!(quoted.len() >= least, "{page} quotes only {} names", quoted.len());
        let missing = quoted.into_iter().filter(|name| !known.contains(name));
        assert_eq!(missing.collect::<Vec<_>>(), Vec::<&str>::new(), "{page}");
    }
}
