//! Demand 3, every plan and every record of tiny corridors tried: of the model and of the exported
//! calls.

#[cfg(feature = "files")]
use tests::calls::ByFiles;
#[cfg(feature = "nodes")]
use tests::calls::ByNodes;
use tests::demand_three::assert_demand_three;
#[cfg(feature = "host")]
use tests::host::Host;
use tests::model::Paper;

#[test]
fn of_the_model() {
    assert_demand_three(&Paper, 0, 1);
}

#[cfg(feature = "host")]
#[test]
fn of_the_calls_on_words() {
    assert_demand_three(&Host, 100, 1);
}

#[cfg(feature = "nodes")]
#[test]
fn of_the_calls_on_nodes() {
    assert_demand_three(&ByNodes(Host), 200, 4);
}

/// Checker and converter on files; simulator and normal form, which have no call on files, on
/// words.
#[cfg(feature = "files")]
#[test]
fn of_the_calls_on_files() {
    assert_demand_three(&ByFiles(Host), 300, 4);
}
