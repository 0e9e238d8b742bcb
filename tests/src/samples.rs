//! The example files: B's corridor and its demands, of both kinds, and the records, of either kind,
//! of some of its worked cases.

use crate::examples::capacity_drop::{b_drop, drop_proposed};
use crate::examples::downstream::{b_downstream, downstream_proposed};
use crate::examples::off_ramps::{b_off_ramps, b_with_a_rest, exit_proposed};
use crate::examples::{b, propose};
use crate::model::Kind;
use crate::random::files::file_of;
use std::path::{Path, PathBuf};

/// Where they stand.
pub fn folder() -> PathBuf {
    Path::new(env!("CARGO_MANIFEST_DIR")).join("../examples/b")
}

/// Name and bytes of each. The records of cases 1, 11, 14, 16 and 18 come from their plan, 3 to 6
/// propose f and r of node 1, 12, 13 and 15 propose f of node 2, 17 proposes the exit of node 1.
pub fn files() -> Vec<(&'static str, Vec<u8>)> {
    let (case, downstream, drop) = (b(), b_downstream(), b_drop());
    let mut files = vec![
        ("corridor.blocks", file_of(Kind::Corridor, &case.corridor)),
        ("demands.blocks", file_of(Kind::Demands, &case.demands)),
        ("case1.blocks", file_of(Kind::Record, &case.record)),
        ("downstream.blocks", file_of(Kind::Downstream, &downstream.demands)),
        ("case11.blocks", file_of(Kind::Record, &downstream.record)),
        ("case12.blocks", file_of(Kind::Record, &downstream_proposed(40).record)),
        ("case13.blocks", file_of(Kind::Record, &downstream_proposed(71).record)),
        ("drop.blocks", file_of(Kind::CapacityDrop, &drop.corridor)),
        ("case14.blocks", file_of(Kind::Record, &drop.record)),
        ("case15.blocks", file_of(Kind::Record, &drop_proposed(81).record)),
        ("case16.blocks", file_of(Kind::OffRamps, &b_off_ramps().record)),
        ("case17.blocks", file_of(Kind::OffRamps, &exit_proposed(21).record)),
        ("case18.blocks", file_of(Kind::OffRamps, &b_with_a_rest().record)),
    ];
    let proposals = [
        ("case3.blocks", 60, 50),
        ("case4.blocks", 100, 25),
        ("case5.blocks", 100, 26),
        ("case6.blocks", 0, 50),
    ];
    for (name, flow, ramp_flow) in proposals {
        let mut case = b();
        propose(&mut case, flow, ramp_flow, 100);
        files.push((name, file_of(Kind::Record, &case.record)));
    }
    files
}

/// The corridor and the demands that a case goes with, and its record, out of their files.
pub fn input(case: &str) -> [Vec<u8>; 3] {
    let (corridor, demands) = match case {
        "case11" | "case12" | "case13" => ("corridor", "downstream"),
        "case14" | "case15" => ("drop", "demands"),
        "case18" => ("drop", "downstream"),
        _ => ("corridor", "demands"),
    };
    [corridor, demands, case].map(|name| {
        let path = folder().join(format!("{name}.blocks"));
        std::fs::read(&path).unwrap_or_else(|error| panic!("{}: {error}", path.display()))
    })
}
