//! The converter and the normal form: a setting for each node and step of an accepted record.

use super::lists::{same_length, test_plan};
use super::simulate::run;
use super::{Input, List, Outcome, Record, Rules};

/// A node's setting at a step: full with a rate, or held with a rate at a limit.
#[derive(Clone, Copy, Debug, PartialEq, Eq)]
pub enum Setting {
    Full(u64),
    Held(u64, u64),
}

/// Writes the plan of a proposed record.
pub fn convert<R: Rules>(
    corridor: &[u32],
    demands: &[u32],
    record: &[u32],
    plan: &mut [u32],
) -> Outcome {
    let input = Input::by::<R>(corridor, demands)?;
    let record = Record::by::<R>(input.size, record)?;
    same_length(plan.len(), input.size.plan())?;
    R::test_input(&input)?;
    R::check_record(&input, &record)?;
    write_plan::<R>(&input, &record, plan);
    Ok(())
}

/// Simulates into the work record, of either kind, then converts. A refusal by 12 leaves the work
/// record filled.
pub fn normal<R: Rules>(
    corridor: &[u32],
    demands: &[u32],
    plan: &[u32],
    work: &mut [u32],
    normal: &mut [u32],
) -> Outcome {
    let input = Input::by::<R>(corridor, demands)?;
    same_length(plan.len(), input.size.plan())?;
    let kind = R::kind_of_length(List::Record, input.size, work.len())?;
    same_length(normal.len(), input.size.plan())?;
    R::test_input(&input)?;
    test_plan::<R>(&input, plan)?;
    R::write_record(&run::<R>(&input, plan), kind, work);
    let record = R::record_of_words(kind, input.size, work);
    R::check_record(&input, &record)?;
    write_plan::<R>(&input, &record, normal);
    Ok(())
}

/// The setting of every node at every step, as rates and limits.
pub fn write_plan<R: Rules>(input: &Input, record: &Record, plan: &mut [u32]) {
    for k in 0..input.size.steps {
        for i in 0..input.size.nodes() {
            let (rate, limit) = rate_and_limit(input, i, setting_at::<R>(input, record, k, i));
            let place = input.size.plan_place(k, i);
            plan[place] = rate;
            plan[place + 1] = limit;
        }
    }
}

/// The setting of node i at step k of an accepted record.
pub fn setting_at<R: Rules>(input: &Input, record: &Record, k: usize, i: usize) -> Setting {
    let (at, flow, ramp_flow) = R::wanted(input, record, k, i);
    R::setting(&at, flow, ramp_flow)
}

/// A setting as the plan writes it: full speed is V, which is 0 at node 0.
pub fn rate_and_limit(input: &Input, i: usize, setting: Setting) -> (u32, u32) {
    match setting {
        Setting::Full(rate) => (rate as u32, input.node(i).full_speed),
        Setting::Held(rate, limit) => (rate as u32, limit as u32),
    }
}
