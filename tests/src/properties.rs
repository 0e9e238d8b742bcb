//! What document 01 says of every record, every merge, every held limit and every block, and what
//! document 02 adds of the flow that may leave link N, of the capacity drop and of the kinds of
//! lists, stated over what the calls give back: tests of any side, the model and the host alike.

use crate::alone::{long_ramp, Alone};
use crate::calls::{FileCalls, WordCalls};
use crate::capacity_drop::discharge;
use crate::compare::Series;
use crate::examples::refused;
use crate::model::files::{BLOCK_BYTES, CHECK};
use crate::model::kinds::KINDS;
use crate::model::simulate::inflow;
use crate::model::{Entry, Input, NodeStep, Paper, Record, Rules, WHOLE};
use crate::random::damage::size;
use crate::random::files::{any_words, file_case, FileCase};
use crate::random::records::allowed_flows;
use crate::random::sound::{sound_case, WordCase};
use crate::random::Random;

/// The record that a side gives for a case's plan, which must be accepted, in the lent kind.
pub fn simulated(calls: &dyn WordCalls, case: &WordCase) -> Record {
    let mut record = vec![7; case.lent_record];
    assert_eq!(calls.simulate(&case.corridor, &case.demands, &case.plan, &mut record), 0);
    let input = Input::new(&case.corridor, &case.demands).expect("sound");
    Record::from_words(case.lent_kind, input.size, &record)
}

/// In every step the vehicles on links and ramps change by arrivals and exits only, no link takes in
/// more than it receives or holds more than its jam, and no more leaves link N than may.
pub fn assert_vehicles_are_conserved(calls: &dyn WordCalls) {
    let mut random = Random::new(6_000_000);
    for _ in 0..3_000 {
        let size = size(&mut random, 8, 20);
        let case = sound_case(&mut random, size, false);
        let record = simulated(calls, &case);
        let input = Input::new(&case.corridor, &case.demands).expect("sound");
        (0..size.steps).for_each(|k| assert_step_conserves(&input, &record, k));
    }
}

fn assert_step_conserves(input: &Input, record: &Record, k: usize) {
    let (now, next) = (record.state(k), record.state(k + 1));
    let total =
        |state: &[Entry]| -> u64 { state.iter().map(|entry| entry.vehicles + entry.queue).sum() };
    let mut came = total(now);
    let mut stayed_or_left = total(next);
    for i in 0..input.size.nodes() {
        let Entry { vehicles, flow, ramp_flow, .. } = now[i];
        came += input.arrivals(k, i);
        let through = Paper::through(flow, input.split(k, i));
        let last = i == input.size.links;
        stayed_or_left += if last { flow } else { flow - through };
        let room = NodeStep::new::<Paper>(input, now, k, i).supply;
        assert!(through + ramp_flow <= room);
        assert!(next[i].vehicles <= input.node(i).jam.into());
        assert_eq!(next[i].vehicles + flow, vehicles + inflow::<Paper>(input, k, now, i));
    }
    assert_eq!(came, stayed_or_left);
}

/// The cost of a record is the sum over its states 1..K, by a plain loop, beyond 32 bits too.
pub fn assert_cost_is_the_sum_over_later_states(calls: &dyn WordCalls) {
    let mut random = Random::new(7_000_000);
    let mut beyond_32_bits = 0;
    for _ in 0..3_000 {
        let size = size(&mut random, 8, 40);
        let record = simulated(calls, &sound_case(&mut random, size, false));
        let mut cost: u64 = 0;
        for k in 1..=size.steps {
            for i in 0..size.nodes() {
                cost += record.entry(k, i).vehicles + record.entry(k, i).queue;
            }
        }
        assert_eq!(record.cost, cost);
        beyond_32_bits += u32::from(cost >> 32 > 0);
    }
    assert!(beyond_32_bits > 20, "costs beyond 32 bits: {beyond_32_bits}");
}

/// Rule 5, with what rules 1 to 3 offer written out: each flow is less than one unit below the
/// exact fraction, and T(f) + r ≤ S.
pub fn assert_merge_is_close_and_fits(calls: &dyn WordCalls) {
    let mut random = Random::new(4_000_000);
    let mut tight = 0;
    for _ in 0..200_000 {
        let at = long_ramp(&mut random);
        let rate = random.within(0, at.ramp_capacity);
        let limit = random.within(0, at.full_speed);
        let alone = Alone::new(&at);
        let (flow, ramp_flow) = alone.flows(calls, rate, limit);
        let most = discharge(&alone.node, alone.node.start_vehicles);
        let sending = (at.vehicles * limit / WHOLE).min(most);
        let offer = at.queue.min(at.ramp_capacity).min(rate);
        let through = |flow: u64| flow - flow * at.split / WHOLE;
        let wanted = through(sending) + offer;
        let room = at.supply;
        if wanted <= room {
            assert_eq!((flow, ramp_flow), (sending, offer));
            continue;
        }
        tight += 1;
        assert!(flow * wanted <= sending * room && sending * room < (flow + 1) * wanted);
        assert!(ramp_flow * wanted <= offer * room && offer * room < (ramp_flow + 1) * wanted);
        assert!(through(flow) + ramp_flow <= room);
    }
    assert!(tight > 50_000, "merges without room: {tight}");
}

/// As the rate grows f never rises and r never falls, which the search by halving rests on.
pub fn assert_flows_are_monotone_in_the_rate(calls: &dyn WordCalls) {
    let mut random = Random::new(5_000_000);
    let mut falls = 0;
    for _ in 0..60 {
        let at = long_ramp(&mut random);
        let alone = Alone::new(&at);
        let rates = 0..=at.ramp_capacity;
        let all: Vec<_> = rates.map(|rate| alone.flows(calls, rate, at.full_speed)).collect();
        assert!(all.windows(2).all(|pair| pair[0].0 >= pair[1].0 && pair[0].1 <= pair[1].1));
        falls += u32::from(all[0].0 > all[all.len() - 1].0);
    }
    assert!(falls > 15, "nodes where f falls: {falls}");
}

/// A limit below V is the smallest that sends f, by trying all below it, and comes with r as the
/// rate; with V, the rate that is given gives the flows.
pub fn assert_held_limit_is_the_smallest(calls: &dyn WordCalls) {
    let mut random = Random::new(3_000_000);
    let mut held = 0;
    for _ in 0..3_000 {
        let at = long_ramp(&mut random);
        let flows = allowed_flows(&mut random, &at);
        let alone = Alone::new(&at);
        let (rate, limit) = alone.setting(calls, flows);
        assert_eq!(alone.flows(calls, rate, limit), flows, "{at:?}");
        if limit < at.full_speed {
            held += 1;
            let smallest = (0..=limit).find(|limit| at.vehicles * limit / WHOLE == flows.0);
            assert_eq!((rate, Some(limit)), (flows.1, smallest), "{at:?} {flows:?}");
        }
    }
    assert!(held > 1_000, "settings held: {held}");
}

/// An accepted file read and rewritten has the same bytes; words written and read come back.
pub fn assert_files_come_back(calls: &dyn FileCalls) {
    let mut accepted = 0;
    let series = Series::new("files come back", 80_000_000, 2_000);
    let outcome = series.run(file_case, |case| {
        let FileCase { kind, n, k, file, .. } = case;
        let mut words = vec![7; case.lent_words];
        if calls.read(kind.list(), *n, *k, file, &mut words) != 0 {
            return Ok(());
        }
        accepted += 1;
        let mut bytes = vec![7; file.len()];
        let mut again = vec![7; words.len()];
        let answers = [
            calls.write(kind.list(), *n, *k, &words, &mut bytes),
            calls.read(kind.list(), *n, *k, &bytes, &mut again),
        ];
        match answers == [0, 0] && bytes == *file && again == words {
            true => Ok(()),
            false => Err(format!("{kind:?} {n} {k}: not the same")),
        }
    });
    assert_eq!(outcome, Ok(()));
    assert!(accepted > 500, "files accepted: {accepted}");
}

/// Any change to just one of words 0..126 of a block that the writer wrote is seen by the reader:
/// 15 at that block, or 14 where the file now says that it is of another kind, which has another
/// number of blocks.
pub fn assert_check_word_sees_any_one_change(calls: &dyn FileCalls) {
    let mut random = Random::new(9_000_000);
    let (mut changed, mut changed_kinds) = (0, 0);
    for round in 0..20_000 {
        let kind = KINDS[round % KINDS.len()];
        let size = size(&mut random, 20, 5);
        let (n, k) = (size.links as u32, size.steps as u32);
        let words = any_words(&mut random, kind, size);
        let mut file = vec![7; kind.bytes(size)];
        assert_eq!(calls.write(kind.list(), n, k, &words, &mut file), 0);
        let block = random.below(file.len() / BLOCK_BYTES);
        let place = BLOCK_BYTES * block + 4 * random.below(CHECK);
        let old = [0, 1, 2, 3].map(|byte| file[place + byte]);
        let strange = random.strange_word(u32::from_le_bytes(old));
        let new = random.pick(&[strange, strange, 2, 5, 1, 10, 3, 7]).to_le_bytes();
        file[place..place + 4].copy_from_slice(&new);
        let said = kind.list().kind_of_file(&file);
        let answer = calls.read(kind.list(), n, k, &file, &mut vec![7; said.words(size)]);
        let seen = match new == old {
            true => 0,
            false if said.bytes(size) != file.len() => refused(14, 0, 0),
            false => refused(15, block as u32, 0),
        };
        assert_eq!(answer, seen, "{kind:?} {n} {k}, byte {place}: {old:?} and {new:?}");
        changed += u32::from(new != old);
        changed_kinds += u32::from(said != kind);
    }
    assert!(changed > 10_000, "words changed: {changed}");
    assert!(changed_kinds > 10, "kinds changed: {changed_kinds}");
}
