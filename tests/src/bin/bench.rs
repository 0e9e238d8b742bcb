//! Benchmarks at full size: the host's time for each piece of work as a ratio to that of the
//! yardstick in the same run. Prints a table. One row is of fewer steps: there the yardstick tries
//! every rate, as a converter would that does not halve.

use std::hint::black_box;
use std::time::Instant;
use tests::calls::WordCalls;
use tests::host::Host;
use tests::model::lists::{corridor_of, Node};
use tests::model::search::OUT_WORDS;
use tests::model::{Input, Kind, Kinds, Size, MOST_QUEUE_LIMIT};
use tests::random::damage::full_size;
use tests::random::records::record_of_plan;
use tests::random::Random;
use tests::yardstick::{convert_by_every_rate, Yardstick};

const RUNS: usize = 25;

/// As many as the yardstick can try every rate of in a few seconds.
const FEW_STEPS: usize = 20;

/// The step and node of the one search, in the middle of the day and of the corridor.
const SEARCHED: (u32, u32) = (720, 32);

/// The lists that the work is done on.
#[derive(Clone)]
struct Lists {
    corridor: Vec<u32>,
    demands: Vec<u32>,
    plan: Vec<u32>,
    record: Vec<u32>,
}

fn node(random: &mut Random, i: usize, links: usize) -> Node {
    let (link, ramp) = (u32::from(i > 0), u32::from(i < links));
    let drop_density = [10_000, 20_000, 30_000][i % 3];
    Node {
        identifier: 1 + i as u32,
        capacity: link * random.within(30_000, 65_536) as u32,
        full_speed: link * random.within(30_000, 65_536) as u32,
        wave_speed: link * random.within(30_000, 65_536) as u32,
        jam: link * 65_536,
        ramp_capacity: ramp * 65_536,
        queue_limit: ramp * MOST_QUEUE_LIMIT,
        start_vehicles: link * 20_000,
        start_queue: ramp * 1_000_000,
        dropped_capacity: link * 25_000,
        drop_density: link * drop_density,
    }
}

/// Every ramp is as long as any and has a long queue, some links are held and some have too little
/// room, so that the search for a rate has everything to do. With demands of kind 5 less may leave
/// the last link in some steps than it sends; with a corridor of kind 10 links pass their drop
/// densities both ways; a record of kind 7 lists the exits.
fn lists(size: Size, kinds: Kinds) -> Lists {
    let mut random = Random::new(1);
    let nodes: Vec<Node> = (0..size.nodes()).map(|i| node(&mut random, i, size.links)).collect();
    let mut demands = vec![size.steps as u32];
    let mut plan = vec![];
    for _ in 0..size.steps {
        for (i, node) in nodes.iter().enumerate() {
            let ramp = u32::from(i < size.links);
            let split = ramp * u32::from(i > 0) * random.within(0, 32_768) as u32;
            demands.extend([ramp * random.within(0, 4_000) as u32, split]);
            let held = random.within(0, node.full_speed.into()) as u32;
            let limit = random.pick(&[node.full_speed, held]);
            plan.extend([random.within(0, node.ramp_capacity.into()) as u32, limit]);
        }
    }
    if kinds.demands == Kind::Downstream {
        demands.extend((0..size.steps).map(|_| random.within(0, 65_536) as u32));
    }
    let corridor = corridor_of(kinds.corridor, &nodes);
    let input = Input::new(&corridor, &demands).expect("made to these lengths");
    let record = record_of_plan(&input, &plan).words(kinds.record);
    Lists { corridor, demands, plan, record }
}

/// Milliseconds of one run; the output is cleared before and must be accepted.
fn time<T: Copy + Default>(output: &mut [T], work: &mut dyn FnMut(&mut [T]) -> u32) -> f64 {
    output.fill(T::default());
    let start = Instant::now();
    let answer = black_box(work(black_box(output)));
    let milliseconds = start.elapsed().as_secs_f64() * 1_000.0;
    assert_eq!(answer, 0, "the work is accepted");
    milliseconds
}

/// The shortest time, which other work on the machine disturbs least.
fn shortest(times: Vec<f64>) -> f64 {
    times.into_iter().fold(f64::INFINITY, f64::min)
}

/// A ratio in hundredths, or as one part of so many where it is less than one.
fn ratio(host: f64, rust: f64) -> String {
    match host < rust / 100.0 {
        true => format!("1/{:.0}", rust / host),
        false => format!("{:.2}", host / rust),
    }
}

/// Prints one line: the shortest times of both sides, run in turn, and their ratio.
fn compare<T: Copy + Default>(
    name: &str,
    length: usize,
    host: &mut dyn FnMut(&mut [T]) -> u32,
    rust: &mut dyn FnMut(&mut [T]) -> u32,
) {
    let mut output = vec![T::default(); length];
    let mut times = [vec![], vec![]];
    for _ in 0..RUNS {
        times[0].push(time(&mut output, host));
        times[1].push(time(&mut output, rust));
    }
    let [host, rust] = times.map(shortest);
    println!("| {name} | {host:.3} | {rust:.3} | {} |", ratio(host, rust));
}

fn bench_words(lists: &Lists, kind: &str) {
    let Lists { corridor, demands, plan, record } = lists;
    let simulate =
        |calls: &dyn WordCalls, out: &mut [u32]| calls.simulate(corridor, demands, plan, out);
    let check = |calls: &dyn WordCalls| calls.check(corridor, demands, record);
    let convert =
        |calls: &dyn WordCalls, out: &mut [u32]| calls.convert(corridor, demands, record, out);
    let search = |calls: &dyn WordCalls, out: &mut [u32]| {
        calls.search([corridor, demands, record], SEARCHED, out)
    };
    let (record_length, plan_length) = (record.len(), plan.len());
    let name = |call: &str| format!("{call}, {kind}");
    compare(&name("simulate"), record_length, &mut |out| simulate(&Host, out), &mut |out| {
        simulate(&Yardstick, out)
    });
    compare::<u32>(&name("check"), 0, &mut |_| check(&Host), &mut |_| check(&Yardstick));
    compare(&name("convert"), plan_length, &mut |out| convert(&Host, out), &mut |out| {
        convert(&Yardstick, out)
    });
    compare(&name("search"), OUT_WORDS, &mut |out| search(&Host, out), &mut |out| {
        search(&Yardstick, out)
    });
}

fn bench_every_rate(lists: &Lists) {
    let Lists { corridor, demands, plan, record } = lists;
    compare(
        &format!("convert, {FEW_STEPS} steps, every rate tried by Rust"),
        plan.len(),
        &mut |out| Host.convert(corridor, demands, record, out),
        &mut |out| convert_by_every_rate([corridor, demands, record], out),
    );
}

#[cfg(feature = "files")]
fn bench_files(oldest: &Lists, newest: &Lists) {
    use tests::calls::FileCalls;
    use tests::compare::{READERS, WRITERS};
    use tests::model::kinds::KINDS;
    use tests::random::files::file_of;
    let all = [
        &oldest.corridor,
        &oldest.demands,
        &oldest.record,
        &oldest.plan,
        &newest.demands,
        &newest.corridor,
        &newest.record,
    ];
    for (kind, words) in KINDS.into_iter().zip(all) {
        let (file, list) = (file_of(kind, words), kind.list());
        let read = |calls: &dyn FileCalls, out: &mut [u32]| calls.read(list, 64, 1_440, &file, out);
        let write =
            |calls: &dyn FileCalls, out: &mut [u8]| calls.write(list, 64, 1_440, words, out);
        let (reader, writer) = (READERS[kind.place()], WRITERS[kind.place()]);
        compare(reader, words.len(), &mut |out| read(&Host, out), &mut |out| read(&Yardstick, out));
        compare(writer, file.len(), &mut |out| write(&Host, out), &mut |out| {
            write(&Yardstick, out)
        });
    }
}

/// The check of three files. The Rust beside it reads them into lists that are there already, and
/// then checks the lists.
#[cfg(feature = "files")]
fn bench_check_files(lists: &Lists, kinds: Kinds, kind: &str) {
    use tests::calls::FileCalls;
    use tests::random::files::file_of;
    let files = [
        file_of(kinds.corridor, &lists.corridor),
        file_of(kinds.demands, &lists.demands),
        file_of(kinds.record, &lists.record),
    ];
    let read = |kind: Kind, i: usize, words: &mut [u32]| {
        Yardstick.read(kind.list(), 64, 1_440, &files[i], words)
    };
    let Lists { mut corridor, mut demands, mut record, .. } = lists.clone();
    compare::<u32>(
        &format!("check of files, {kind}"),
        0,
        &mut |_| Host.check_files(64, 1_440, [&files[0], &files[1], &files[2]]),
        &mut |_| {
            let readers = read(kinds.corridor, 0, &mut corridor)
                + read(kinds.demands, 1, &mut demands)
                + read(kinds.record, 2, &mut record);
            readers + Yardstick.check(&corridor, &demands, &record)
        },
    );
}

fn main() {
    let full = |kinds| lists(full_size(), kinds);
    let oldest = full(Kinds::OLDEST);
    println!("| 64 links, 1,440 steps | host, ms | Rust, ms | ratio |");
    println!("|-|-|-|-|");
    bench_words(&oldest, "demands of kind 2");
    let downstream = Kinds { demands: Kind::Downstream, ..Kinds::OLDEST };
    bench_words(&full(downstream), "demands of kind 5");
    let drop = Kinds { corridor: Kind::CapacityDrop, ..Kinds::OLDEST };
    bench_words(&full(drop), "corridor of kind 10");
    let off_ramps = Kinds { record: Kind::OffRamps, ..Kinds::OLDEST };
    let with_exits = full(off_ramps);
    bench_words(&with_exits, "record of kind 7");
    bench_every_rate(&lists(Size { steps: FEW_STEPS, ..full_size() }, Kinds::OLDEST));
    #[cfg(feature = "files")]
    {
        bench_check_files(&oldest, Kinds::OLDEST, "record of kind 3");
        bench_check_files(&with_exits, off_ramps, "record of kind 7");
        bench_files(&oldest, &full(Kinds::NEWEST));
    }
}
