//! What document 02 says of the capacity drop, over what the calls give back: up to its drop
//! density a link sends as without a drop, above it as with the dropped capacity for its F, and in
//! either case it takes in what F lets it; and a corridor's length tells its kind once N is read.
//! Tests of any side, the model and the host alike.

use crate::calls::{FileCalls, WordCalls};
use crate::limits::greatest;
use crate::model::files::{file_bytes, words_of};
use crate::model::lists::{corridor_of, Node, MOST_LINKS};
use crate::model::{Entry, Input, Kind, Kinds, List, Record, Size, MOST_QUEUE_LIMIT, WHOLE};
use crate::random::damage::size;
use crate::random::sound::{some_kinds, sound_case_of, WordCase};
use crate::random::Random;

/// What a link may discharge with that many vehicles, written out.
pub fn discharge(node: &Node, vehicles: u32) -> u64 {
    let dropped = vehicles > node.drop_density;
    u64::from(if dropped { node.dropped_capacity } else { node.capacity })
}

/// State 0, with its flows, of the record of that kind that a side gives for a plan of one step.
fn first_state(calls: &dyn WordCalls, kind: Kind, lists: [&[u32]; 3]) -> Vec<Entry> {
    let [corridor, demands, plan] = lists;
    let size = Size { links: plan.len() / 2 - 1, steps: 1 };
    let mut record = vec![7; kind.words(size)];
    assert_eq!(calls.simulate(corridor, demands, plan, &mut record), 0);
    Record::from_words(kind, size, &record).state(0).to_vec()
}

/// Node i's flows in one step are those in the corridor of kind 1 whose link i has what it may
/// discharge for its F, all other links having their own, whatever they may discharge.
pub fn assert_drop_sets_what_a_link_sends(calls: &dyn WordCalls) {
    let mut random = Random::new(250_000_000);
    let [mut within, mut above] = [0; 2];
    for _ in 0..3_000 {
        let size = size(&mut random, 8, 1);
        let kinds = Kinds { corridor: Kind::CapacityDrop, ..some_kinds(&mut random) };
        let case = sound_case_of(&mut random, size, kinds, false);
        let input = Input::new(&case.corridor, &case.demands).expect("sound");
        let nodes: Vec<Node> = (0..size.nodes()).map(|i| input.node(i)).collect();
        let dropped = |i: usize| nodes[i].start_vehicles > nodes[i].drop_density;
        let lists = [&case.corridor[..], &case.demands, &case.plan];
        let state = first_state(calls, kinds.record, lists);
        for i in 1..size.nodes() {
            let mut others = nodes.clone();
            others[i].capacity = discharge(&nodes[i], nodes[i].start_vehicles) as u32;
            let corridor = corridor_of(Kind::Corridor, &others);
            let plain = first_state(calls, kinds.record, [&corridor, &case.demands, &case.plan]);
            assert_eq!(state[i], plain[i], "node {i} of {case:?}");
            let flow = state[i].flow;
            within += u32::from(!dropped(i) && flow > nodes[i].dropped_capacity.into());
            above += u32::from(dropped(i) && flow > 0 && flow < nodes[i].capacity.into());
        }
    }
    assert!(within > 500 && above > 500, "within its density {within}, above it {above}");
}

/// A link on which n is one below its drop density, at it or above it, with some more room.
fn link(random: &mut Random) -> Node {
    let jam = random.within(2, WHOLE);
    let vehicles = random.within(1, jam - 1);
    let capacity = random.within(1, jam);
    let density = [vehicles + 1, vehicles, vehicles - 1, random.within(0, vehicles - 1)];
    Node {
        identifier: 2,
        capacity: capacity as u32,
        full_speed: random.within(WHOLE / 4, WHOLE) as u32,
        wave_speed: random.within(WHOLE / 4, WHOLE) as u32,
        jam: jam as u32,
        start_vehicles: vehicles as u32,
        dropped_capacity: random.within(0, capacity - 1) as u32,
        drop_density: random.pick(&density) as u32,
        ..Node::from_words(&[0; 9])
    }
}

/// What the link takes in from a queue as long as any, and what it sends at a limit where traffic
/// behind it is free.
fn taken_in_and_sent(calls: &dyn WordCalls, link: &Node, limit: u32) -> (u64, u64) {
    let (capacity, queue) = (WHOLE as u32, MOST_QUEUE_LIMIT);
    let entry_words = [1, 0, 0, 0, 0, capacity, queue, 0, queue];
    let nodes = [Node::from_words(&entry_words), *link];
    let corridor = corridor_of(Kind::CapacityDrop, &nodes);
    let lists = [&corridor[..], &[1, 0, 0, 0, 0], &[capacity, 0, 0, limit]];
    let state = first_state(calls, Kind::Record, lists);
    (state[0].ramp_flow, state[1].flow)
}

/// However many vehicles a link has, it takes in as many as F and its room let it.
pub fn assert_link_keeps_receiving(calls: &dyn WordCalls) {
    let mut random = Random::new(260_000_000);
    let [mut up_to_capacity, mut up_to_room] = [0; 2];
    for _ in 0..10_000 {
        let link = link(&mut random);
        let room = u64::from(link.wave_speed) * u64::from(link.jam - link.start_vehicles) / WHOLE;
        let (taken_in, _) = taken_in_and_sent(calls, &link, link.full_speed);
        assert_eq!(taken_in, room.min(link.capacity.into()), "{link:?}");
        let above =
            link.start_vehicles > link.drop_density && taken_in > link.dropped_capacity.into();
        up_to_capacity += u32::from(above && taken_in < room);
        up_to_room += u32::from(above && taken_in == room);
    }
    let seen = [up_to_capacity, up_to_room];
    assert!(seen.iter().all(|&count| count > 500), "above the density, up to F and room: {seen:?}");
}

/// As the limit grows a link never sends less, up to what it may discharge.
pub fn assert_sending_is_monotone_in_the_limit(calls: &dyn WordCalls) {
    let mut random = Random::new(270_000_000);
    let [mut within, mut above] = [0; 2];
    for _ in 0..300 {
        let link = link(&mut random);
        let mut limits: Vec<u32> =
            (0..100).map(|_| random.within(0, link.full_speed.into()) as u32).collect();
        limits.extend([0, link.full_speed - 1, link.full_speed]);
        limits.sort();
        let sent: Vec<u64> =
            limits.iter().map(|&limit| taken_in_and_sent(calls, &link, limit).1).collect();
        let mut rising = sent.clone();
        rising.sort();
        assert_eq!(sent, rising, "{link:?}");
        let most = discharge(&link, link.start_vehicles);
        let at_full_speed = u64::from(link.start_vehicles) * u64::from(link.full_speed) / WHOLE;
        assert_eq!((sent[0], sent.last()), (0, Some(&at_full_speed.min(most))), "{link:?}");
        let dropped = link.start_vehicles > link.drop_density;
        within += u32::from(!dropped && most < at_full_speed);
        above += u32::from(dropped && most < at_full_speed);
    }
    let seen = [within, above];
    assert!(seen.iter().all(|&count| count > 30), "bounded within, above: {seen:?}");
}

/// N, a corridor's length and the kind that it then has, if any: the lengths are those that kind 10
/// shares with kind 1 for more links, 100 words the least, and those beside; N is each of the two
/// numbers of links, between them or beside.
fn near_shared_lengths() -> Vec<(usize, usize, Option<Kind>)> {
    let mut near = vec![];
    for nodes in (9..=MOST_LINKS as usize + 1).step_by(9) {
        let (fewer, more) = (nodes - 1, nodes / 9 * 11 - 1);
        let shared = 1 + 11 * nodes;
        for (links, length) in
            (fewer - 1..=more + 1).flat_map(|n| (shared - 1..=shared + 1).map(move |l| (n, l)))
        {
            let kind = match (length == shared, links) {
                (true, _) if links == fewer => Some(Kind::CapacityDrop),
                (true, ..=64) if links == more => Some(Kind::Corridor),
                _ => None,
            };
            near.push((links, length, kind));
        }
    }
    near
}

/// All lists for so many links, the corridor cut or extended to that length.
fn of_length(links: usize, length: usize, kind: Option<Kind>) -> WordCase {
    let corridor = kind.unwrap_or(Kind::Corridor);
    let kinds = Kinds { corridor, ..Kinds::OLDEST };
    let mut case = greatest(Size { links, steps: 1 }, kinds, false);
    case.corridor.resize(length, 0);
    case
}

/// Where two kinds share a length N tells which it is, and for any other N it is a wrong one.
pub fn assert_links_come_before_the_kind(calls: &dyn WordCalls) {
    for (links, length, kind) in near_shared_lengths() {
        let WordCase { corridor, demands, plan, record, .. } = of_length(links, length, kind);
        let (mut work, mut out) = (record.clone(), plan.clone());
        let answers = [
            calls.simulate(&corridor, &demands, &plan, &mut work),
            calls.check(&corridor, &demands, &record),
            calls.convert(&corridor, &demands, &record, &mut out),
            calls.normal(&corridor, &demands, &plan, &mut work, &mut out),
        ];
        assert_eq!(answers, [u32::from(kind.is_none()); 4], "{length} words, N = {links}");
    }
}

/// The same for the writer, told N; and what it writes says which kind it is.
pub fn assert_links_come_before_the_kind_in_files(calls: &dyn FileCalls) {
    for (links, length, kind) in near_shared_lengths() {
        let words = of_length(links, length, kind).corridor;
        let mut file = vec![0; file_bytes(length)];
        let answer = calls.write(List::Corridor, links as u32, 1, &words, &mut file);
        let said = words_of(&file[..4])[0];
        let wanted = kind.map_or((1, 0), |kind| (0, kind as u32));
        assert_eq!((answer, said), wanted, "{length} words, N = {links}");
    }
}
