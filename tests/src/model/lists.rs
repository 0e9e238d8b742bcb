//! The word lists: their lengths, where each word stands, and refusals 1 to 6, which concern the
//! corridor, the demands and the plan.

use super::{
    refusal, refuse_if, Kind, List, Outcome, Quick, Refusal, Rules, MOST_QUEUE_LIMIT, WHOLE,
};

pub const MOST_LINKS: u32 = 64;
pub const MOST_STEPS: u32 = 1_440;
/// The words of a node in a corridor of kind 1, and those that kind 10 has after them.
pub const NODE_WORDS: usize = 9;
pub const DROP_WORDS: usize = 2;
pub const DEMAND_WORDS: usize = 2;
pub const PLAN_WORDS: usize = 2;

/// Numbers of links and steps, and the lengths that follow from them; `new` holds them to the
/// limits.
#[derive(Clone, Copy, Debug, PartialEq, Eq)]
pub struct Size {
    pub links: usize,
    pub steps: usize,
}

impl Size {
    /// Refusal 1 for a bad N or K, judged as whole words.
    pub fn new(n: u32, k: u32) -> Result<Size, Refusal> {
        let good = (1..=MOST_LINKS).contains(&n) && (1..=MOST_STEPS).contains(&k);
        refuse_if(!good, 1, 0, 0)?;
        Ok(Size { links: n as usize, steps: k as usize })
    }

    pub fn nodes(self) -> usize {
        self.links + 1
    }

    /// K, then Q and b of each step and node: all of kind 2, and what kind 5 starts with.
    pub fn demands(self) -> usize {
        1 + DEMAND_WORDS * self.nodes() * self.steps
    }

    pub fn plan(self) -> usize {
        PLAN_WORDS * self.nodes() * self.steps
    }

    /// Where the demands' Q stands; b follows.
    pub fn demand_place(self, k: usize, i: usize) -> usize {
        1 + DEMAND_WORDS * (k * self.nodes() + i)
    }

    /// Where kind 5 has the flow that may leave link N in step k.
    pub fn downstream_place(self, k: usize) -> usize {
        self.demands() + k
    }

    /// Where the plan's rate stands; the limit follows.
    pub fn plan_place(self, k: usize, i: usize) -> usize {
        PLAN_WORDS * (k * self.nodes() + i)
    }
}

/// One node as a corridor of kind 10 lists it, also the C host's struct of the same order.
#[repr(C)]
#[derive(Clone, Copy, Debug, PartialEq, Eq)]
pub struct Node {
    pub identifier: u32,
    pub capacity: u32,
    pub full_speed: u32,
    pub wave_speed: u32,
    pub jam: u32,
    pub ramp_capacity: u32,
    pub queue_limit: u32,
    pub start_vehicles: u32,
    pub start_queue: u32,
    pub dropped_capacity: u32,
    pub drop_density: u32,
}

impl Node {
    /// A node's words in a corridor of either kind; kind 1 counts as dropped capacity F and drop
    /// density J.
    pub fn from_words(words: &[u32]) -> Node {
        let (words, drop) = words.split_at(NODE_WORDS);
        let (dropped_capacity, drop_density) = match *drop {
            [dropped_capacity, drop_density] => (dropped_capacity, drop_density),
            _ => (words[1], words[4]),
        };
        Node {
            identifier: words[0],
            capacity: words[1],
            full_speed: words[2],
            wave_speed: words[3],
            jam: words[4],
            ramp_capacity: words[5],
            queue_limit: words[6],
            start_vehicles: words[7],
            start_queue: words[8],
            dropped_capacity,
            drop_density,
        }
    }

    pub fn words(&self) -> [u32; NODE_WORDS + DROP_WORDS] {
        [
            self.identifier,
            self.capacity,
            self.full_speed,
            self.wave_speed,
            self.jam,
            self.ramp_capacity,
            self.queue_limit,
            self.start_vehicles,
            self.start_queue,
            self.dropped_capacity,
            self.drop_density,
        ]
    }
}

/// The nodes as a corridor of that kind. No node at all gives N = 2^32 − 1, a bad one.
pub fn corridor_of(kind: Kind, nodes: &[Node]) -> Vec<u32> {
    let mut corridor = vec![(nodes.len() as u32).wrapping_sub(1)];
    for node in nodes {
        corridor.extend(&node.words()[..kind.node_words()]);
    }
    corridor
}

/// Corridor and demands, of lengths that fit each other.
pub struct Input<'a> {
    pub size: Size,
    pub corridor_kind: Kind,
    nodes: Vec<Node>,
    demands: &'a [u32],
}

impl<'a> Input<'a> {
    /// Two lists within the limits of document 01.
    pub fn new(corridor: &[u32], demands: &'a [u32]) -> Result<Input<'a>, Refusal> {
        Input::by::<Quick>(corridor, demands)
    }

    /// Refusal 1 as far as these two lists go; N and K are their first words.
    pub fn by<R: Rules>(corridor: &[u32], demands: &'a [u32]) -> Result<Input<'a>, Refusal> {
        let bad = refusal(1, 0, 0);
        let n = *corridor.first().ok_or(bad)?;
        let k = *demands.first().ok_or(bad)?;
        let size = R::size(n, k)?;
        let corridor_kind = R::kind_of_length(List::Corridor, size, corridor.len())?;
        R::kind_of_length(List::Demands, size, demands.len())?;
        Ok(Input::of_size(size, corridor_kind, corridor, demands))
    }

    /// A corridor of that kind and demands that have the lengths of a size, which may be beyond the
    /// limits.
    pub fn of_size(
        size: Size,
        corridor_kind: Kind,
        corridor: &[u32],
        demands: &'a [u32],
    ) -> Input<'a> {
        let nodes = corridor[1..].chunks_exact(corridor_kind.node_words());
        let nodes = nodes.take(size.nodes()).map(Node::from_words).collect();
        Input { size, corridor_kind, nodes, demands }
    }

    pub fn node(&self, i: usize) -> Node {
        self.nodes[i]
    }

    /// Whether the corridor is of kind 10.
    pub fn has_drop(&self) -> bool {
        self.corridor_kind == Kind::CapacityDrop
    }

    pub fn arrivals(&self, k: usize, i: usize) -> u64 {
        self.demands[self.size.demand_place(k, i)].into()
    }

    pub fn split(&self, k: usize, i: usize) -> u64 {
        self.demands[self.size.demand_place(k, i) + 1].into()
    }

    /// Whether the demands are of kind 5.
    pub fn has_downstream(&self) -> bool {
        self.demands.len() > self.size.demands()
    }

    /// The flow that may leave link N in step k. Kind 2 has no such words and counts as 65,536
    /// throughout, which no link can exceed.
    pub fn downstream(&self, k: usize) -> u64 {
        self.demands.get(self.size.downstream_place(k)).map_or(WHOLE, |&word| word.into())
    }
}

/// Refusal 1 for a list that has not just the length it should have.
pub fn same_length(length: usize, wanted: usize) -> Outcome {
    refuse_if(length != wanted, 1, 0, 0)
}

/// Refusals 2 to 4, each over all nodes before the next.
pub fn test_corridor<R: Rules>(input: &Input) -> Outcome {
    for number in R::CORRIDOR_ORDER {
        for i in 0..input.size.nodes() {
            refuse_if(R::node_fault(number, input, i), number, 0, i)?;
        }
    }
    Ok(())
}

/// Refusals 2 to 5, each over the whole input before the next.
pub fn test_input<R: Rules>(input: &Input) -> Outcome {
    test_corridor::<R>(input)?;
    for k in 0..input.size.steps {
        for i in 0..input.size.nodes() {
            refuse_if(R::demand_fault(input, k, i), 5, k, i)?;
        }
    }
    Ok(())
}

/// Refusal 2: F, V, W, J out of range, or not zero at node 0.
pub fn link_fault(node: &Node, i: usize) -> bool {
    let link = [node.capacity, node.full_speed, node.wave_speed, node.jam];
    if i == 0 {
        return link != [0; 4];
    }
    let speeds_and_jam = 1..=WHOLE as u32;
    node.capacity > WHOLE as u32 || link[1..].iter().any(|word| !speeds_and_jam.contains(word))
}

/// Refusal 2: dropped capacity above F or drop density above J, or not zero at node 0.
pub fn drop_fault(node: &Node, i: usize) -> bool {
    if i == 0 {
        return (node.dropped_capacity, node.drop_density) != (0, 0);
    }
    node.dropped_capacity > node.capacity || node.drop_density > node.jam
}

/// Refusal 3: identifier zero or an earlier node's, C or L out of range, or not zero at node N.
pub fn ramp_fault(input: &Input, i: usize) -> bool {
    let node = input.node(i);
    let repeated = (0..i).any(|earlier| input.node(earlier).identifier == node.identifier);
    if node.identifier == 0 || repeated {
        return true;
    }
    if i == input.size.links {
        return node.ramp_capacity != 0 || node.queue_limit != 0;
    }
    node.ramp_capacity > WHOLE as u32 || node.queue_limit > MOST_QUEUE_LIMIT
}

/// Refusal 4: n > J or l > L at the start, or not zero at node 0 or N.
pub fn start_fault(input: &Input, i: usize) -> bool {
    let node = input.node(i);
    let fixed_vehicles = i == 0 && node.start_vehicles != 0;
    let fixed_queue = i == input.size.links && node.start_queue != 0;
    let too_many = node.start_vehicles > node.jam || node.start_queue > node.queue_limit;
    fixed_vehicles || fixed_queue || too_many
}

/// Refusal 5: Q or b out of range, Q not zero at node N, b not zero at node 0 or N; at node N also
/// the flow that may leave link N in that step, wherever its word stands in the list.
pub fn demand_fault(input: &Input, k: usize, i: usize) -> bool {
    let (arrivals, split) = (input.arrivals(k, i), input.split(k, i));
    let last = i == input.size.links;
    let fixed = (last && arrivals != 0) || ((i == 0 || last) && split != 0);
    arrivals > WHOLE || split > WHOLE || fixed || (last && input.downstream(k) > WHOLE)
}

/// Refusal 6, first place by step, then node.
pub fn test_plan<R: Rules>(input: &Input, plan: &[u32]) -> Outcome {
    for k in 0..input.size.steps {
        for i in 0..input.size.nodes() {
            let place = input.size.plan_place(k, i);
            let (rate, limit) = (plan[place], plan[place + 1]);
            refuse_if(R::plan_fault(input, i, rate, limit), 6, k, i)?;
        }
    }
    Ok(())
}

/// Refusal 6: rate above C or limit above V. Node N has C = 0 and node 0 has V = 0, after 2
/// and 3 passed, so that node N's rate and node 0's limit must be zero.
pub fn plan_fault(input: &Input, i: usize, rate: u32, limit: u32) -> bool {
    let node = input.node(i);
    rate > node.ramp_capacity || limit > node.full_speed
}
