//! The product's calls as traits, so that the model, a wrong variant of it and the host all fit the
//! same comparisons; and four ways to make a call: on nodes, on files, on other lists than those
//! given, and on a small stack.

use crate::model::files::file_bytes;
use crate::model::lists::{corridor_of, Node};
use crate::model::{self, answer, Kind, List, Rules};
use crate::stack::{stack_left, SMALL_STACK};

/// The calls on word lists. Each answers row × 65,536 + node × 256 + number, 0 for accepted.
pub trait WordCalls: Sync {
    fn simulate(&self, corridor: &[u32], demands: &[u32], plan: &[u32], record: &mut [u32]) -> u32;
    fn check(&self, corridor: &[u32], demands: &[u32], record: &[u32]) -> u32;
    fn convert(&self, corridor: &[u32], demands: &[u32], record: &[u32], plan: &mut [u32]) -> u32;
    fn normal(
        &self,
        corridor: &[u32],
        demands: &[u32],
        plan: &[u32],
        work: &mut [u32],
        normal: &mut [u32],
    ) -> u32;
    /// `lists` are corridor, demands and record, `place` is a step and a node.
    fn search(&self, lists: [&[u32]; 3], place: (u32, u32), out: &mut [u32]) -> u32;
}

/// The first four with the corridor as a list of nodes.
pub trait NodeCalls: Sync {
    fn simulate_nodes(
        &self,
        corridor: &[Node],
        demands: &[u32],
        plan: &[u32],
        record: &mut [u32],
    ) -> u32;
    fn check_nodes(&self, corridor: &[Node], demands: &[u32], record: &[u32]) -> u32;
    fn convert_nodes(
        &self,
        corridor: &[Node],
        demands: &[u32],
        record: &[u32],
        plan: &mut [u32],
    ) -> u32;
    fn normal_nodes(
        &self,
        corridor: &[Node],
        demands: &[u32],
        plan: &[u32],
        work: &mut [u32],
        normal: &mut [u32],
    ) -> u32;
}

/// The calls on block files; `files` are corridor, demands and record.
pub trait FileCalls: Sync {
    fn read(&self, list: List, n: u32, k: u32, file: &[u8], words: &mut [u32]) -> u32;
    fn write(&self, list: List, n: u32, k: u32, words: &[u32], file: &mut [u8]) -> u32;
    fn check_files(&self, n: u32, k: u32, files: [&[u8]; 3]) -> u32;
    fn convert_files(&self, n: u32, k: u32, files: [&[u8]; 3], plan_file: &mut [u8]) -> u32;
}

/// The program `normal`: what it prints for that standard input.
pub trait Program {
    fn print(&self, input: &[u8]) -> Vec<u8>;
}

impl<R: Rules> WordCalls for R {
    fn simulate(&self, corridor: &[u32], demands: &[u32], plan: &[u32], record: &mut [u32]) -> u32 {
        answer(model::simulate::<R>(corridor, demands, plan, record))
    }

    fn check(&self, corridor: &[u32], demands: &[u32], record: &[u32]) -> u32 {
        answer(model::check::<R>(corridor, demands, record))
    }

    fn convert(&self, corridor: &[u32], demands: &[u32], record: &[u32], plan: &mut [u32]) -> u32 {
        answer(model::convert::<R>(corridor, demands, record, plan))
    }

    fn normal(
        &self,
        corridor: &[u32],
        demands: &[u32],
        plan: &[u32],
        work: &mut [u32],
        normal: &mut [u32],
    ) -> u32 {
        answer(model::normal::<R>(corridor, demands, plan, work, normal))
    }

    fn search(&self, lists: [&[u32]; 3], place: (u32, u32), out: &mut [u32]) -> u32 {
        let ([corridor, demands, record], (step, node)) = (lists, place);
        answer(model::search::<R>(corridor, demands, record, step, node, out))
    }
}

/// The corridor that a list of nodes stands for: each node carries the words of kind 10.
fn as_words(nodes: &[Node]) -> Vec<u32> {
    corridor_of(Kind::CapacityDrop, nodes)
}

impl<R: Rules> NodeCalls for R {
    fn simulate_nodes(
        &self,
        corridor: &[Node],
        demands: &[u32],
        plan: &[u32],
        record: &mut [u32],
    ) -> u32 {
        self.simulate(&as_words(corridor), demands, plan, record)
    }

    fn check_nodes(&self, corridor: &[Node], demands: &[u32], record: &[u32]) -> u32 {
        self.check(&as_words(corridor), demands, record)
    }

    fn convert_nodes(
        &self,
        corridor: &[Node],
        demands: &[u32],
        record: &[u32],
        plan: &mut [u32],
    ) -> u32 {
        self.convert(&as_words(corridor), demands, record, plan)
    }

    fn normal_nodes(
        &self,
        corridor: &[Node],
        demands: &[u32],
        plan: &[u32],
        work: &mut [u32],
        normal: &mut [u32],
    ) -> u32 {
        self.normal(&as_words(corridor), demands, plan, work, normal)
    }
}

impl<R: Rules> FileCalls for R {
    fn read(&self, list: List, n: u32, k: u32, file: &[u8], words: &mut [u32]) -> u32 {
        answer(model::read::<R>(list, n, k, file, words))
    }

    fn write(&self, list: List, n: u32, k: u32, words: &[u32], file: &mut [u8]) -> u32 {
        answer(model::write::<R>(list, n, k, words, file))
    }

    fn check_files(&self, n: u32, k: u32, files: [&[u8]; 3]) -> u32 {
        answer(model::check_files::<R>(n, k, files))
    }

    fn convert_files(&self, n: u32, k: u32, files: [&[u8]; 3], plan_file: &mut [u8]) -> u32 {
        answer(model::convert_files::<R>(n, k, files, plan_file))
    }
}

impl<R: Rules> Program for R {
    fn print(&self, input: &[u8]) -> Vec<u8> {
        model::program::print::<R>(input).into_bytes()
    }
}

/// Makes calls on nodes from word lists. The list's own N falls away; its nodes count. The search has
/// no call on nodes and stays as it is.
pub struct ByNodes<C>(pub C);

/// The whole nodes of a corridor's words, sound or not, of the kind whose length is nearer to that
/// of the words.
fn nodes_of(corridor: &[u32]) -> Vec<Node> {
    let (&n, words) = corridor.split_first().unwrap_or((&0, &[]));
    let kind = match words.len() < 10 * (n as usize + 1) {
        true => Kind::Corridor,
        false => Kind::CapacityDrop,
    };
    words.chunks_exact(kind.node_words()).map(Node::from_words).collect()
}

impl<C: NodeCalls + WordCalls> WordCalls for ByNodes<C> {
    fn simulate(&self, corridor: &[u32], demands: &[u32], plan: &[u32], record: &mut [u32]) -> u32 {
        self.0.simulate_nodes(&nodes_of(corridor), demands, plan, record)
    }

    fn check(&self, corridor: &[u32], demands: &[u32], record: &[u32]) -> u32 {
        self.0.check_nodes(&nodes_of(corridor), demands, record)
    }

    fn convert(&self, corridor: &[u32], demands: &[u32], record: &[u32], plan: &mut [u32]) -> u32 {
        self.0.convert_nodes(&nodes_of(corridor), demands, record, plan)
    }

    fn normal(
        &self,
        corridor: &[u32],
        demands: &[u32],
        plan: &[u32],
        work: &mut [u32],
        normal: &mut [u32],
    ) -> u32 {
        self.0.normal_nodes(&nodes_of(corridor), demands, plan, work, normal)
    }

    fn search(&self, lists: [&[u32]; 3], place: (u32, u32), out: &mut [u32]) -> u32 {
        self.0.search(lists, place, out)
    }
}

/// Makes the checker's and the converter's calls on files: the side's writers write them, its
/// reader reads the plan back. Simulator, normal form and search have no call on files and stay as
/// they are.
pub struct ByFiles<C>(pub C);

impl<C: FileCalls> ByFiles<C> {
    /// N, K and the files of three lists, or the first writer's refusal.
    fn written(&self, lists: [&[u32]; 3]) -> Result<(u32, u32, [Vec<u8>; 3]), u32> {
        let [Some(&n), Some(&k)] = [lists[0].first(), lists[1].first()] else {
            return Err(1);
        };
        let mut files = lists.map(|words| vec![0; file_bytes(words.len())]);
        let names = [List::Corridor, List::Demands, List::Record];
        for ((list, words), file) in names.into_iter().zip(lists).zip(&mut files) {
            match self.0.write(list, n, k, words, file) {
                0 => {}
                refused => return Err(refused),
            }
        }
        Ok((n, k, files))
    }
}

impl<C: FileCalls + WordCalls> WordCalls for ByFiles<C> {
    fn simulate(&self, corridor: &[u32], demands: &[u32], plan: &[u32], record: &mut [u32]) -> u32 {
        self.0.simulate(corridor, demands, plan, record)
    }

    fn check(&self, corridor: &[u32], demands: &[u32], record: &[u32]) -> u32 {
        match self.written([corridor, demands, record]) {
            Ok((n, k, [a, b, c])) => self.0.check_files(n, k, [&a, &b, &c]),
            Err(refused) => refused,
        }
    }

    fn convert(&self, corridor: &[u32], demands: &[u32], record: &[u32], plan: &mut [u32]) -> u32 {
        let (n, k, [a, b, c]) = match self.written([corridor, demands, record]) {
            Ok(written) => written,
            Err(refused) => return refused,
        };
        let mut plan_file = vec![0; file_bytes(plan.len())];
        match self.0.convert_files(n, k, [&a, &b, &c], &mut plan_file) {
            0 => self.0.read(List::Plan, n, k, &plan_file, plan),
            refused => refused,
        }
    }

    fn normal(
        &self,
        corridor: &[u32],
        demands: &[u32],
        plan: &[u32],
        work: &mut [u32],
        normal: &mut [u32],
    ) -> u32 {
        self.0.normal(corridor, demands, plan, work, normal)
    }

    fn search(&self, lists: [&[u32]; 3], place: (u32, u32), out: &mut [u32]) -> u32 {
        self.0.search(lists, place, out)
    }
}

/// Makes each call with the corridor and the demands that a function makes of those given.
pub struct Instead<'a, F> {
    pub calls: &'a dyn WordCalls,
    pub lists: F,
}

impl<F: Fn(&[u32], &[u32]) -> [Vec<u32>; 2] + Sync> WordCalls for Instead<'_, F> {
    fn simulate(&self, corridor: &[u32], demands: &[u32], plan: &[u32], record: &mut [u32]) -> u32 {
        let [corridor, demands] = (self.lists)(corridor, demands);
        self.calls.simulate(&corridor, &demands, plan, record)
    }

    fn check(&self, corridor: &[u32], demands: &[u32], record: &[u32]) -> u32 {
        let [corridor, demands] = (self.lists)(corridor, demands);
        self.calls.check(&corridor, &demands, record)
    }

    fn convert(&self, corridor: &[u32], demands: &[u32], record: &[u32], plan: &mut [u32]) -> u32 {
        let [corridor, demands] = (self.lists)(corridor, demands);
        self.calls.convert(&corridor, &demands, record, plan)
    }

    fn normal(
        &self,
        corridor: &[u32],
        demands: &[u32],
        plan: &[u32],
        work: &mut [u32],
        normal: &mut [u32],
    ) -> u32 {
        let [corridor, demands] = (self.lists)(corridor, demands);
        self.calls.normal(&corridor, &demands, plan, work, normal)
    }

    fn search(&self, lists: [&[u32]; 3], place: (u32, u32), out: &mut [u32]) -> u32 {
        let [corridor, demands] = (self.lists)(lists[0], lists[1]);
        self.calls.search([&corridor, &demands, lists[2]], place, out)
    }
}

/// Makes each call in a thread of its own with a stack of 64 KiB, all that include/gigorchid.h asks
/// of a host; the lists are on the heap.
pub struct OnSmallStack<C>(pub C);

fn on_small_stack(call: impl FnOnce() -> u32 + Send) -> u32 {
    std::thread::scope(|scope| {
        let thread = std::thread::Builder::new().stack_size(SMALL_STACK);
        let running = thread.spawn_scoped(scope, || {
            let left = stack_left();
            assert!(left <= SMALL_STACK, "the stack has {left} bytes");
            call()
        });
        running.expect("the thread starts").join().expect("the call comes back")
    })
}

impl<C: WordCalls> WordCalls for OnSmallStack<C> {
    fn simulate(&self, corridor: &[u32], demands: &[u32], plan: &[u32], record: &mut [u32]) -> u32 {
        on_small_stack(|| self.0.simulate(corridor, demands, plan, record))
    }

    fn check(&self, corridor: &[u32], demands: &[u32], record: &[u32]) -> u32 {
        on_small_stack(|| self.0.check(corridor, demands, record))
    }

    fn convert(&self, corridor: &[u32], demands: &[u32], record: &[u32], plan: &mut [u32]) -> u32 {
        on_small_stack(|| self.0.convert(corridor, demands, record, plan))
    }

    fn normal(
        &self,
        corridor: &[u32],
        demands: &[u32],
        plan: &[u32],
        work: &mut [u32],
        normal: &mut [u32],
    ) -> u32 {
        on_small_stack(|| self.0.normal(corridor, demands, plan, work, normal))
    }

    fn search(&self, lists: [&[u32]; 3], place: (u32, u32), out: &mut [u32]) -> u32 {
        on_small_stack(|| self.0.search(lists, place, out))
    }
}

impl<C: FileCalls> FileCalls for OnSmallStack<C> {
    fn read(&self, list: List, n: u32, k: u32, file: &[u8], words: &mut [u32]) -> u32 {
        on_small_stack(|| self.0.read(list, n, k, file, words))
    }

    fn write(&self, list: List, n: u32, k: u32, words: &[u32], file: &mut [u8]) -> u32 {
        on_small_stack(|| self.0.write(list, n, k, words, file))
    }

    fn check_files(&self, n: u32, k: u32, files: [&[u8]; 3]) -> u32 {
        on_small_stack(|| self.0.check_files(n, k, files))
    }

    fn convert_files(&self, n: u32, k: u32, files: [&[u8]; 3], plan_file: &mut [u8]) -> u32 {
        on_small_stack(|| self.0.convert_files(n, k, files, plan_file))
    }
}
