//! What is printed: a paragraph for each change, the figures by kind, and again all that were accepted.

use crate::changes::{Change, Kind, KINDS};
use crate::verdict::{Verdict, VERDICTS};

/// How a change was judged, its first error, and how long that took.
pub struct Tried {
    pub verdict: Verdict,
    pub error: String,
    pub seconds: f64,
}

/// Where a printed error is cut, in characters.
const CUT: usize = 200;

#[derive(Default)]
pub struct Report {
    counts: Vec<(Kind, Verdict)>,
    accepted: Vec<Change>,
    seconds: f64,
}

pub fn list(change: &Change) {
    println!("{}", place(change));
    println!("{}", lines(change));
}

fn lines(change: &Change) -> String {
    let new = if change.new.is_empty() { "(nothing)" } else { &change.new };
    format!("    {} -> {new}", change.old)
}

fn place(change: &Change) -> String {
    let (label, kind) = (change.label(), change.kind);
    format!("{label} {kind} {}:{} {}", change.path(), change.line, change.within)
}

impl Report {
    pub fn add(&mut self, change: &Change, tried: Tried) {
        println!("{}: {} ({:.1} s)", place(change), tried.verdict, tried.seconds);
        println!("{}", lines(change));
        if !tried.error.is_empty() {
            println!("    {}", tried.error.chars().take(CUT).collect::<String>());
        }
        self.counts.push((change.kind, tried.verdict));
        self.seconds += tried.seconds;
        if tried.verdict == Verdict::Accepted {
            self.accepted.push(change.clone());
        }
    }

    pub fn finish(&self) {
        println!();
        for kind in KINDS {
            let tried = self.counts.iter().filter(|count| count.0 == kind).count();
            if tried > 0 {
                println!("{kind:12} {}", self.figures(tried, |count| count.0 == kind));
            }
        }
        println!("{:12} {}", "all", self.figures(self.counts.len(), |_| true));
        let each = self.seconds / self.counts.len().max(1) as f64;
        println!("{:.0} s of checks, {each:.1} s for each change", self.seconds);
        if !self.accepted.is_empty() {
            println!("\naccepted:");
            self.accepted.iter().for_each(list);
        }
    }

    fn figures(&self, tried: usize, counted: impl Fn(&(Kind, Verdict)) -> bool) -> String {
        let number = |verdict| {
            self.counts.iter().filter(|count| counted(count) && count.1 == verdict).count()
        };
        let parts: Vec<String> =
            VERDICTS.iter().map(|verdict| format!("{} {verdict}", number(*verdict))).collect();
        format!("{tried} tried: {}", parts.join(", "))
    }
}
