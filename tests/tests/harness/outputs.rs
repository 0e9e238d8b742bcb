//! Wrong outputs: written on a refusal, left alone, of a wrong length, copied from the input, or
//! the same for every input.

use tests::calls::WordCalls;
use tests::model::{Input, List, Quick};

/// What an outputs variant does wrong; everything else is the model's.
#[derive(Clone, Copy)]
enum Wrong {
    WritesOnRefusal,
    WorkLeftAlone,
    WorkFilledOnPlanRefusal,
    NormalWrittenOnTwelve,
    PlanUnchanged,
    LongOutputTaken,
    OutputLeftAsLent,
    FirstStepCopiedOn,
    RefusesAll,
    OneFixedPlan,
    RowAndNodeSwapped,
    PlaceLeftOut,
}

use Wrong::*;

impl Wrong {
    fn answer(self, answer: u32) -> u32 {
        let (number, node, row) = (answer % 256, answer / 256 % 256, answer / 65_536);
        match self {
            RefusesAll => answer.max(1),
            RowAndNodeSwapped => (node * 65_536).wrapping_add(row.wrapping_mul(256)) + number,
            PlaceLeftOut => number,
            _ => answer,
        }
    }

    /// An output that the model has filled or left alone, made wrong.
    fn spoil(self, answer: u32, lent: &[u32], output: &mut [u32]) {
        match self {
            WritesOnRefusal if answer != 0 => output.iter_mut().take(1).for_each(|word| *word = 0),
            OutputLeftAsLent => output.copy_from_slice(lent),
            OneFixedPlan if answer == 0 => output.fill(0),
            _ => {}
        }
    }
}

impl WordCalls for Wrong {
    fn simulate(&self, corridor: &[u32], demands: &[u32], plan: &[u32], record: &mut [u32]) -> u32 {
        let lent = record.to_vec();
        let size = Input::new(corridor, demands).map(|input| input.size);
        let wanted = size.map_or(record.len(), |size| {
            let lengths = List::Record.kinds().iter().map(|kind| kind.words(size));
            lengths.filter(|&words| words <= record.len()).max().unwrap_or(record.len())
        });
        let taken = match self {
            LongOutputTaken => wanted,
            _ => record.len(),
        };
        let answer = Quick.simulate(corridor, demands, plan, &mut record[..taken]);
        if let (FirstStepCopiedOn, 0, Ok(size)) = (self, answer, size) {
            let kind = List::Record.kind_of_length(size, record.len()).expect("accepted");
            let state = kind.entry_place(size, 1, 0);
            (1..size.steps).for_each(|k| record.copy_within(..state, k * state));
        }
        self.spoil(answer, &lent, record);
        self.answer(answer)
    }

    fn check(&self, corridor: &[u32], demands: &[u32], record: &[u32]) -> u32 {
        self.answer(Quick.check(corridor, demands, record))
    }

    fn convert(&self, corridor: &[u32], demands: &[u32], record: &[u32], plan: &mut [u32]) -> u32 {
        let lent = plan.to_vec();
        let answer = Quick.convert(corridor, demands, record, plan);
        self.spoil(answer, &lent, plan);
        self.answer(answer)
    }

    fn normal(
        &self,
        corridor: &[u32],
        demands: &[u32],
        plan: &[u32],
        work: &mut [u32],
        normal: &mut [u32],
    ) -> u32 {
        let (lent_work, lent_normal) = (work.to_vec(), normal.to_vec());
        let answer = Quick.normal(corridor, demands, plan, work, normal);
        match (self, answer % 256) {
            (WorkLeftAlone, 12) => work.copy_from_slice(&lent_work),
            (WorkFilledOnPlanRefusal, 6) => work.fill(0),
            (NormalWrittenOnTwelve, 12) => normal.fill(0),
            (PlanUnchanged, 0) => normal.copy_from_slice(plan),
            _ => {}
        }
        self.spoil(answer, &lent_normal, normal);
        self.answer(answer)
    }

    fn search(&self, lists: [&[u32]; 3], place: (u32, u32), out: &mut [u32]) -> u32 {
        let lent = out.to_vec();
        let answer = Quick.search(lists, place, out);
        self.spoil(answer, &lent, out);
        self.answer(answer)
    }
}

pub fn variants() -> Vec<(&'static str, &'static dyn WordCalls)> {
    vec![
        ("WritesOnRefusal", &WritesOnRefusal),
        ("WorkLeftAlone", &WorkLeftAlone),
        ("WorkFilledOnPlanRefusal", &WorkFilledOnPlanRefusal),
        ("NormalWrittenOnTwelve", &NormalWrittenOnTwelve),
        ("PlanUnchanged", &PlanUnchanged),
        ("LongOutputTaken", &LongOutputTaken),
        ("OutputLeftAsLent", &OutputLeftAsLent),
        ("FirstStepCopiedOn", &FirstStepCopiedOn),
        ("RefusesAll", &RefusesAll),
        ("OneFixedPlan", &OneFixedPlan),
        ("RowAndNodeSwapped", &RowAndNodeSwapped),
        ("PlaceLeftOut", &PlaceLeftOut),
    ]
}

/// Those that bear on the search too.
pub fn search_variants() -> Vec<(&'static str, &'static dyn WordCalls)> {
    let names = [
        "WritesOnRefusal",
        "OutputLeftAsLent",
        "RefusesAll",
        "OneFixedPlan",
        "RowAndNodeSwapped",
        "PlaceLeftOut",
    ];
    variants().into_iter().filter(|(name, _)| names.contains(name)).collect()
}
