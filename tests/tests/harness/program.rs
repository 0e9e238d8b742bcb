//! Wrong programs: other orders of the first tests, and other texts.

use super::{file_but_of, length_but_of, wrong};
use tests::calls::Program;
use tests::model::check::Proposal;
use tests::model::program::{program_size, three_files};
use tests::model::{refusal, refuse_if, Kind, List, Quick, Refusal, Rules, Size};

wrong! { variants: Program;
    /// Whole blocks are asked for before N is looked at.
    BlocksBeforeCounts {
        fn program_size(bytes: &[u8]) -> Result<Size, Refusal> {
            refuse_if(!bytes.len().is_multiple_of(512), 14, 0, 0)?;
            program_size::<Quick>(bytes)
        }
    }

    /// A missing K is a bad one.
    MissingStepsAreBad {
        fn program_size(bytes: &[u8]) -> Result<Size, Refusal> {
            let missing = bytes.len() >= 12;
            program_size::<Quick>(bytes).map_err(|refused| if missing { refusal(1, 0, 0) } else { refused })
        }
    }

    /// The corridor's file is read before K is looked at.
    CorridorReadBeforeSteps {
        fn program_size(bytes: &[u8]) -> Result<Size, Refusal> {
            let links = bytes.get(8..12).map(|word| u32::from(word[0]));
            if let Some(size) = links.and_then(|n| Size::new(n, 1).ok()) {
                let kind = List::Corridor.kind_of_file(bytes);
                Quick::read_list(kind, size, &bytes[..kind.bytes(size).min(bytes.len())])?;
            }
            program_size::<Quick>(bytes)
        }
    }

    /// The record is looked for behind demands of kind 2, whatever they say they are.
    FiveReadAsTwo {
        fn kind_of_file(list: List, file: &[u8]) -> Kind {
            file_but_of(Kind::Downstream, list, file)
        }
    }

    /// A record of kind 5 demands is refused.
    FiveRefused {
        fn kind_of_length(list: List, size: Size, words: usize) -> Result<Kind, Refusal> {
            length_but_of(Kind::Downstream, list, size, words)
        }
    }

    /// The demands are looked for behind a corridor of kind 1, whatever it says it is.
    TenReadAsOne {
        fn kind_of_file(list: List, file: &[u8]) -> Kind {
            file_but_of(Kind::CapacityDrop, list, file)
        }
    }

    /// A record of a kind 10 corridor is refused.
    TenRefused {
        fn kind_of_length(list: List, size: Size, words: usize) -> Result<Kind, Refusal> {
            length_but_of(Kind::CapacityDrop, list, size, words)
        }
    }

    /// The record's blocks are those of kind 3, whatever it says it is.
    SevenReadAsThree {
        fn kind_of_file(list: List, file: &[u8]) -> Kind {
            file_but_of(Kind::OffRamps, list, file)
        }
    }

    /// A record of kind 7 is refused.
    SevenRefused {
        fn kind_of_length(list: List, size: Size, words: usize) -> Result<Kind, Refusal> {
            length_but_of(Kind::OffRamps, list, size, words)
        }
    }

    /// Any word 0 but 3 makes a record one of kind 7.
    OtherRecordsReadAsSeven {
        fn kind_of_file(list: List, file: &[u8]) -> Kind {
            let three = file.starts_with(&(Kind::Record as u32).to_le_bytes());
            match list == List::Record && !three {
                true => Kind::OffRamps,
                false => list.kind_of_file(file),
            }
        }
    }

    ExitsUntested {
        fn exit_fault(_: &Proposal) -> bool {
            false
        }
    }

    /// K alone is looked for behind a corridor of kind 1.
    StepsBehindKindOne {
        fn program_size(bytes: &[u8]) -> Result<Size, Refusal> {
            let size = program_size::<TenReadAsOne>(bytes)?;
            let corridor = List::Corridor.kind_of_file(bytes);
            refuse_if(bytes.len() < corridor.bytes(size), 14, 0, 0)?;
            Ok(size)
        }
    }
}

/// What is wrong with the text; everything else is the model's.
#[derive(Clone, Copy)]
enum Wrong {
    NoLastLineFeed,
    OneByteLessTaken,
    HeldCalledFull,
    RefusalWithoutPlace,
    LongerInputCut,
    CostByWidthFour,
}

use Wrong::*;

impl Program for Wrong {
    fn print(&self, input: &[u8]) -> Vec<u8> {
        let taken = match self {
            LongerInputCut => &input[..input.len().min(65_536)],
            _ => input,
        };
        let mut text = String::from_utf8(Quick.print(taken)).expect("the model prints text");
        match self {
            NoLastLineFeed => text.truncate(text.len() - 1),
            OneByteLessTaken if input.len() == 65_536 => text = "REFUSED 14 0 0\n".to_string(),
            HeldCalledFull => text = text.replace(" H\n", " F\n"),
            CostByWidthFour if text.starts_with('P') => {
                let (steps, nodes, cost) = first_line_by_width_four(input);
                let lines = text.split_once('\n').expect("the first line ends").1;
                text = format!("PLAN {steps} {nodes} {cost}\n{lines}");
            }
            RefusalWithoutPlace if text.starts_with('R') => {
                let number = text.split(' ').nth(1).expect("a refusal has a number");
                text = format!("REFUSED {number} 0 0\n");
            }
            _ => {}
        }
        text.into_bytes()
    }
}

/// Steps, nodes and, of a record of either kind, the words behind four for each node.
fn first_line_by_width_four(input: &[u8]) -> (usize, usize, u64) {
    let (size, [_, _, file]) = three_files::<Quick>(input).expect("an accepted input");
    let words = Quick::read_list(List::Record.kind_of_file(file), size, file).expect("accepted");
    let place = Kind::Record.cost_place(size);
    let cost = u64::from(words[place]) + (u64::from(words[place + 1]) << 32);
    (size.steps, size.nodes(), cost)
}

pub fn text_variants() -> Vec<(&'static str, &'static dyn Program)> {
    vec![
        ("NoLastLineFeed", &NoLastLineFeed),
        ("OneByteLessTaken", &OneByteLessTaken),
        ("HeldCalledFull", &HeldCalledFull),
        ("RefusalWithoutPlace", &RefusalWithoutPlace),
        ("LongerInputCut", &LongerInputCut),
        ("CostByWidthFour", &CostByWidthFour),
    ]
}
