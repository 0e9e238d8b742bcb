//! The program `normal`: what it prints for given bytes on standard input.

use super::convert::{rate_and_limit, setting_at};
use super::files::{read_three, words_of};
use super::{refusal, refuse_if, Input, Kinds, List, Record, Refusal, Rules, Setting, Size};

pub const MOST_BYTES: usize = 65_536;

/// Everything that the program prints.
pub fn print<R: Rules>(input: &[u8]) -> String {
    match plan_text::<R>(input) {
        Ok(text) => text,
        Err(Refusal { number, row, node }) => format!("REFUSED {number} {row} {node}\n"),
    }
}

/// The lines of the plan: the three files' readers in turn, then the converter's refusals.
fn plan_text<R: Rules>(bytes: &[u8]) -> Result<String, Refusal> {
    let (size, files) = three_files::<R>(bytes)?;
    let [corridor, demands, record] = read_three::<R>(size, files)?;
    let input = Input::by::<R>(&corridor, &demands)?;
    let record = Record::by::<R>(size, &record)?;
    R::test_input(&input)?;
    R::check_record(&input, &record)?;
    Ok(lines::<R>(&input, &record))
}

/// The input's size and its three files: 14 above 65,536 bytes, then N and K, then 14 unless the
/// length is just that of the files, each being of the kind that its own first block names.
pub fn three_files<R: Rules>(bytes: &[u8]) -> Result<(Size, [&[u8]; 3]), Refusal> {
    refuse_if(bytes.len() > MOST_BYTES, 14, 0, 0)?;
    let size = R::program_size(bytes)?;
    let corridor = R::kind_of_file(List::Corridor, bytes);
    let demands_file = &bytes[corridor.bytes(size)..];
    let demands = R::kind_of_file(List::Demands, demands_file);
    let record_file = demands_file.get(demands.bytes(size)..).unwrap_or(&[]);
    let record = R::kind_of_file(List::Record, record_file);
    let ends = file_ends(size, Kinds { corridor, demands, record });
    refuse_if(bytes.len() != ends[2], 14, 0, 0)?;
    Ok((size, [&bytes[..ends[0]], &bytes[ends[0]..ends[1]], &bytes[ends[1]..]]))
}

/// Where the files of corridor, demands and record end that are of those kinds.
pub fn file_ends(size: Size, kinds: Kinds) -> [usize; 3] {
    let corridor_end = kinds.corridor.bytes(size);
    let demands_end = corridor_end + kinds.demands.bytes(size);
    [corridor_end, demands_end, demands_end + kinds.record.bytes(size)]
}

/// N is word 2 of the corridor's first block, K that of the demands' first block, which stands
/// behind as many blocks as a corridor of its kind has; N is judged before K is looked for.
pub fn program_size<R: Rules>(bytes: &[u8]) -> Result<Size, Refusal> {
    let n = word_two(bytes, 0)?;
    let corridor_end = R::kind_of_file(List::Corridor, bytes).bytes(R::size(n, 1)?);
    R::size(n, word_two(bytes, corridor_end)?)
}

/// Word 2 of the block that begins at a byte; 14 if the input ends before its last byte.
fn word_two(bytes: &[u8], block: usize) -> Result<u32, Refusal> {
    let word = bytes.get(block + 8..block + 12).ok_or(refusal(14, 0, 0))?;
    Ok(words_of(word)[0])
}

/// The first line, then one line for each step and node.
fn lines<R: Rules>(input: &Input, record: &Record) -> String {
    let cost = record.cost;
    let mut text = format!("PLAN {} {} {cost}\n", input.size.steps, input.size.nodes());
    for k in 0..input.size.steps {
        for i in 0..input.size.nodes() {
            let setting = setting_at::<R>(input, record, k, i);
            let (rate, limit) = rate_and_limit(input, i, setting);
            let letter = match setting {
                Setting::Full(_) => 'F',
                Setting::Held(..) => 'H',
            };
            text += &format!("{k} {} {rate} {limit} {letter}\n", input.node(i).identifier);
        }
    }
    text
}
