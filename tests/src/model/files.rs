//! Block files: a reader and a writer for each list, and the C host's two calls on files.

use super::lists::same_length;
use super::{check, convert, refuse_if, Kind, List, Outcome, Refusal, Rules, Size};

pub const BLOCK_BYTES: usize = 512;
pub const BLOCK_WORDS: usize = 128;
pub const FIRST_PAYLOAD: usize = 2;
pub const CHECK: usize = 127;
pub const PAYLOAD_WORDS: usize = CHECK - FIRST_PAYLOAD;

/// The length in bytes of a file of so many words.
pub fn file_bytes(words: usize) -> usize {
    words.div_ceil(PAYLOAD_WORDS) * BLOCK_BYTES
}

/// The words of some bytes, low byte first.
pub fn words_of(bytes: &[u8]) -> Vec<u32> {
    let words = bytes.chunks_exact(4);
    words.map(|word| u32::from_le_bytes([word[0], word[1], word[2], word[3]])).collect()
}

/// Word 127: the sum of (2j+1) × word j, j = 0..126, modulo 2^32.
pub fn check_word(block: &[u32]) -> u32 {
    let weighted = (0..CHECK).map(|j| (2 * j as u32 + 1).wrapping_mul(block[j]));
    weighted.fold(0, u32::wrapping_add)
}

/// Refusal 1 where a corridor's own N or a demand series' own K is not the one told.
fn test_own_count(kind: Kind, size: Size, words: &[u32]) -> Outcome {
    let told = kind.own_count(size);
    refuse_if(told.is_some_and(|count| words[0] as usize != count), 1, 0, 0)
}

/// Reads a file into a lent word list, which must have the length of the file's kind.
pub fn read<R: Rules>(list: List, n: u32, k: u32, file: &[u8], words: &mut [u32]) -> Outcome {
    let size = R::size(n, k)?;
    let kind = R::kind_of_file(list, file);
    same_length(words.len(), kind.words(size))?;
    words.copy_from_slice(&R::read_list(kind, size, file)?);
    Ok(())
}

/// The reader's tests after those of its arguments: 14, then 15, 16, 17 block by block, then 18,
/// then 1 for the file's own N or K.
pub fn read_list<R: Rules>(kind: Kind, size: Size, file: &[u8]) -> Result<Vec<u32>, Refusal> {
    refuse_if(file.len() != kind.bytes(size), 14, 0, 0)?;
    let mut payload = Vec::with_capacity(file.len() / 4);
    let mut last = 0;
    for (number, bytes) in file.chunks_exact(BLOCK_BYTES).enumerate() {
        last = number;
        let block = words_of(bytes);
        for refusal_number in R::BLOCK_ORDER {
            let fault = block_fault::<R>(refusal_number, kind, number, &block);
            refuse_if(fault, refusal_number, number, 0)?;
        }
        payload.extend(&block[FIRST_PAYLOAD..CHECK]);
    }
    // Only the last block has room for padding.
    let padding = payload.split_off(kind.words(size));
    refuse_if(padding.iter().any(|&word| word != 0), 18, last, 0)?;
    test_own_count(kind, size, &payload)?;
    Ok(payload)
}

/// Whether refusal 15, 16 or 17 is due for a block.
pub fn block_fault<R: Rules>(
    refusal_number: u32,
    kind: Kind,
    number: usize,
    block: &[u32],
) -> bool {
    match refusal_number {
        15 => block[CHECK] != R::check_word(block),
        16 => block[0] != kind as u32,
        _ => block[1] as usize != number,
    }
}

/// Writes a word list into a lent file, as the kind that its length tells.
pub fn write<R: Rules>(list: List, n: u32, k: u32, words: &[u32], file: &mut [u8]) -> Outcome {
    let size = R::size(n, k)?;
    let kind = R::kind_of_length(list, size, words.len())?;
    same_length(file.len(), kind.bytes(size))?;
    test_own_count(kind, size, words)?;
    write_blocks::<R>(kind, words, file);
    Ok(())
}

/// Fills a file of the right length with the blocks of a word list.
pub fn write_blocks<R: Rules>(kind: Kind, words: &[u32], file: &mut [u8]) {
    let payloads = words.chunks(PAYLOAD_WORDS);
    for (number, (payload, bytes)) in payloads.zip(file.chunks_exact_mut(BLOCK_BYTES)).enumerate() {
        let mut block = [0; BLOCK_WORDS];
        block[0] = kind as u32;
        block[1] = number as u32;
        block[FIRST_PAYLOAD..FIRST_PAYLOAD + payload.len()].copy_from_slice(payload);
        block[CHECK] = R::check_word(&block);
        for (place, word) in bytes.chunks_exact_mut(4).zip(block) {
            place.copy_from_slice(&word.to_le_bytes());
        }
    }
}

/// The three lists that checker and converter take, read in turn, each as its file's kind.
pub fn read_three<R: Rules>(size: Size, files: [&[u8]; 3]) -> Result<[Vec<u32>; 3], Refusal> {
    let read = |list, file| R::read_list(R::kind_of_file(list, file), size, file);
    let corridor = read(List::Corridor, files[0])?;
    let demands = read(List::Demands, files[1])?;
    let record = read(List::Record, files[2])?;
    Ok([corridor, demands, record])
}

/// The checker on files of corridor, demands and record.
pub fn check_files<R: Rules>(n: u32, k: u32, files: [&[u8]; 3]) -> Outcome {
    let size = R::size(n, k)?;
    let [corridor, demands, record] = read_three::<R>(size, files)?;
    check::<R>(&corridor, &demands, &record)
}

/// The converter on such files; it writes a plan file.
pub fn convert_files<R: Rules>(n: u32, k: u32, files: [&[u8]; 3], plan_file: &mut [u8]) -> Outcome {
    let size = R::size(n, k)?;
    same_length(plan_file.len(), Kind::Plan.bytes(size))?;
    let [corridor, demands, record] = read_three::<R>(size, files)?;
    let mut plan = vec![0; size.plan()];
    convert::<R>(&corridor, &demands, &record, &mut plan)?;
    write_blocks::<R>(Kind::Plan, &plan, plan_file);
    Ok(())
}
