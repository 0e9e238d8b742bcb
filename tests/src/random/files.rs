//! Block files, sound and damaged: bytes flipped, files cut and extended, kinds, block numbers and
//! padding changed with the check word made right again, other N and K told, lists of another
//! kind's length lent.

use super::damage::{cut_or_extend, full_size, mixed_case, other_length, size};
use super::sound::WordCase;
use super::Random;
use crate::model::files::{file_bytes, words_of, write_blocks, BLOCK_BYTES, CHECK, FIRST_PAYLOAD};
use crate::model::kinds::KINDS;
use crate::model::lists::{MOST_LINKS, MOST_STEPS};
use crate::model::program::{file_ends, MOST_BYTES};
use crate::model::{Kind, Kinds, List, Quick, Rules, Size};

/// What a reader and a writer of one list take.
#[derive(Clone, Debug)]
pub struct FileCase {
    /// What file and words were made as; the reader goes by the file, the writer by the length.
    pub kind: Kind,
    pub n: u32,
    pub k: u32,
    pub file: Vec<u8>,
    pub words: Vec<u32>,
    pub lent_words: usize,
    pub lent_file: usize,
}

impl FileCase {
    /// The file of those words, and lent lists of their lengths.
    pub fn sound(kind: Kind, n: u32, k: u32, words: Vec<u32>) -> FileCase {
        let file = file_of(kind, &words);
        let (lent_words, lent_file) = (words.len(), file.len());
        FileCase { kind, n, k, file, words, lent_words, lent_file }
    }
}

/// What checker and converter on files take.
#[derive(Clone, Debug)]
pub struct ThreeFiles {
    pub n: u32,
    pub k: u32,
    pub corridor: Vec<u8>,
    pub demands: Vec<u8>,
    pub record: Vec<u8>,
    pub lent_plan_file: usize,
}

impl ThreeFiles {
    pub fn files(&self) -> [&[u8]; 3] {
        [&self.corridor, &self.demands, &self.record]
    }

    /// The files of a case's lists, whatever their words and lengths.
    pub fn of_case(size: Size, case: &WordCase) -> ThreeFiles {
        let lent_plan_file = Kind::Plan.bytes(size);
        let (n, k) = (size.links as u32, size.steps as u32);
        ThreeFiles { lent_plan_file, ..ThreeFiles::told(n, k, case) }
    }

    /// The same with any N and K told, and a file lent for the case's own plan.
    pub fn told(n: u32, k: u32, case: &WordCase) -> ThreeFiles {
        ThreeFiles {
            n,
            k,
            corridor: file_of(case.kinds.corridor, &case.corridor),
            demands: file_of(case.kinds.demands, &case.demands),
            record: file_of(case.kinds.record, &case.record),
            lent_plan_file: file_bytes(case.plan.len()),
        }
    }
}

/// A file of any words.
pub fn file_of(kind: Kind, words: &[u32]) -> Vec<u8> {
    let mut file = vec![0; file_bytes(words.len())];
    write_blocks::<Quick>(kind, words, &mut file);
    file
}

/// One kind's reader and writer at a size of some blocks.
pub fn file_case(random: &mut Random) -> FileCase {
    let size = size(random, 20, 30);
    sized_file_case(random, size)
}

/// The same up to the limits.
pub fn large_file_case(random: &mut Random) -> FileCase {
    let size = match random.one_in(4) {
        true => full_size(),
        false => size(random, MOST_LINKS.into(), MOST_STEPS.into()),
    };
    sized_file_case(random, size)
}

fn sized_file_case(random: &mut Random, size: Size) -> FileCase {
    let kind = random.pick(&KINDS);
    let words = any_words(random, kind, size);
    let mut case = FileCase::sound(kind, size.links as u32, size.steps as u32, words);
    for _ in 0..random.pick(&[0, 1, 1, 2]) {
        damage_file_case(random, &mut case);
    }
    case
}

/// Words of any values under the right N or K; in some lists half are zero, in some nearly all.
pub fn any_words(random: &mut Random, kind: Kind, size: Size) -> Vec<u32> {
    let one_in = random.pick(&[2, 2, 20]);
    let mut words = vec![0; kind.words(size)];
    for word in &mut words {
        if random.one_in(one_in) {
            *word = random.strange_word(0);
        }
    }
    if let Some(count) = kind.own_count(size) {
        words[0] = count as u32;
    }
    words
}

fn damage_file_case(random: &mut Random, case: &mut FileCase) {
    match random.below(12) {
        0 => case.n = told(random, case.n),
        1 => case.k = told(random, case.k),
        2 => case.lent_words = other_length(random, case.lent_words),
        3 => case.lent_file = other_length(random, case.lent_file),
        4 => cut_or_extend(random, &mut case.words),
        5 if !case.words.is_empty() => case.words[0] = random.strange_word(case.words[0]),
        6 | 7 => mix_kinds(random, case),
        _ => damage_file(random, &mut case.file),
    }
}

/// Lengths, the list and what the file says of itself, each as any kind of the list has it: they go
/// together or do not.
fn mix_kinds(random: &mut Random, case: &mut FileCase) {
    let Ok(size) = Size::new(case.n, case.k) else {
        return;
    };
    let kinds = case.kind.list().kinds();
    case.lent_words = random.pick(kinds).words(size);
    case.lent_file = random.pick(kinds).bytes(size);
    case.words.resize(random.pick(kinds).words(size), 0);
    let said = random.pick(kinds);
    let blocks = case.file.len() / BLOCK_BYTES;
    match random.below(6) {
        0 => name_kind(&mut case.file, said as u32, false),
        1 => name_kind(&mut case.file, said as u32, true),
        2 => case.file.resize(said.bytes(size), 0),
        3 => case.file.truncate(random.below(BLOCK_BYTES)),
        4 if blocks > 0 => change_block(&mut case.file, random.below(blocks), 0, |_| said as u32),
        _ => {}
    }
}

/// Has the first block, or all blocks, of a file say that they are of that kind, the check word
/// made right again.
pub fn name_kind(file: &mut [u8], kind: u32, in_all_blocks: bool) {
    let blocks = file.len() / BLOCK_BYTES;
    let named = if in_all_blocks { blocks } else { blocks.min(1) };
    (0..named).for_each(|block| change_block(file, block, 0, |_| kind));
}

/// Another N or K to tell: one beside, one that is the same in fewer bits, a limit, anything.
fn told(random: &mut Random, count: u32) -> u32 {
    match random.below(4) {
        0 => count.wrapping_add(random.pick(&[256, 65_536, 1 << 31])),
        _ => random.strange_word(count),
    }
}

/// One kind of damage to a file.
fn damage_file(random: &mut Random, file: &mut Vec<u8>) {
    let blocks = file.len() / BLOCK_BYTES;
    if blocks == 0 {
        return file.resize(random.pick(&[1, 511, 512]), 0);
    }
    let block = random.below(blocks);
    match random.below(16) {
        0 | 1 => flip_bit(random, file),
        2 => file[BLOCK_BYTES * block + 4 * random.below(2)] ^= 1 << random.below(8),
        3 | 4 => change_block(file, block, 0, |kind| random.strange_word(kind)),
        5 | 6 => change_block(file, block, 1, |number| random.strange_word(number)),
        7 => change_block(file, 0, FIRST_PAYLOAD, |count| random.strange_word(count)),
        8 => change_block(file, blocks - 1, CHECK - 1, |word| random.strange_word(word)),
        9 => change_block(file, block, random.below(CHECK), |word| random.strange_word(word)),
        10 => file.copy_within(BLOCK_BYTES * block..BLOCK_BYTES * (block + 1), 0),
        11 | 12 => name_kind(file, random.pick(&[1, 2, 3, 5, 7, 10]), random.one_in(2)),
        13 => {
            let more = random.pick(&[0, 0, 0, 256, 65_536, 1 << 31]);
            name_kind(file, random.within(0, 12) as u32 + more, random.one_in(2));
        }
        14 => file.truncate(random.below(9)),
        _ => cut_or_extend(random, file),
    }
}

fn flip_bit(random: &mut Random, file: &mut [u8]) {
    let place = random.below(file.len());
    file[place] ^= 1 << random.below(8);
}

/// Changes one word of a block and makes the check word right again.
pub fn change_block(file: &mut [u8], block: usize, place: usize, change: impl FnOnce(u32) -> u32) {
    let bytes = &mut file[BLOCK_BYTES * block..BLOCK_BYTES * (block + 1)];
    let mut words = words_of(bytes);
    words[place] = change(words[place]);
    words[CHECK] = Quick::check_word(&words);
    for (bytes, word) in bytes.chunks_exact_mut(4).zip(words) {
        bytes.copy_from_slice(&word.to_le_bytes());
    }
}

/// Files of a case whose lists are sound or damaged, the files themselves sound or damaged.
pub fn three_files(random: &mut Random) -> ThreeFiles {
    let size = match random.one_in(4) {
        true => size(random, 20, 30),
        false => size(random, 6, 6),
    };
    sized_three_files(random, size)
}

/// The same up to the limits.
pub fn large_three_files(random: &mut Random) -> ThreeFiles {
    let size = match random.one_in(4) {
        true => full_size(),
        false => size(random, MOST_LINKS.into(), MOST_STEPS.into()),
    };
    sized_three_files(random, size)
}

fn sized_three_files(random: &mut Random, size: Size) -> ThreeFiles {
    let case = mixed_case(random, size, false);
    let mut three = ThreeFiles::of_case(size, &case);
    for _ in 0..random.pick(&[0, 0, 0, 1, 2]) {
        match random.below(9) {
            0 => three.n = told(random, three.n),
            1 => three.k = told(random, three.k),
            2 => three.lent_plan_file = other_length(random, three.lent_plan_file),
            3 | 4 => damage_file(random, &mut three.corridor),
            5 | 6 => damage_file(random, &mut three.demands),
            _ => damage_file(random, &mut three.record),
        }
    }
    three
}

/// Standard input for the program: three files one after another, sound or damaged.
pub fn program_input(random: &mut Random) -> Vec<u8> {
    let size = match random.one_in(8) {
        true => fitting_size(random),
        false => size(random, 6, 6),
    };
    let three = sized_three_files(random, size);
    let mut input = three.files().concat();
    if random.one_in(8) {
        let (corridor, demands) = (three.corridor.len(), three.demands.len());
        damage_input(random, &mut input, [0, corridor, corridor + demands]);
    }
    input
}

/// A size whose three files the program takes if all are of their oldest kind, or also if all are of
/// their newest; some of them nearly as long as it takes any.
fn fitting_size(random: &mut Random) -> Size {
    let (kinds, entries) = random.pick(&[(Kinds::OLDEST, 2_700), (Kinds::NEWEST, 2_300)]);
    loop {
        let links = random.within(1, MOST_LINKS.into()) as u32;
        let most_steps = (entries / (u64::from(links) + 1)).min(MOST_STEPS.into());
        let any_steps = random.within(1, most_steps);
        let steps = random.pick(&[any_steps, most_steps]) as u32;
        let size = Size::new(links, steps).expect("within limits");
        if file_ends(size, kinds)[2] <= MOST_BYTES {
            return size;
        }
    }
}

/// Damage to the input as a whole: N, K or a kind changed, cut at any byte, extended, far too long.
/// The files begin at those bytes.
fn damage_input(random: &mut Random, input: &mut Vec<u8>, files: [usize; 3]) {
    let demands = files[1];
    let file = random.below(files.len());
    match random.below(10) {
        0 => change_input_word(random, input, 8),
        1 => change_input_word(random, input, demands + 8),
        2 => input.truncate(random.below(input.len() + 1)),
        3 => input.truncate(demands + random.below(16)),
        4 => input.truncate(random.below(16)),
        5 | 6 => change_input_word(random, input, files[file]),
        7 | 8 if input.len() > files[file] => {
            let kinds = [List::Corridor, List::Demands, List::Record][file].kinds();
            input[files[file]] = random.pick(kinds) as u8;
        }
        _ => input.resize(random.pick(&[MOST_BYTES - 1, MOST_BYTES, MOST_BYTES + 1, 100_000]), 0),
    }
}

fn change_input_word(random: &mut Random, input: &mut [u8], place: usize) {
    if let Some(bytes) = input.get_mut(place..place + 4) {
        let word = random.strange_word(words_of(bytes)[0]);
        bytes.copy_from_slice(&word.to_le_bytes());
    }
}
