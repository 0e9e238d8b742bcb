//! Cases that differ from a given one in one place, every place in turn: each word set to each
//! limit of some range, to the words beside its own and to those that are the same in fewer bits,
//! each list and each lent list of another length, each step and node another. What random damage
//! may miss, these do not.

use crate::limits::same_in_fewer_bits;
use crate::model::files::{BLOCK_BYTES, CHECK};
use crate::model::kinds::KINDS;
use crate::model::{Input, Kind, List, Size};
use crate::random::files::{change_block, name_kind, FileCase};
use crate::random::search::SearchCase;
use crate::random::sound::WordCase;

/// Zero and one, the limits in document 01 and the words beyond them.
const EDGES: [u32; 14] = [
    0,
    1,
    64,
    65,
    1_440,
    1_441,
    32_768,
    65_535,
    65_536,
    65_537,
    134_217_728,
    134_217_729,
    1 << 31,
    u32::MAX,
];

fn other_words(old: u32) -> Vec<u32> {
    let beside = [old.wrapping_add(1), old.wrapping_sub(1)];
    let others = EDGES.into_iter().chain(beside).chain(same_in_fewer_bits(old));
    others.filter(|&word| word != old).collect()
}

const LISTS: [List; 4] = [List::Corridor, List::Demands, List::Record, List::Plan];

/// One of the four lists of a case, to change it.
fn words(case: &mut WordCase, list: List) -> &mut Vec<u32> {
    match list {
        List::Corridor => &mut case.corridor,
        List::Demands => &mut case.demands,
        List::Record => &mut case.record,
        List::Plan => &mut case.plan,
    }
}

/// Calls `visit` with every case in which one word of one list is another.
pub fn each_word_changed(case: &WordCase, visit: impl FnMut(&WordCase)) {
    each_word_of(&LISTS, case, visit);
}

/// The same for those lists only.
fn each_word_of(lists: &[List], case: &WordCase, mut visit: impl FnMut(&WordCase)) {
    let mut changed = case.clone();
    for &list in lists {
        for place in 0..words(&mut changed, list).len() {
            let old = words(&mut changed, list)[place];
            for word in other_words(old) {
                words(&mut changed, list)[place] = word;
                visit(&changed);
            }
            words(&mut changed, list)[place] = old;
        }
    }
}

/// Lengths beside the right one, and far from it.
fn other_lengths(length: usize) -> [usize; 5] {
    [0, 1, length - 1, length + 1, 2 * length]
}

/// The lengths of each kind of a list, for the size of a sound case, and those beside.
fn lengths_of_kinds(list: List, case: &WordCase) -> impl Iterator<Item = usize> {
    let size = Input::new(&case.corridor, &case.demands).expect("a sound case").size;
    let lengths = list.kinds().iter().map(move |kind| kind.words(size));
    lengths.flat_map(|length| length - 1..=length + 1)
}

/// Calls `visit` with every case in which one of those lists has another length, also that of each of
/// its kinds, and those beside it.
fn each_length_of(lists: &[List], case: &WordCase, mut visit: impl FnMut(&WordCase)) {
    for &list in lists {
        let length = words(&mut case.clone(), list).len();
        for length in other_lengths(length).into_iter().chain(lengths_of_kinds(list, case)) {
            let mut changed = case.clone();
            words(&mut changed, list).resize(length, 0);
            visit(&changed);
        }
    }
}

/// The same for every list, and every lent list.
pub fn each_length_changed(case: &WordCase, mut visit: impl FnMut(&WordCase)) {
    each_length_of(&LISTS, case, &mut visit);
    let lengths = lengths_of_kinds(List::Record, case);
    for lent_record in other_lengths(case.lent_record).into_iter().chain(lengths) {
        visit(&WordCase { lent_record, ..case.clone() });
    }
    for lent_plan in other_lengths(case.lent_plan) {
        visit(&WordCase { lent_plan, ..case.clone() });
    }
}

/// Calls `visit` with every search in which one word or one length of its lists, its step, its node or
/// the length of the list to fill is another.
pub fn each_search_changed(case: &SearchCase, mut visit: impl FnMut(&SearchCase)) {
    let taken = [List::Corridor, List::Demands, List::Record];
    let mut with_lists =
        |lists: &WordCase| visit(&SearchCase { lists: lists.clone(), ..case.clone() });
    each_word_of(&taken, &case.lists, &mut with_lists);
    each_length_of(&taken, &case.lists, &mut with_lists);
    let (step, node) = case.place;
    let steps = other_words(step).into_iter().map(|step| (step, node));
    let nodes = other_words(node).into_iter().map(|node| (step, node));
    for place in steps.chain(nodes) {
        visit(&SearchCase { place, ..case.clone() });
    }
    for lent_out in other_lengths(case.lent_out) {
        visit(&SearchCase { lent_out, ..case.clone() });
    }
}

/// A file of every kind at that size; its words are the places they stand at, under its own N or K.
fn counting_file(kind: Kind, size: Size) -> FileCase {
    let (n, k) = (size.links as u32, size.steps as u32);
    let mut words: Vec<u32> = (0..kind.words(size) as u32).collect();
    words[0] = kind.own_count(size).unwrap_or(0) as u32;
    FileCase::sound(kind, n, k, words)
}

/// Calls `visit` with files of every kind at that size in which one word is another, with the
/// check word made right and without, and with one byte of each block flipped.
pub fn each_file_word_changed(size: Size, mut visit: impl FnMut(&FileCase)) {
    for kind in KINDS {
        let case = counting_file(kind, size);
        for block in 0..case.file.len() / BLOCK_BYTES {
            for place in 0..=CHECK {
                for word in [0, 1, 2, 3, 4, 5, 7, 10, u32::MAX] {
                    let mut changed = case.clone();
                    change_block(&mut changed.file, block, place, |_| word);
                    visit(&changed);
                }
                let mut changed = case.clone();
                changed.file[BLOCK_BYTES * block + 4 * place + place % 4] ^= 1;
                visit(&changed);
            }
        }
    }
}

/// Calls `visit` with files of both kinds of corridor, of demands and of record that say in their
/// first block, or in all, that they are of any kind, or end before they say it; list and file are
/// lent as either kind has them, and the list to write has either length.
pub fn each_kind_said(size: Size, mut visit: impl FnMut(&FileCase)) {
    for kinds in [List::Corridor, List::Demands, List::Record].map(List::kinds) {
        for made in kinds {
            for lent in kinds {
                let case = FileCase {
                    lent_words: lent.words(size),
                    lent_file: lent.bytes(size),
                    ..counting_file(*made, size)
                };
                each_kind_said_in(&case, &mut visit);
            }
        }
    }
}

/// The same for one file and the list and the file that are lent.
fn each_kind_said_in(case: &FileCase, visit: &mut impl FnMut(&FileCase)) {
    let low_bits = [1, 2, 3, 5, 7, 10].into_iter().flat_map(same_in_fewer_bits);
    let said: Vec<u32> = (0..=12).chain(low_bits).chain([u32::MAX]).collect();
    for in_all_blocks in [false, true] {
        for &kind in &said {
            let mut changed = case.clone();
            name_kind(&mut changed.file, kind, in_all_blocks);
            visit(&changed);
            changed.file.resize(case.lent_file, 0);
            visit(&changed);
        }
    }
    for length in 0..=12 {
        let mut changed = case.clone();
        changed.file.truncate(length);
        changed.words.resize(case.lent_words, 0);
        visit(&changed);
    }
}

/// Calls `visit` with files of every kind for which another N or K is told, as far as the limits
/// and beyond, the lent lists having the lengths of that size or of the file's own.
pub fn each_count_told(size: Size, mut visit: impl FnMut(&FileCase)) {
    let beyond = [255, 256, 1_439, 1_440, 1_441, 65_536, 65_537, 1 << 31, u32::MAX];
    for kind in KINDS {
        let case = counting_file(kind, size);
        let low_bits = [case.n, case.k].into_iter().flat_map(same_in_fewer_bits);
        for count in (0..=70).chain(beyond).chain(low_bits) {
            for (n, k) in [(count, case.k), (case.n, count)] {
                let told = FileCase { n, k, ..case.clone() };
                visit(&told);
                if let Ok(size) = Size::new(n, k) {
                    let (lent_words, lent_file) = (kind.words(size), kind.bytes(size));
                    visit(&FileCase { lent_words, lent_file, ..told });
                }
            }
        }
    }
}

/// Calls `visit` with files of every kind cut and extended to every length up to one block more
/// than they have, in steps that meet all block ends.
pub fn each_file_length(size: Size, mut visit: impl FnMut(&FileCase)) {
    for kind in KINDS {
        let case = counting_file(kind, size);
        let longest = case.file.len() + BLOCK_BYTES;
        for length in (0..=longest).filter(|length| (length + 2) % BLOCK_BYTES < 5) {
            let mut changed = case.clone();
            changed.file.resize(length, 0);
            visit(&changed);
        }
    }
}
