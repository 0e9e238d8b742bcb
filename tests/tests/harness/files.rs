//! Wrong block files: the check word, the order of a reader's tests, tests left out, counts in too
//! few bits, and wrong uses of the readers by the two calls on files.

use super::{file_but_of, length_but_of, wrong};
use tests::calls::FileCalls;
use tests::model::files::{block_fault, read_list, words_of, BLOCK_BYTES};
use tests::model::{answer, refusal, refuse_if, Kind, List, Quick, Record, Refusal, Rules, Size};
use tests::random::files::{file_of, name_kind};

/// The words of a file of the right length, without any test of it.
fn untested(kind: Kind, size: Size, file: &[u8]) -> Vec<u32> {
    payload(file)[..kind.words(size)].to_vec()
}

/// The payload of all whole blocks of a file.
fn payload(file: &[u8]) -> Vec<u32> {
    let blocks = file.chunks_exact(BLOCK_BYTES);
    blocks.flat_map(|block| words_of(block)[2..127].to_vec()).collect()
}

wrong! { variants: FileCalls;
    SixteenBeforeFifteen {
        const BLOCK_ORDER: [u32; 3] = [16, 15, 17];
    }

    SeventeenBeforeSixteen {
        const BLOCK_ORDER: [u32; 3] = [15, 17, 16];
    }

    /// Weights 1, 2, 3 and so on.
    OtherWeights {
        fn check_word(block: &[u32]) -> u32 {
            let weighted = (0..127).map(|j| (j as u32 + 1).wrapping_mul(block[j]));
            weighted.fold(0, u32::wrapping_add)
        }
    }

    /// The last payload word is not summed up.
    LastWordNotSummed {
        fn check_word(block: &[u32]) -> u32 {
            Quick::check_word(block).wrapping_sub(block[126].wrapping_mul(253))
        }
    }

    /// Each test over all blocks before the next test.
    TestByTest {
        fn read_list(kind: Kind, size: Size, file: &[u8]) -> Result<Vec<u32>, Refusal> {
            refuse_if(file.len() != kind.bytes(size), 14, 0, 0)?;
            for number in [15, 16, 17] {
                for (place, block) in file.chunks_exact(BLOCK_BYTES).enumerate() {
                    let fault = block_fault::<Quick>(number, kind, place, &words_of(block));
                    refuse_if(fault, number, place, 0)?;
                }
            }
            Quick::read_list(kind, size, file)
        }
    }

    /// Blocks after the first may be of any kind.
    KindOfFirstBlockOnly {
        fn read_list(kind: Kind, size: Size, file: &[u8]) -> Result<Vec<u32>, Refusal> {
            match Quick::read_list(kind, size, file) {
                Err(Refusal { number: 16, row, .. }) if row > 0 => Ok(untested(kind, size, file)),
                result => result,
            }
        }
    }

    PaddingUntested {
        fn read_list(kind: Kind, size: Size, file: &[u8]) -> Result<Vec<u32>, Refusal> {
            match Quick::read_list(kind, size, file) {
                Err(Refusal { number: 18, .. }) => Ok(untested(kind, size, file)),
                result => result,
            }
        }
    }

    OwnCountUntested {
        fn read_list(kind: Kind, size: Size, file: &[u8]) -> Result<Vec<u32>, Refusal> {
            match Quick::read_list(kind, size, file) {
                Err(Refusal { number: 1, .. }) => Ok(untested(kind, size, file)),
                result => result,
            }
        }
    }

    /// The file's own N or K before its padding.
    OwnCountBeforePadding {
        fn read_list(kind: Kind, size: Size, file: &[u8]) -> Result<Vec<u32>, Refusal> {
            let own = payload(file).first().copied().unwrap_or(0) as usize;
            let told = kind.own_count(size).unwrap_or(own);
            match Quick::read_list(kind, size, file) {
                Err(Refusal { number: 18, .. }) if own != told => Err(refusal(1, 0, 0)),
                result => result,
            }
        }
    }

    /// The place of refusal 18 is left out.
    PaddingRowLeftOut {
        fn read_list(kind: Kind, size: Size, file: &[u8]) -> Result<Vec<u32>, Refusal> {
            match Quick::read_list(kind, size, file) {
                Err(Refusal { number: 18, .. }) => Err(refusal(18, 0, 0)),
                result => result,
            }
        }
    }

    /// Bytes after the file's end are let pass.
    BytesLeftOver {
        fn read_list(kind: Kind, size: Size, file: &[u8]) -> Result<Vec<u32>, Refusal> {
            let end = kind.bytes(size).min(file.len());
            read_list::<Quick>(kind, size, &file[..end])
        }
    }

    /// Word 0 of 5 is any other value, as before there was such a kind.
    FiveReadAsTwo {
        fn kind_of_file(list: List, file: &[u8]) -> Kind {
            file_but_of(Kind::Downstream, list, file)
        }
    }

    /// Word 0 of 10 is any other value, as before there was such a kind.
    TenReadAsOne {
        fn kind_of_file(list: List, file: &[u8]) -> Kind {
            file_but_of(Kind::CapacityDrop, list, file)
        }
    }

    /// Word 0 of 7 is any other value, as before there was such a kind.
    SevenReadAsThree {
        fn kind_of_file(list: List, file: &[u8]) -> Kind {
            file_but_of(Kind::OffRamps, list, file)
        }
    }

    OtherDemandsReadAsFive {
        fn kind_of_file(list: List, file: &[u8]) -> Kind {
            others_read_as_newest(List::Demands, list, file)
        }
    }

    OtherCorridorsReadAsTen {
        fn kind_of_file(list: List, file: &[u8]) -> Kind {
            others_read_as_newest(List::Corridor, list, file)
        }
    }

    OtherRecordsReadAsSeven {
        fn kind_of_file(list: List, file: &[u8]) -> Kind {
            others_read_as_newest(List::Record, list, file)
        }
    }

    DemandsKindOfWholeBlocksOnly {
        fn kind_of_file(list: List, file: &[u8]) -> Kind {
            kind_of_whole_blocks(List::Demands, list, file)
        }
    }

    CorridorKindOfWholeBlocksOnly {
        fn kind_of_file(list: List, file: &[u8]) -> Kind {
            kind_of_whole_blocks(List::Corridor, list, file)
        }
    }

    RecordKindOfWholeBlocksOnly {
        fn kind_of_file(list: List, file: &[u8]) -> Kind {
            kind_of_whole_blocks(List::Record, list, file)
        }
    }

    DemandsKindInOneByte {
        fn kind_of_file(list: List, file: &[u8]) -> Kind {
            kind_in_one_byte(List::Demands, list, file)
        }
    }

    CorridorKindInOneByte {
        fn kind_of_file(list: List, file: &[u8]) -> Kind {
            kind_in_one_byte(List::Corridor, list, file)
        }
    }

    RecordKindInOneByte {
        fn kind_of_file(list: List, file: &[u8]) -> Kind {
            kind_in_one_byte(List::Record, list, file)
        }
    }

    /// Blocks of kind 2 are let pass in a file of kind 5.
    TwoTakenInFive {
        fn read_list(kind: Kind, size: Size, file: &[u8]) -> Result<Vec<u32>, Refusal> {
            oldest_taken_in(Kind::Downstream, kind, size, file)
        }
    }

    /// Blocks of kind 1 are let pass in a file of kind 10.
    OneTakenInTen {
        fn read_list(kind: Kind, size: Size, file: &[u8]) -> Result<Vec<u32>, Refusal> {
            oldest_taken_in(Kind::CapacityDrop, kind, size, file)
        }
    }

    /// Blocks of kind 3 are let pass in a file of kind 7.
    ThreeTakenInSeven {
        fn read_list(kind: Kind, size: Size, file: &[u8]) -> Result<Vec<u32>, Refusal> {
            oldest_taken_in(Kind::OffRamps, kind, size, file)
        }
    }

    /// The exits are passed over in a file of kind 7 and read as zeros.
    ExitsReadAsZeros {
        fn read_list(kind: Kind, size: Size, file: &[u8]) -> Result<Vec<u32>, Refusal> {
            let mut words = Quick::read_list(kind, size, file)?;
            if kind == Kind::OffRamps {
                let states = &mut words[..kind.cost_place(size)];
                states.chunks_exact_mut(5).for_each(|entry| entry[4] = 0);
            }
            Ok(words)
        }
    }

    /// A list of kind 7's length cannot be written.
    SevenNotWritten {
        fn kind_of_length(list: List, size: Size, words: usize) -> Result<Kind, Refusal> {
            length_but_of(Kind::OffRamps, list, size, words)
        }
    }

    /// A list of kind 5's length cannot be written.
    FiveNotWritten {
        fn kind_of_length(list: List, size: Size, words: usize) -> Result<Kind, Refusal> {
            length_but_of(Kind::Downstream, list, size, words)
        }
    }

    /// A list of kind 10's length cannot be written.
    TenNotWritten {
        fn kind_of_length(list: List, size: Size, words: usize) -> Result<Kind, Refusal> {
            length_but_of(Kind::CapacityDrop, list, size, words)
        }
    }
}

/// Word 0 of any other value is the newest kind, in files of one list.
fn others_read_as_newest(wrong: List, list: List, file: &[u8]) -> Kind {
    let oldest = file.starts_with(&(list.kinds()[0] as u32).to_le_bytes());
    match list == wrong && !oldest {
        true => list.kinds()[1],
        false => list.kind_of_file(file),
    }
}

/// Word 0 is looked at only where its block is whole, in files of one list.
fn kind_of_whole_blocks(wrong: List, list: List, file: &[u8]) -> Kind {
    let cut_short = list == wrong && file.len() < BLOCK_BYTES;
    list.kind_of_file(if cut_short { &[] } else { file })
}

/// One byte of word 0 is looked at, in files of one list.
fn kind_in_one_byte(wrong: List, list: List, file: &[u8]) -> Kind {
    match file.first() {
        Some(&byte) if list == wrong => list.kind_of_file(&[byte, 0, 0, 0]),
        _ => list.kind_of_file(file),
    }
}

/// Blocks of its list's oldest kind are let pass in a file of one kind.
fn oldest_taken_in(wrong: Kind, kind: Kind, size: Size, file: &[u8]) -> Result<Vec<u32>, Refusal> {
    let oldest = kind.list().kinds()[0] as u8;
    match Quick::read_list(kind, size, file) {
        Err(Refusal { number: 16, row, .. })
            if kind == wrong && file[BLOCK_BYTES * row as usize] == oldest =>
        {
            Ok(untested(kind, size, file))
        }
        result => result,
    }
}

/// What a variant of the calls does wrong; everything else is the model's.
#[derive(Clone, Copy)]
enum Wrong {
    CountsIn16Bits,
    StepsUntestedForCorridors,
    OwnCountWrittenOver,
    ReaderWritesOnRefusal,
    LengthsOfAllFilesFirst,
    RecordReadFirst,
    PlanFileWrittenOnRefusal,
    PlanFileLengthLast,
    LentLengthChooses(List),
    OtherKindsLengthLent(List),
    WrittenAsOldest(List),
    WrittenAsNewest(List),
    FilesLengthChooses,
    SevenRefusedByChecker,
    SevenRefusedByConverter,
    SevenCheckedWithoutExits,
    SevenConvertedWithoutExits,
}

use Wrong::*;

impl Wrong {
    fn counts(self, list: List, n: u32, k: u32) -> (u32, u32) {
        match (self, list) {
            (CountsIn16Bits, _) => (n & 0xFFFF, k & 0xFFFF),
            (StepsUntestedForCorridors, List::Corridor) => (n, 1),
            _ => (n, k),
        }
    }

    /// A reader that takes the kind from the lent list's length, or lets that of any kind pass until
    /// the file has been looked at.
    fn read_by_length(
        self,
        list: List,
        size: Size,
        file: &[u8],
        words: &mut [u32],
    ) -> Result<(), Refusal> {
        let lent = list.kind_of_length(size, words.len())?;
        let kind = match self {
            LentLengthChooses(_) => lent,
            _ => list.kind_of_file(file),
        };
        let read = Quick::read_list(kind, size, file)?;
        refuse_if(lent != kind, 1, 0, 0)?;
        words.copy_from_slice(&read);
        Ok(())
    }
}

/// Files of corridor, demands and record, a sound record of kind 7 as one of kind 3.
fn without_exits(n: u32, k: u32, files: [&[u8]; 3]) -> [Vec<u8>; 3] {
    let mut files = files.map(<[u8]>::to_vec);
    let kind = List::Record.kind_of_file(&files[2]);
    let read = Size::new(n, k).and_then(|size| {
        let words = Quick::read_list(kind, size, &files[2])?;
        Record::new(size, &words)
    });
    if let Ok(record) = read {
        files[2] = file_of(Kind::Record, &record.words(Kind::Record));
    }
    files
}

/// What the reader of the record refuses if its kind is that which has the file's length, where that
/// tells the kinds apart; nothing if the corridor or the demands are refused.
fn read_by_files_length(size: Size, files: [&[u8]; 3]) -> Result<(), Refusal> {
    let sound = |list: List| {
        let file = files[list as usize];
        Quick::read_list(list.kind_of_file(file), size, file).is_ok()
    };
    let as_long = |kind: &&Kind| kind.bytes(size) == files[2].len();
    let kinds: Vec<&Kind> = List::Record.kinds().iter().filter(as_long).collect();
    match kinds[..] {
        [&kind] if sound(List::Corridor) && sound(List::Demands) => {
            Quick::read_list(kind, size, files[2]).map(|_| ())
        }
        _ => Ok(()),
    }
}

fn is_seven(files: [&[u8]; 3]) -> bool {
    List::Record.kind_of_file(files[2]) == Kind::OffRamps
}

impl FileCalls for Wrong {
    fn read(&self, list: List, n: u32, k: u32, file: &[u8], words: &mut [u32]) -> u32 {
        let (n, k) = self.counts(list, n, k);
        match (self, Size::new(n, k)) {
            (LentLengthChooses(wrong) | OtherKindsLengthLent(wrong), Ok(size))
                if *wrong == list =>
            {
                return answer(self.read_by_length(list, size, file, words));
            }
            _ => {}
        }
        let answer = Quick.read(list, n, k, file, words);
        if matches!(self, ReaderWritesOnRefusal) && answer % 256 >= 15 {
            words.fill(0);
        }
        answer
    }

    fn write(&self, list: List, n: u32, k: u32, words: &[u32], file: &mut [u8]) -> u32 {
        let (n, k) = self.counts(list, n, k);
        let mut words = words.to_vec();
        if let (OwnCountWrittenOver, List::Corridor, true) = (self, list, !words.is_empty()) {
            words[0] = n;
        }
        let answer = Quick.write(list, n, k, &words, file);
        match (self, answer) {
            (WrittenAsOldest(wrong), 0) if *wrong == list => {
                name_kind(file, list.kinds()[0] as u32, true)
            }
            (WrittenAsNewest(wrong), 0) if *wrong == list => {
                name_kind(file, list.kinds()[1] as u32, true)
            }
            _ => {}
        }
        answer
    }

    fn check_files(&self, n: u32, k: u32, files: [&[u8]; 3]) -> u32 {
        let lists = [List::Corridor, List::Demands, List::Record];
        let Ok(size) = Size::new(n, k) else {
            return 1;
        };
        let bytes = |list: &List, file: &[u8]| list.kind_of_file(file).bytes(size);
        let other_length =
            lists.iter().zip(files).any(|(list, file)| file.len() != bytes(list, file));
        match self {
            LengthsOfAllFilesFirst if other_length => 14,
            FilesLengthChooses => match answer(read_by_files_length(size, files)) {
                0 => Quick.check_files(n, k, files),
                refused => refused,
            },
            SevenRefusedByChecker if is_seven(files) => Quick.check_files(n, k, files).max(1),
            SevenCheckedWithoutExits => {
                let [corridor, demands, record] = without_exits(n, k, files);
                Quick.check_files(n, k, [&corridor, &demands, &record])
            }
            RecordReadFirst => {
                let kind = List::Record.kind_of_file(files[2]);
                let mut record = vec![0; kind.words(size)];
                let answer = Quick.read(List::Record, n, k, files[2], &mut record);
                if answer == 0 {
                    Quick.check_files(n, k, files)
                } else {
                    answer
                }
            }
            _ => Quick.check_files(n, k, files),
        }
    }

    fn convert_files(&self, n: u32, k: u32, files: [&[u8]; 3], plan_file: &mut [u8]) -> u32 {
        match self {
            SevenRefusedByConverter if is_seven(files) => {
                return Quick.check_files(n, k, files).max(1);
            }
            SevenConvertedWithoutExits => {
                let [corridor, demands, record] = without_exits(n, k, files);
                return Quick.convert_files(n, k, [&corridor, &demands, &record], plan_file);
            }
            _ => {}
        }
        let answer = Quick.convert_files(n, k, files, plan_file);
        match self {
            PlanFileWrittenOnRefusal if answer != 0 => plan_file.fill(0),
            PlanFileLengthLast if answer == 1 => return Quick.check_files(n, k, files).max(1),
            _ => {}
        }
        answer
    }
}

pub fn call_variants() -> Vec<(&'static str, &'static dyn FileCalls)> {
    vec![
        ("CountsIn16Bits", &CountsIn16Bits),
        ("StepsUntestedForCorridors", &StepsUntestedForCorridors),
        ("OwnCountWrittenOver", &OwnCountWrittenOver),
        ("ReaderWritesOnRefusal", &ReaderWritesOnRefusal),
        ("LengthsOfAllFilesFirst", &LengthsOfAllFilesFirst),
        ("RecordReadFirst", &RecordReadFirst),
        ("PlanFileWrittenOnRefusal", &PlanFileWrittenOnRefusal),
        ("PlanFileLengthLast", &PlanFileLengthLast),
        ("LentLengthChooses for corridors", &LentLengthChooses(List::Corridor)),
        ("LentLengthChooses for demands", &LentLengthChooses(List::Demands)),
        ("LentLengthChooses for records", &LentLengthChooses(List::Record)),
        ("OtherKindsLengthLent for corridors", &OtherKindsLengthLent(List::Corridor)),
        ("OtherKindsLengthLent for demands", &OtherKindsLengthLent(List::Demands)),
        ("OtherKindsLengthLent for records", &OtherKindsLengthLent(List::Record)),
        ("WrittenAsOldest for corridors", &WrittenAsOldest(List::Corridor)),
        ("WrittenAsOldest for demands", &WrittenAsOldest(List::Demands)),
        ("WrittenAsOldest for records", &WrittenAsOldest(List::Record)),
        ("WrittenAsNewest for records", &WrittenAsNewest(List::Record)),
        ("FilesLengthChooses", &FilesLengthChooses),
        ("SevenRefusedByChecker", &SevenRefusedByChecker),
        ("SevenRefusedByConverter", &SevenRefusedByConverter),
        ("SevenCheckedWithoutExits", &SevenCheckedWithoutExits),
        ("SevenConvertedWithoutExits", &SevenConvertedWithoutExits),
    ]
}
