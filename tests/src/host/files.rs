//! The product's C functions on block files.

use super::Host;
use crate::calls::FileCalls;
use crate::model::List;

type Read = unsafe extern "C" fn(u32, u32, *const u8, usize, *mut u32, usize) -> u32;
type Write = unsafe extern "C" fn(u32, u32, *const u32, usize, *mut u8, usize) -> u32;

#[rustfmt::skip]
extern "C" {
    fn gigorchid_read_corridor(
        n: u32, k: u32, file: *const u8, file_length: usize, words: *mut u32, words_length: usize,
    ) -> u32;
    fn gigorchid_read_demands(
        n: u32, k: u32, file: *const u8, file_length: usize, words: *mut u32, words_length: usize,
    ) -> u32;
    fn gigorchid_read_record(
        n: u32, k: u32, file: *const u8, file_length: usize, words: *mut u32, words_length: usize,
    ) -> u32;
    fn gigorchid_read_plan(
        n: u32, k: u32, file: *const u8, file_length: usize, words: *mut u32, words_length: usize,
    ) -> u32;
    fn gigorchid_write_corridor(
        n: u32, k: u32, words: *const u32, words_length: usize, file: *mut u8, file_length: usize,
    ) -> u32;
    fn gigorchid_write_demands(
        n: u32, k: u32, words: *const u32, words_length: usize, file: *mut u8, file_length: usize,
    ) -> u32;
    fn gigorchid_write_record(
        n: u32, k: u32, words: *const u32, words_length: usize, file: *mut u8, file_length: usize,
    ) -> u32;
    fn gigorchid_write_plan(
        n: u32, k: u32, words: *const u32, words_length: usize, file: *mut u8, file_length: usize,
    ) -> u32;
    fn gigorchid_check_files(
        n: u32, k: u32, corridor: *const u8, corridor_length: usize,
        demands: *const u8, demands_length: usize, record: *const u8, record_length: usize,
    ) -> u32;
    fn gigorchid_convert_files(
        n: u32, k: u32, corridor: *const u8, corridor_length: usize,
        demands: *const u8, demands_length: usize, record: *const u8, record_length: usize,
        plan: *mut u8, plan_length: usize,
    ) -> u32;
}

// SAFETY, for every call: each address and length are those of a slice that lives through it.
#[rustfmt::skip]
impl FileCalls for Host {
    fn read(&self, list: List, n: u32, k: u32, file: &[u8], words: &mut [u32]) -> u32 {
        let read: Read = match list {
            List::Corridor => gigorchid_read_corridor,
            List::Demands => gigorchid_read_demands,
            List::Record => gigorchid_read_record,
            List::Plan => gigorchid_read_plan,
        };
        unsafe { read(n, k, file.as_ptr(), file.len(), words.as_mut_ptr(), words.len()) }
    }

    fn write(&self, list: List, n: u32, k: u32, words: &[u32], file: &mut [u8]) -> u32 {
        let write: Write = match list {
            List::Corridor => gigorchid_write_corridor,
            List::Demands => gigorchid_write_demands,
            List::Record => gigorchid_write_record,
            List::Plan => gigorchid_write_plan,
        };
        unsafe { write(n, k, words.as_ptr(), words.len(), file.as_mut_ptr(), file.len()) }
    }

    fn check_files(&self, n: u32, k: u32, files: [&[u8]; 3]) -> u32 {
        let [corridor, demands, record] = files;
        unsafe {
            gigorchid_check_files(
                n, k, corridor.as_ptr(), corridor.len(), demands.as_ptr(), demands.len(),
                record.as_ptr(), record.len(),
            )
        }
    }

    fn convert_files(&self, n: u32, k: u32, files: [&[u8]; 3], plan_file: &mut [u8]) -> u32 {
        let [corridor, demands, record] = files;
        unsafe {
            gigorchid_convert_files(
                n, k, corridor.as_ptr(), corridor.len(), demands.as_ptr(), demands.len(),
                record.as_ptr(), record.len(), plan_file.as_mut_ptr(), plan_file.len(),
            )
        }
    }
}
