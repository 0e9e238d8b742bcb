//! The product's C functions, declared as its header has them, and safe calls of them on slices.
//! A slice goes over as its address and its number of elements.

#[cfg(feature = "files")]
mod files;
#[cfg(feature = "nodes")]
mod nodes;

use crate::calls::WordCalls;

/// The product, as the C host sees it.
pub struct Host;

#[rustfmt::skip]
extern "C" {
    fn gigorchid_simulate_words(
        corridor: *const u32, corridor_length: usize, demands: *const u32, demands_length: usize,
        plan: *const u32, plan_length: usize, record: *mut u32, record_length: usize,
    ) -> u32;
    fn gigorchid_check_words(
        corridor: *const u32, corridor_length: usize, demands: *const u32, demands_length: usize,
        record: *const u32, record_length: usize,
    ) -> u32;
    fn gigorchid_convert_words(
        corridor: *const u32, corridor_length: usize, demands: *const u32, demands_length: usize,
        record: *const u32, record_length: usize, plan: *mut u32, plan_length: usize,
    ) -> u32;
    fn gigorchid_normal_words(
        corridor: *const u32, corridor_length: usize, demands: *const u32, demands_length: usize,
        plan: *const u32, plan_length: usize, work: *mut u32, work_length: usize,
        normal: *mut u32, normal_length: usize,
    ) -> u32;
    fn gigorchid_search_words(
        corridor: *const u32, corridor_length: usize, demands: *const u32, demands_length: usize,
        record: *const u32, record_length: usize, step: u32, node: u32,
        out: *mut u32, out_length: usize,
    ) -> u32;
}

// SAFETY, for every call: each address and length are those of a slice that lives through it.
#[rustfmt::skip]
impl WordCalls for Host {
    fn simulate(&self, corridor: &[u32], demands: &[u32], plan: &[u32], record: &mut [u32]) -> u32 {
        unsafe {
            gigorchid_simulate_words(
                corridor.as_ptr(), corridor.len(), demands.as_ptr(), demands.len(),
                plan.as_ptr(), plan.len(), record.as_mut_ptr(), record.len(),
            )
        }
    }

    fn check(&self, corridor: &[u32], demands: &[u32], record: &[u32]) -> u32 {
        unsafe {
            gigorchid_check_words(
                corridor.as_ptr(), corridor.len(), demands.as_ptr(), demands.len(),
                record.as_ptr(), record.len(),
            )
        }
    }

    fn convert(&self, corridor: &[u32], demands: &[u32], record: &[u32], plan: &mut [u32]) -> u32 {
        unsafe {
            gigorchid_convert_words(
                corridor.as_ptr(), corridor.len(), demands.as_ptr(), demands.len(),
                record.as_ptr(), record.len(), plan.as_mut_ptr(), plan.len(),
            )
        }
    }

    fn normal(
        &self, corridor: &[u32], demands: &[u32], plan: &[u32], work: &mut [u32],
        normal: &mut [u32],
    ) -> u32 {
        unsafe {
            gigorchid_normal_words(
                corridor.as_ptr(), corridor.len(), demands.as_ptr(), demands.len(),
                plan.as_ptr(), plan.len(), work.as_mut_ptr(), work.len(),
                normal.as_mut_ptr(), normal.len(),
            )
        }
    }

    fn search(&self, lists: [&[u32]; 3], place: (u32, u32), out: &mut [u32]) -> u32 {
        let ([corridor, demands, record], (step, node)) = (lists, place);
        unsafe {
            gigorchid_search_words(
                corridor.as_ptr(), corridor.len(), demands.as_ptr(), demands.len(),
                record.as_ptr(), record.len(), step, node, out.as_mut_ptr(), out.len(),
            )
        }
    }
}
