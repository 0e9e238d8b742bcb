//! The product's C functions with the corridor as a list of nodes.

use super::Host;
use crate::calls::NodeCalls;
use crate::model::Node;

#[rustfmt::skip]
extern "C" {
    fn gigorchid_simulate_nodes(
        corridor: *const Node, corridor_length: usize, demands: *const u32, demands_length: usize,
        plan: *const u32, plan_length: usize, record: *mut u32, record_length: usize,
    ) -> u32;
    fn gigorchid_check_nodes(
        corridor: *const Node, corridor_length: usize, demands: *const u32, demands_length: usize,
        record: *const u32, record_length: usize,
    ) -> u32;
    fn gigorchid_convert_nodes(
        corridor: *const Node, corridor_length: usize, demands: *const u32, demands_length: usize,
        record: *const u32, record_length: usize, plan: *mut u32, plan_length: usize,
    ) -> u32;
    fn gigorchid_normal_nodes(
        corridor: *const Node, corridor_length: usize, demands: *const u32, demands_length: usize,
        plan: *const u32, plan_length: usize, work: *mut u32, work_length: usize,
        normal: *mut u32, normal_length: usize,
    ) -> u32;
}

// SAFETY, for every call: each address and length are those of a slice that lives through it.
#[rustfmt::skip]
impl NodeCalls for Host {
    fn simulate_nodes(
        &self, corridor: &[Node], demands: &[u32], plan: &[u32], record: &mut [u32],
    ) -> u32 {
        unsafe {
            gigorchid_simulate_nodes(
                corridor.as_ptr(), corridor.len(), demands.as_ptr(), demands.len(),
                plan.as_ptr(), plan.len(), record.as_mut_ptr(), record.len(),
            )
        }
    }

    fn check_nodes(&self, corridor: &[Node], demands: &[u32], record: &[u32]) -> u32 {
        unsafe {
            gigorchid_check_nodes(
                corridor.as_ptr(), corridor.len(), demands.as_ptr(), demands.len(),
                record.as_ptr(), record.len(),
            )
        }
    }

    fn convert_nodes(
        &self, corridor: &[Node], demands: &[u32], record: &[u32], plan: &mut [u32],
    ) -> u32 {
        unsafe {
            gigorchid_convert_nodes(
                corridor.as_ptr(), corridor.len(), demands.as_ptr(), demands.len(),
                record.as_ptr(), record.len(), plan.as_mut_ptr(), plan.len(),
            )
        }
    }

    fn normal_nodes(
        &self, corridor: &[Node], demands: &[u32], plan: &[u32], work: &mut [u32],
        normal: &mut [u32],
    ) -> u32 {
        unsafe {
            gigorchid_normal_nodes(
                corridor.as_ptr(), corridor.len(), demands.as_ptr(), demands.len(),
                plan.as_ptr(), plan.len(), work.as_mut_ptr(), work.len(),
                normal.as_mut_ptr(), normal.len(),
            )
        }
    }
}
