//! Module 8, range walk: the call on slices.

use crate::paper::walk::Walk;
use crate::sys;

pub fn walk(walk: Walk, ids: &mut [u8], bounds: &mut [u8], marks: &mut [u8], count: &mut [u8]) -> u32 {
    let query = walk.query;
    unsafe {
        sys::lk_walk(
            query.metric,
            walk.layout,
            query.dims,
            query.dis_v_2,
            query.b,
            query.k,
            query.codes.as_ptr(),
            query.codes.len(),
            walk.records.as_ptr(),
            walk.records.len(),
            walk.n,
            walk.start,
            walk.end,
            ids.as_mut_ptr(),
            ids.len(),
            bounds.as_mut_ptr(),
            bounds.len(),
            marks.as_mut_ptr(),
            marks.len(),
            count.as_mut_ptr(),
            count.len(),
        )
    }
}
