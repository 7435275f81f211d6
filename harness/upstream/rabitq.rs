// Taken from pgvecto.rs (https://github.com/tensorchord/pgvecto.rs) at commit 2b290b34e8,
// crates/quantization/src/rabitq.rs.
//
// Licensed under the Apache License, Version 2.0 (the "License");
// you may not use this file except in compliance with the License.
// You may obtain a copy of the License at
//
//     http://www.apache.org/licenses/LICENSE-2.0
//
// Unless required by applicable law or agreed to in writing, software
// distributed under the License is distributed on an "AS IS" BASIS,
// WITHOUT WARRANTIES OR CONDITIONS OF ANY KIND, either express or implied.
// See the License for the specific language governing permissions and
// limitations under the License.
//
// Changed: the crates `base` and `detect` cannot be had. `train`, `project`, `code` and the two preprocesses rest on
// `ScalarLike` and are cut, so `encode` and `fscan_encode` take what `code` returns, and a Lut is made by its caller.
// Generics over the scalar are gone; `multiversion` is a choice by detect.rs. `divide` stands outside of its function.
// The metrics that are not ported, the graph reranker and what only forwards are cut; what the harness calls is `pub`.

use crate::upstream::base::AlwaysEqual;
use crate::upstream::base::Distance;
use crate::upstream::base::VectDot;
use crate::upstream::base::VectL2;
use crate::upstream::fast_scan::b4::fast_scan_b4;
use crate::upstream::fast_scan::b4::pack;
use crate::upstream::utils::InfiniteByteChunks;
use std::cmp::Reverse;
use std::marker::PhantomData;
use std::ops::Range;

pub type FlatRerankVec = Vec<(Reverse<Distance>, AlwaysEqual<u32>)>;

pub struct RabitqQuantizer<O: OperatorRabitqQuantization> {
    dims: u32,
    _maker: PhantomData<O>,
}

impl<O: OperatorRabitqQuantization> RabitqQuantizer<O> {
    pub fn new(dims: u32) -> Self {
        Self {
            dims,
            _maker: PhantomData,
        }
    }

    pub fn encode(&self, coded: (f32, f32, f32, f32, Vec<u8>)) -> Vec<u8> {
        let dims = self.dims;
        let (a, b, c, d, e) = coded;
        let mut result = Vec::with_capacity(size_of::<f32>() * 4);
        result.extend(a.to_ne_bytes());
        result.extend(b.to_ne_bytes());
        result.extend(c.to_ne_bytes());
        result.extend(d.to_ne_bytes());
        for x in InfiniteByteChunks::<_, 64>::new(e.into_iter()).take(dims.div_ceil(64) as usize) {
            let mut r = 0_u64;
            for i in 0..64 {
                r |= (x[i] as u64) << i;
            }
            result.extend(r.to_ne_bytes().into_iter());
        }
        result
    }

    pub fn fscan_encode(&self, coded: [(f32, f32, f32, f32, Vec<u8>); 32]) -> Vec<u8> {
        let dims = self.dims;
        let codes = coded.clone().map(|(_, _, _, _, e)| {
            InfiniteByteChunks::new(e.into_iter())
                .map(|[b0, b1, b2, b3]| b0 | b1 << 1 | b2 << 2 | b3 << 3)
                .take(dims.div_ceil(4) as usize)
                .collect()
        });
        let mut result = Vec::with_capacity(size_of::<f32>() * 128);
        for i in 0..32 {
            result.extend(coded[i].0.to_ne_bytes());
        }
        for i in 0..32 {
            result.extend(coded[i].1.to_ne_bytes());
        }
        for i in 0..32 {
            result.extend(coded[i].2.to_ne_bytes());
        }
        for i in 0..32 {
            result.extend(coded[i].3.to_ne_bytes());
        }
        result.extend(pack(dims.div_ceil(4), codes));
        result
    }

    pub fn code_size(&self) -> u32 {
        size_of::<f32>() as u32 * 4 + size_of::<u64>() as u32 * self.dims.div_ceil(64)
    }

    pub fn fcode_size(&self) -> u32 {
        size_of::<f32>() as u32 * 128 + self.dims.div_ceil(4) * 16
    }

    pub fn flat_rerank_continue<C>(
        &self,
        locate_0: impl Fn(u32) -> C,
        locate_1: impl Fn(u32) -> C,
        frlut: &Result<O::FLut, O::Lut>,
        range: Range<u32>,
        heap: &mut FlatRerankVec,
    ) where
        C: AsRef<[u8]>,
    {
        match frlut {
            Ok(flut) => {
                let (left, main, right) = divide(range.clone());
                if let Some(i) = left {
                    let c = locate_1(i);
                    let c = parses_codes(c.as_ref());
                    let r = O::fscan_process_lowerbound(self.dims, flut, c, 1.9);
                    for j in 0..32 {
                        if range.contains(&(i * 32 + j)) {
                            heap.push((Reverse(r[j as usize]), AlwaysEqual(i * 32 + j)));
                        }
                    }
                }
                for i in main {
                    let c = locate_1(i);
                    let c = parses_codes(c.as_ref());
                    let r = O::fscan_process_lowerbound(self.dims, flut, c, 1.9);
                    for j in 0..32 {
                        heap.push((Reverse(r[j as usize]), AlwaysEqual(i * 32 + j)));
                    }
                }
                if let Some(i) = right {
                    let c = locate_1(i);
                    let c = parses_codes(c.as_ref());
                    let r = O::fscan_process_lowerbound(self.dims, flut, c, 1.9);
                    for j in 0..32 {
                        if range.contains(&(i * 32 + j)) {
                            heap.push((Reverse(r[j as usize]), AlwaysEqual(i * 32 + j)));
                        }
                    }
                }
            }
            Err(lut) => {
                for j in range {
                    let c = locate_0(j);
                    let c = parse_code(c.as_ref());
                    let r = O::process_lowerbound(lut, c, 1.9);
                    heap.push((Reverse(r), AlwaysEqual(j)));
                }
            }
        }
    }
}

pub fn divide(r: Range<u32>) -> (Option<u32>, Range<u32>, Option<u32>) {
    if r.start > r.end {
        return (None, r.start / 32..r.end / 32, None);
    }
    if r.start / 32 == r.end / 32 {
        return (Some(r.start / 32), 0..0, None);
    };
    let left = if r.start % 32 == 0 {
        (None, r.start / 32)
    } else {
        (Some(r.start / 32), r.start / 32 + 1)
    };
    let right = if r.end % 32 == 0 {
        (r.end / 32, None)
    } else {
        (r.end / 32, Some(r.end / 32))
    };
    (left.0, left.1..right.0, right.1)
}

pub trait OperatorRabitqQuantization {
    type Lut;
    fn process(lut: &Self::Lut, code: (f32, f32, f32, f32, &[u64])) -> Distance;
    fn process_lowerbound(
        lut: &Self::Lut,
        code: (f32, f32, f32, f32, &[u64]),
        epsilon: f32,
    ) -> Distance;

    type FLut;
    fn fscan_process(
        dims: u32,
        lut: &Self::FLut,
        code: (&[f32; 32], &[f32; 32], &[f32; 32], &[f32; 32], &[u8]),
    ) -> [Distance; 32];
    fn fscan_process_lowerbound(
        dims: u32,
        lut: &Self::FLut,
        code: (&[f32; 32], &[f32; 32], &[f32; 32], &[f32; 32], &[u8]),
        epsilon: f32,
    ) -> [Distance; 32];
}

impl OperatorRabitqQuantization for VectL2 {
    type Lut = (f32, f32, f32, f32, (Vec<u64>, Vec<u64>, Vec<u64>, Vec<u64>));

    fn process(
        lut: &Self::Lut,
        (dis_u_2, factor_ppc, factor_ip, _, t): (f32, f32, f32, f32, &[u64]),
    ) -> Distance {
        let &(dis_v_2, b, k, qvector_sum, ref s) = lut;
        let value = asymmetric_binary_dot_product(t, s) as u16;
        let rough = dis_u_2
            + dis_v_2
            + b * factor_ppc
            + ((2.0 * value as f32) - qvector_sum) * factor_ip * k;
        Distance::from_f32(rough)
    }

    fn process_lowerbound(
        lut: &Self::Lut,
        (dis_u_2, factor_ppc, factor_ip, factor_err, t): (f32, f32, f32, f32, &[u64]),
        epsilon: f32,
    ) -> Distance {
        let &(dis_v_2, b, k, qvector_sum, ref s) = lut;
        let value = asymmetric_binary_dot_product(t, s) as u16;
        let rough = dis_u_2
            + dis_v_2
            + b * factor_ppc
            + ((2.0 * value as f32) - qvector_sum) * factor_ip * k;
        let err = factor_err * dis_v_2.sqrt();
        Distance::from_f32(rough - epsilon * err)
    }

    type FLut = (f32, f32, f32, f32, Vec<u8>);

    fn fscan_process(
        dims: u32,
        lut: &Self::FLut,
        (dis_u_2, factor_ppc, factor_ip, _, t): (
            &[f32; 32],
            &[f32; 32],
            &[f32; 32],
            &[f32; 32],
            &[u8],
        ),
    ) -> [Distance; 32] {
        let &(dis_v_2, b, k, qvector_sum, ref s) = lut;
        let r = fast_scan_b4(dims.div_ceil(4), t, s);
        std::array::from_fn(|i| {
            let rough = dis_u_2[i]
                + dis_v_2
                + b * factor_ppc[i]
                + ((2.0 * r[i] as f32) - qvector_sum) * factor_ip[i] * k;
            Distance::from_f32(rough)
        })
    }

    fn fscan_process_lowerbound(
        dims: u32,
        lut: &Self::FLut,
        (dis_u_2, factor_ppc, factor_ip, factor_err, t): (
            &[f32; 32],
            &[f32; 32],
            &[f32; 32],
            &[f32; 32],
            &[u8],
        ),
        epsilon: f32,
    ) -> [Distance; 32] {
        let &(dis_v_2, b, k, qvector_sum, ref s) = lut;
        let r = fast_scan_b4(dims.div_ceil(4), t, s);
        std::array::from_fn(|i| {
            let rough = dis_u_2[i]
                + dis_v_2
                + b * factor_ppc[i]
                + ((2.0 * r[i] as f32) - qvector_sum) * factor_ip[i] * k;
            let err = factor_err[i] * dis_v_2.sqrt();
            Distance::from_f32(rough - epsilon * err)
        })
    }
}

impl OperatorRabitqQuantization for VectDot {
    type Lut = (f32, f32, f32, f32, (Vec<u64>, Vec<u64>, Vec<u64>, Vec<u64>));

    fn process(
        lut: &Self::Lut,
        (_, factor_ppc, factor_ip, _, t): (f32, f32, f32, f32, &[u64]),
    ) -> Distance {
        let &(_, b, k, qvector_sum, ref s) = lut;
        let value = asymmetric_binary_dot_product(t, s) as u16;
        let rough =
            0.5 * b * factor_ppc + 0.5 * ((2.0 * value as f32) - qvector_sum) * factor_ip * k;
        Distance::from_f32(rough)
    }

    fn process_lowerbound(
        lut: &Self::Lut,
        (_, factor_ppc, factor_ip, factor_err, t): (f32, f32, f32, f32, &[u64]),
        epsilon: f32,
    ) -> Distance {
        let &(dis_v_2, b, k, qvector_sum, ref s) = lut;
        let value = asymmetric_binary_dot_product(t, s) as u16;
        let rough =
            0.5 * b * factor_ppc + 0.5 * ((2.0 * value as f32) - qvector_sum) * factor_ip * k;
        let err = 0.5 * factor_err * dis_v_2.sqrt();
        Distance::from_f32(rough - epsilon * err)
    }

    type FLut = (f32, f32, f32, f32, Vec<u8>);

    fn fscan_process(
        dims: u32,
        lut: &Self::FLut,
        (_, factor_ppc, factor_ip, _, t): (&[f32; 32], &[f32; 32], &[f32; 32], &[f32; 32], &[u8]),
    ) -> [Distance; 32] {
        let &(_, b, k, qvector_sum, ref s) = lut;
        let r = fast_scan_b4(dims.div_ceil(4), t, s);
        std::array::from_fn(|i| {
            let rough = 0.5 * b * factor_ppc[i]
                + 0.5 * ((2.0 * r[i] as f32) - qvector_sum) * factor_ip[i] * k;
            Distance::from_f32(rough)
        })
    }

    fn fscan_process_lowerbound(
        dims: u32,
        lut: &Self::FLut,
        (_, factor_ppc, factor_ip, factor_err, t): (
            &[f32; 32],
            &[f32; 32],
            &[f32; 32],
            &[f32; 32],
            &[u8],
        ),
        epsilon: f32,
    ) -> [Distance; 32] {
        let &(dis_v_2, b, k, qvector_sum, ref s) = lut;
        let r = fast_scan_b4(dims.div_ceil(4), t, s);
        std::array::from_fn(|i| {
            let rough = 0.5 * b * factor_ppc[i]
                + 0.5 * ((2.0 * r[i] as f32) - qvector_sum) * factor_ip[i] * k;
            let err = 0.5 * factor_err[i] * dis_v_2.sqrt();
            Distance::from_f32(rough - epsilon * err)
        })
    }
}

pub fn parse_code(code: &[u8]) -> (f32, f32, f32, f32, &[u64]) {
    assert!(code.len() > size_of::<f32>() * 4, "length is incorrect");
    assert!(code.len() % size_of::<u64>() == 0, "length is incorrect");
    assert!(code.as_ptr() as usize % 8 == 0, "pointer is not aligned");
    unsafe {
        let a = code.as_ptr().add(0).cast::<f32>().read();
        let b = code.as_ptr().add(4).cast::<f32>().read();
        let c = code.as_ptr().add(8).cast::<f32>().read();
        let d = code.as_ptr().add(12).cast::<f32>().read();
        let e = std::slice::from_raw_parts(code[16..].as_ptr().cast(), code[16..].len() / 8);
        (a, b, c, d, e)
    }
}

pub fn parses_codes(code: &[u8]) -> (&[f32; 32], &[f32; 32], &[f32; 32], &[f32; 32], &[u8]) {
    assert!(code.len() > size_of::<f32>() * 128, "length is incorrect");
    assert!(code.as_ptr() as usize % 4 == 0, "pointer is not aligned");
    unsafe {
        let a = &*code.as_ptr().add(0).cast::<[f32; 32]>();
        let b = &*code.as_ptr().add(128).cast::<[f32; 32]>();
        let c = &*code.as_ptr().add(256).cast::<[f32; 32]>();
        let d = &*code.as_ptr().add(384).cast::<[f32; 32]>();
        let e = &code[512..];
        (a, b, c, d, e)
    }
}

pub fn gen(mut qvector: Vec<u8>) -> Vec<u8> {
    let dims = qvector.len() as u32;
    let t = dims.div_ceil(4);
    qvector.resize(qvector.len().next_multiple_of(4), 0);
    let mut lut = vec![0u8; t as usize * 16];
    for i in 0..t as usize {
        unsafe {
            // this hint is used to skip bound checks
            std::hint::assert_unchecked(4 * i + 3 < qvector.len());
            std::hint::assert_unchecked(16 * i + 15 < lut.len());
        }
        let t0 = qvector[4 * i + 0];
        let t1 = qvector[4 * i + 1];
        let t2 = qvector[4 * i + 2];
        let t3 = qvector[4 * i + 3];
        lut[16 * i + 0b0000] = 0;
        lut[16 * i + 0b0001] = t0;
        lut[16 * i + 0b0010] = t1;
        lut[16 * i + 0b0011] = t1 + t0;
        lut[16 * i + 0b0100] = t2;
        lut[16 * i + 0b0101] = t2 + t0;
        lut[16 * i + 0b0110] = t2 + t1;
        lut[16 * i + 0b0111] = t2 + t1 + t0;
        lut[16 * i + 0b1000] = t3;
        lut[16 * i + 0b1001] = t3 + t0;
        lut[16 * i + 0b1010] = t3 + t1;
        lut[16 * i + 0b1011] = t3 + t1 + t0;
        lut[16 * i + 0b1100] = t3 + t2;
        lut[16 * i + 0b1101] = t3 + t2 + t0;
        lut[16 * i + 0b1110] = t3 + t2 + t1;
        lut[16 * i + 0b1111] = t3 + t2 + t1 + t0;
    }
    lut
}

pub fn binarize(vector: &[u8]) -> (Vec<u64>, Vec<u64>, Vec<u64>, Vec<u64>) {
    let n = vector.len();
    let mut t0 = vec![0u64; n.div_ceil(64)];
    let mut t1 = vec![0u64; n.div_ceil(64)];
    let mut t2 = vec![0u64; n.div_ceil(64)];
    let mut t3 = vec![0u64; n.div_ceil(64)];
    for i in 0..n {
        t0[i / 64] |= (((vector[i] >> 0) & 1) as u64) << (i % 64);
        t1[i / 64] |= (((vector[i] >> 1) & 1) as u64) << (i % 64);
        t2[i / 64] |= (((vector[i] >> 2) & 1) as u64) << (i % 64);
        t3[i / 64] |= (((vector[i] >> 3) & 1) as u64) << (i % 64);
    }
    (t0, t1, t2, t3)
}

pub fn asymmetric_binary_dot_product(x: &[u64], y: &(Vec<u64>, Vec<u64>, Vec<u64>, Vec<u64>)) -> u32 {
    use crate::upstream::detect::{level, Level};
    match level() {
        #[cfg(target_arch = "x86_64")]
        Level::V4 | Level::V3 | Level::V2 => unsafe { asymmetric_binary_dot_product_v2(x, y) },
        _ => asymmetric_binary_dot_product_fallback(x, y),
    }
}

#[cfg(target_arch = "x86_64")]
#[inline(never)]
#[target_feature(enable = "cmpxchg16b,popcnt,sse3,sse4.1,sse4.2,ssse3")]
pub unsafe fn asymmetric_binary_dot_product_v2(x: &[u64], y: &(Vec<u64>, Vec<u64>, Vec<u64>, Vec<u64>)) -> u32 {
    asymmetric_binary_dot_product_text(x, y)
}

#[inline(never)]
pub fn asymmetric_binary_dot_product_fallback(x: &[u64], y: &(Vec<u64>, Vec<u64>, Vec<u64>, Vec<u64>)) -> u32 {
    asymmetric_binary_dot_product_text(x, y)
}

#[inline(always)]
fn asymmetric_binary_dot_product_text(x: &[u64], y: &(Vec<u64>, Vec<u64>, Vec<u64>, Vec<u64>)) -> u32 {
    assert_eq!(x.len(), y.0.len());
    assert_eq!(x.len(), y.1.len());
    assert_eq!(x.len(), y.2.len());
    assert_eq!(x.len(), y.3.len());
    let n = x.len();
    let (mut t0, mut t1, mut t2, mut t3) = (0, 0, 0, 0);
    for i in 0..n {
        t0 += (x[i] & y.0[i]).count_ones();
    }
    for i in 0..n {
        t1 += (x[i] & y.1[i]).count_ones();
    }
    for i in 0..n {
        t2 += (x[i] & y.2[i]).count_ones();
    }
    for i in 0..n {
        t3 += (x[i] & y.3[i]).count_ones();
    }
    (t0 << 0) + (t1 << 1) + (t2 << 2) + (t3 << 3)
}
