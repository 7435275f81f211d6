// Taken from pgvecto.rs (https://github.com/tensorchord/pgvecto.rs) at commit 2b290b34e8,
// crates/quantization/src/scalar.rs.
//
// Licensed under the Apache License, Version 2.0 (the "License");
// you may not use this file except in compliance with the License.
// You may obtain a copy of the License at
//
//     http://www.apache.org/licenses/LICENSE-2.0
//
// Unless required by applicable law or agreed to in writing, software
// distributed under the License is distributed on an "AS IS" BASIS,
// WITHOUT WARRANTIES OR CONDITIONS OF ANY KIND, either express or implied.
// See the License for the specific language governing permissions and
// limitations under the License.
//
// Changed: the crate `base` cannot be had. A vector is a slice of f32 and the generics over the scalar and the operator are
// gone with it. `train`, `project`, the block scan, the rerankers, what only forwards and the metrics that are not ported are
// cut; what the harness calls is `pub`.

use crate::upstream::base::Distance;
use crate::upstream::base::VectDot;
use crate::upstream::base::VectL2;
use crate::upstream::utils::merge_2;
use crate::upstream::utils::merge_4;
use crate::upstream::utils::merge_8;
use crate::upstream::utils::InfiniteByteChunks;

pub struct ScalarQuantizer {
    pub dims: u32,
    pub bits: u32,
    pub min: Vec<f32>,
    pub max: Vec<f32>,
}

impl ScalarQuantizer {
    pub fn encode(&self, vector: &[f32]) -> Vec<u8> {
        let dims = self.dims;
        let bits = self.bits;
        let min = self.min.as_slice();
        let max = self.max.as_slice();
        let code_size = (dims * bits).div_ceil(8);
        let mut code = Vec::with_capacity(dims as usize);
        for i in 0..dims {
            let val = vector[i as usize];
            let bas = min[i as usize];
            let del = (max[i as usize] - min[i as usize]) / ((1 << bits) - 1) as f32;
            let j = ((val - bas) / del).round_ties_even() as u32;
            code.push(j.clamp(0, (1 << bits) - 1) as u8);
        }
        match bits {
            1 => InfiniteByteChunks::new(code.into_iter())
                .map(merge_8)
                .take(code_size as usize)
                .collect(),
            2 => InfiniteByteChunks::new(code.into_iter())
                .map(merge_4)
                .take(code_size as usize)
                .collect(),
            4 => InfiniteByteChunks::new(code.into_iter())
                .map(merge_2)
                .take(code_size as usize)
                .collect(),
            8 => code,
            _ => unreachable!(),
        }
    }

    pub fn code_size(&self) -> u32 {
        (self.dims * self.bits).div_ceil(8)
    }
}

pub trait OperatorScalarQuantization {
    fn preprocess(
        dims: u32,
        bits: u32,
        min: &[f32],
        max: &[f32],
        vector: &[f32],
    ) -> Vec<f32>;
    fn process(dims: u32, bits: u32, lut: &[f32], code: &[u8]) -> Distance;
}

impl OperatorScalarQuantization for VectDot {
    fn preprocess(
        dims: u32,
        bits: u32,
        min: &[f32],
        max: &[f32],
        vector: &[f32],
    ) -> Vec<f32> {
        #[inline(never)]
        fn internal<const BITS: usize>(
            dims: usize,
            min: &[f32],
            max: &[f32],
            vector: &[f32],
        ) -> Vec<f32> {
            assert!(dims <= 65535);
            assert!(dims == min.len());
            assert!(dims == max.len());
            assert!(dims == vector.len());
            let mut table = Vec::<f32>::with_capacity(dims * (1 << BITS));
            for i in 0..dims {
                let bas = min[i];
                let del = (max[i] - min[i]) / ((1 << BITS) - 1) as f32;
                for j in 0..1 << BITS {
                    let x = vector[i];
                    let y = bas + (j as f32) * del;
                    let value = x * y;
                    unsafe {
                        table.as_mut_ptr().add(i * (1 << BITS) + j).write(value);
                    }
                }
            }
            unsafe {
                table.set_len(dims * (1 << BITS));
            }
            table
        }
        match bits {
            1 => internal::<1>(dims as _, min, max, vector),
            2 => internal::<2>(dims as _, min, max, vector),
            4 => internal::<4>(dims as _, min, max, vector),
            8 => internal::<8>(dims as _, min, max, vector),
            _ => unreachable!(),
        }
    }
    fn process(dims: u32, bits: u32, lut: &[f32], code: &[u8]) -> Distance {
        #[inline(never)]
        fn internal<const BITS: usize>(n: usize, lut: &[f32], code: &[u8]) -> Distance {
            assert!(n >= 1);
            assert!(n <= 65535);
            assert!(code.len() == n / (8 / BITS));
            assert!(lut.len() == n * (1 << BITS));
            let mut sum = 0.0f32;
            for i in 0..n {
                unsafe {
                    // Safety: `i < n`
                    std::hint::assert_unchecked(i / (8 / BITS) < n / (8 / BITS));
                }
                let (alpha, beta) = (i / (8 / BITS), i % (8 / BITS));
                let j = (code[alpha] >> (beta * BITS)) as usize % (1 << BITS);
                unsafe {
                    // Safety: `i < n`, `j < (1 << BITS)`
                    std::hint::assert_unchecked(i * (1 << BITS) + j < n * (1 << BITS));
                }
                sum += lut[i * (1 << BITS) + j];
            }
            Distance::from(-sum)
        }
        match bits {
            1 => internal::<1>(dims as _, lut, code),
            2 => internal::<2>(dims as _, lut, code),
            4 => internal::<4>(dims as _, lut, code),
            8 => internal::<8>(dims as _, lut, code),
            _ => unreachable!(),
        }
    }
}

impl OperatorScalarQuantization for VectL2 {
    fn preprocess(
        dims: u32,
        bits: u32,
        min: &[f32],
        max: &[f32],
        vector: &[f32],
    ) -> Vec<f32> {
        #[inline(never)]
        fn internal<const BITS: usize>(
            dims: usize,
            min: &[f32],
            max: &[f32],
            vector: &[f32],
        ) -> Vec<f32> {
            assert!(dims <= 65535);
            assert!(dims == min.len());
            assert!(dims == max.len());
            assert!(dims == vector.len());
            let mut table = Vec::<f32>::with_capacity(dims * (1 << BITS));
            for i in 0..dims {
                let bas = min[i];
                let del = (max[i] - min[i]) / ((1 << BITS) - 1) as f32;
                for j in 0..1 << BITS {
                    let x = vector[i];
                    let y = bas + (j as f32) * del;
                    let value = (x - y) * (x - y);
                    unsafe {
                        table.as_mut_ptr().add(i * (1 << BITS) + j).write(value);
                    }
                }
            }
            unsafe {
                table.set_len(dims * (1 << BITS));
            }
            table
        }
        match bits {
            1 => internal::<1>(dims as _, min, max, vector),
            2 => internal::<2>(dims as _, min, max, vector),
            4 => internal::<4>(dims as _, min, max, vector),
            8 => internal::<8>(dims as _, min, max, vector),
            _ => unreachable!(),
        }
    }
    fn process(dims: u32, bits: u32, lut: &[f32], code: &[u8]) -> Distance {
        #[inline(never)]
        fn internal<const BITS: usize>(n: usize, lut: &[f32], code: &[u8]) -> Distance {
            assert!(n >= 1);
            assert!(n <= 65535);
            assert!(code.len() == n / (8 / BITS));
            assert!(lut.len() == n * (1 << BITS));
            let mut sum = 0.0f32;
            for i in 0..n {
                unsafe {
                    // Safety: `i < n`
                    std::hint::assert_unchecked(i / (8 / BITS) < n / (8 / BITS));
                }
                let (alpha, beta) = (i / (8 / BITS), i % (8 / BITS));
                let j = (code[alpha] >> (beta * BITS)) as usize % (1 << BITS);
                unsafe {
                    // Safety: `i < n`, `j < (1 << BITS)`
                    std::hint::assert_unchecked(i * (1 << BITS) + j < n * (1 << BITS));
                }
                sum += lut[i * (1 << BITS) + j];
            }
            Distance::from(sum)
        }
        match bits {
            1 => internal::<1>(dims as _, lut, code),
            2 => internal::<2>(dims as _, lut, code),
            4 => internal::<4>(dims as _, lut, code),
            8 => internal::<8>(dims as _, lut, code),
            _ => unreachable!(),
        }
    }
}
