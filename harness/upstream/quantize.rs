// Taken from pgvecto.rs (https://github.com/tensorchord/pgvecto.rs) at commit 2b290b34e8,
// crates/quantization/src/quantize.rs.
//
// Licensed under the Apache License, Version 2.0 (the "License");
// you may not use this file except in compliance with the License.
// You may obtain a copy of the License at
//
//     http://www.apache.org/licenses/LICENSE-2.0
//
// Unless required by applicable law or agreed to in writing, software
// distributed under the License is distributed on an "AS IS" BASIS,
// WITHOUT WARRANTIES OR CONDITIONS OF ANY KIND, either express or implied.
// See the License for the specific language governing permissions and
// limitations under the License.
//
// Changed: the crates `base` and `detect` cannot be had. Only these two portable texts can be built without them; the rest
// is cut.

pub fn mul_add_round(this: &[f32], k: f32, b: f32) -> Vec<u8> {
    let n = this.len();
    let mut r = Vec::<u8>::with_capacity(n);
    for i in 0..n {
        let x = this[i];
        let v = x.mul_add(k, b).round_ties_even() as u8;
        unsafe {
            r.as_mut_ptr().add(i).write(v);
        }
    }
    unsafe {
        r.set_len(n);
    }
    r
}

pub fn reduce_sum_of_x_as_u16(this: &[u8]) -> u16 {
    let n = this.len();
    let mut sum = 0;
    for i in 0..n {
        sum += this[i] as u16;
    }
    sum
}
