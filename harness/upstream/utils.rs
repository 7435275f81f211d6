// Taken from pgvecto.rs (https://github.com/tensorchord/pgvecto.rs) at commit 2b290b34e8,
// crates/quantization/src/utils.rs.
//
// Licensed under the Apache License, Version 2.0 (the "License");
// you may not use this file except in compliance with the License.
// You may obtain a copy of the License at
//
//     http://www.apache.org/licenses/LICENSE-2.0
//
// Unless required by applicable law or agreed to in writing, software
// distributed under the License is distributed on an "AS IS" BASIS,
// WITHOUT WARRANTIES OR CONDITIONS OF ANY KIND, either express or implied.
// See the License for the specific language governing permissions and
// limitations under the License.
//
// Changed: nothing.

#[derive(Debug, Clone)]
pub struct InfiniteByteChunks<I, const N: usize> {
    iter: I,
}

impl<I: Iterator, const N: usize> InfiniteByteChunks<I, N> {
    pub fn new(iter: I) -> Self {
        Self { iter }
    }
}

impl<I: Iterator<Item = u8>, const N: usize> Iterator for InfiniteByteChunks<I, N> {
    type Item = [u8; N];

    fn next(&mut self) -> Option<Self::Item> {
        Some(std::array::from_fn::<u8, N, _>(|_| {
            self.iter.next().unwrap_or(0)
        }))
    }
}

pub fn merge_8([b0, b1, b2, b3, b4, b5, b6, b7]: [u8; 8]) -> u8 {
    b0 | (b1 << 1) | (b2 << 2) | (b3 << 3) | (b4 << 4) | (b5 << 5) | (b6 << 6) | (b7 << 7)
}

pub fn merge_4([b0, b1, b2, b3]: [u8; 4]) -> u8 {
    b0 | (b1 << 2) | (b2 << 4) | (b3 << 6)
}

pub fn merge_2([b0, b1]: [u8; 2]) -> u8 {
    b0 | (b1 << 4)
}
