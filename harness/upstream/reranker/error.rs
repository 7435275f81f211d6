// Taken from pgvecto.rs (https://github.com/tensorchord/pgvecto.rs) at commit 2b290b34e8,
// crates/quantization/src/reranker/error.rs.
//
// Licensed under the Apache License, Version 2.0 (the "License");
// you may not use this file except in compliance with the License.
// You may obtain a copy of the License at
//
//     http://www.apache.org/licenses/LICENSE-2.0
//
// Unless required by applicable law or agreed to in writing, software
// distributed under the License is distributed on an "AS IS" BASIS,
// WITHOUT WARRANTIES OR CONDITIONS OF ANY KIND, either express or implied.
// See the License for the specific language governing permissions and
// limitations under the License.
//
// Changed: the crate `base` cannot be had; its types stand in base.rs.

use crate::upstream::base::AlwaysEqual;
use crate::upstream::base::Distance;
use crate::upstream::base::RerankerPop;
use std::cmp::Reverse;
use std::collections::BinaryHeap;

pub struct ErrorFlatReranker<T, R> {
    rerank: R,
    heap: BinaryHeap<(Reverse<Distance>, AlwaysEqual<u32>)>,
    cache: BinaryHeap<(Reverse<Distance>, AlwaysEqual<u32>, AlwaysEqual<T>)>,
}

impl<T, R> ErrorFlatReranker<T, R> {
    pub fn new(heap: Vec<(Reverse<Distance>, AlwaysEqual<u32>)>, rerank: R) -> Self
    where
        R: Fn(u32) -> (Distance, T),
    {
        Self {
            rerank,
            heap: heap.into(),
            cache: BinaryHeap::new(),
        }
    }
}

impl<T, R> RerankerPop<T> for ErrorFlatReranker<T, R>
where
    R: Fn(u32) -> (Distance, T),
{
    fn pop(&mut self) -> Option<(Distance, u32, T)> {
        while !self.heap.is_empty()
            && self.heap.peek().map(|x| x.0) > self.cache.peek().map(|x| x.0)
        {
            let (_, AlwaysEqual(u)) = self.heap.pop().unwrap();
            let (dis_u, pay_u) = (self.rerank)(u);
            self.cache
                .push((Reverse(dis_u), AlwaysEqual(u), AlwaysEqual(pay_u)));
        }
        let (Reverse(dist), AlwaysEqual(u), AlwaysEqual(pay_u)) = self.cache.pop()?;
        Some((dist, u, pay_u))
    }
}
