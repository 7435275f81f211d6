//! The C functions, name by name and parameter by parameter as include/lintelkite.h has them.

extern "C" {
    // sizes
    pub fn lk_digits_size(dims: u32, bits: u32, out: *mut u8, out_len: usize) -> u32;
    pub fn lk_code_size(dims: u32, out: *mut u8, out_len: usize) -> u32;
    pub fn lk_block_size(dims: u32, out: *mut u8, out_len: usize) -> u32;

    // module 1, digits
    pub fn lk_digits_pack(
        dims: u32,
        bits: u32,
        codes: *const u8,
        codes_len: usize,
        packed: *mut u8,
        packed_len: usize,
    ) -> u32;
    pub fn lk_digits_read(
        dims: u32,
        bits: u32,
        packed: *const u8,
        packed_len: usize,
        index: u32,
        out: *mut u8,
        out_len: usize,
    ) -> u32;

    // module 2, scalar quantizer
    pub fn lk_scalar_encode(
        dims: u32,
        bits: u32,
        vector: *const u8,
        vector_len: usize,
        min: *const u8,
        min_len: usize,
        max: *const u8,
        max_len: usize,
        code: *mut u8,
        code_len: usize,
    ) -> u32;
    pub fn lk_scalar_table(
        metric: u32,
        dims: u32,
        bits: u32,
        vector: *const u8,
        vector_len: usize,
        min: *const u8,
        min_len: usize,
        max: *const u8,
        max_len: usize,
        table: *mut u8,
        table_len: usize,
    ) -> u32;
    pub fn lk_scalar_distance(
        metric: u32,
        dims: u32,
        bits: u32,
        table: *const u8,
        table_len: usize,
        code: *const u8,
        code_len: usize,
        out: *mut u8,
        out_len: usize,
    ) -> u32;

    // module 3, square root
    pub fn lk_root(x: f32, out: *mut u8, out_len: usize) -> u32;

    // module 4, single code
    pub fn lk_code_encode(
        dims: u32,
        factors: *const u8,
        factors_len: usize,
        vector: *const u8,
        vector_len: usize,
        code: *mut u8,
        code_len: usize,
    ) -> u32;
    pub fn lk_code_bit(dims: u32, code: *const u8, code_len: usize, index: u32, out: *mut u8, out_len: usize) -> u32;

    // module 5, block
    pub fn lk_block_pack(dims: u32, codes: *const u8, codes_len: usize, block: *mut u8, block_len: usize) -> u32;
    pub fn lk_block_lane(
        dims: u32,
        block: *const u8,
        block_len: usize,
        lane: u32,
        code: *mut u8,
        code_len: usize,
    ) -> u32;

    // module 6, sums
    pub fn lk_query_sum(dims: u32, query: *const u8, query_len: usize, out: *mut u8, out_len: usize) -> u32;
    pub fn lk_code_sum(
        dims: u32,
        query: *const u8,
        query_len: usize,
        code: *const u8,
        code_len: usize,
        out: *mut u8,
        out_len: usize,
    ) -> u32;
    pub fn lk_block_sums(
        dims: u32,
        query: *const u8,
        query_len: usize,
        block: *const u8,
        block_len: usize,
        out: *mut u8,
        out_len: usize,
    ) -> u32;

    // module 7, estimates
    pub fn lk_code_rough(
        metric: u32,
        dims: u32,
        dis_v_2: f32,
        b: f32,
        k: f32,
        query: *const u8,
        query_len: usize,
        code: *const u8,
        code_len: usize,
        out: *mut u8,
        out_len: usize,
    ) -> u32;
    pub fn lk_code_lower_bound(
        metric: u32,
        dims: u32,
        dis_v_2: f32,
        b: f32,
        k: f32,
        query: *const u8,
        query_len: usize,
        code: *const u8,
        code_len: usize,
        out: *mut u8,
        out_len: usize,
    ) -> u32;
    pub fn lk_block_rough(
        metric: u32,
        dims: u32,
        dis_v_2: f32,
        b: f32,
        k: f32,
        query: *const u8,
        query_len: usize,
        block: *const u8,
        block_len: usize,
        out: *mut u8,
        out_len: usize,
    ) -> u32;
    pub fn lk_block_lower_bounds(
        metric: u32,
        dims: u32,
        dis_v_2: f32,
        b: f32,
        k: f32,
        query: *const u8,
        query_len: usize,
        block: *const u8,
        block_len: usize,
        out: *mut u8,
        out_len: usize,
    ) -> u32;

    // module 8, range walk
    pub fn lk_walk(
        metric: u32,
        layout: u32,
        dims: u32,
        dis_v_2: f32,
        b: f32,
        k: f32,
        query: *const u8,
        query_len: usize,
        records: *const u8,
        records_len: usize,
        n: u32,
        start: u32,
        end: u32,
        ids: *mut u8,
        ids_len: usize,
        bounds: *mut u8,
        bounds_len: usize,
        marks: *mut u8,
        marks_len: usize,
        count: *mut u8,
        count_len: usize,
    ) -> u32;

    // module 9, reranker
    pub fn lk_rerank_next(
        estimates: *const u8,
        estimates_len: usize,
        distances: *const u8,
        distances_len: usize,
        marks: *mut u8,
        marks_len: usize,
        out: *mut u8,
        out_len: usize,
    ) -> u32;
    pub fn lk_rerank_supply(
        estimates: *const u8,
        estimates_len: usize,
        distances: *mut u8,
        distances_len: usize,
        marks: *mut u8,
        marks_len: usize,
        place: u32,
        distance: f32,
        out: *mut u8,
        out_len: usize,
    ) -> u32;
}
