//! Module 8: the lower bounds of a range of records.

use crate::bytes::{number, of_floats_mut, of_numbers_mut, saturated};
use crate::mark::of_marks_mut;
use crate::{sys, Mark, Metric, Query, Refusal};
use std::ops::Range;

/// The most places that the output lists of a walk and the lists of a search can have.
pub const MOST_PLACES: usize = 4096;

/// How records are laid out.
///
/// ```
/// use lintelkite::Layout;
///
/// assert_eq!((Layout::Single.number(), Layout::Blocks.number()), (1, 2));
/// ```
#[derive(Clone, Copy, Debug, PartialEq, Eq, PartialOrd, Ord, Hash)]
#[repr(u32)]
pub enum Layout {
    /// Single codes, end to end.
    Single = 1,
    /// Blocks of 32 codes, end to end.
    Blocks = 2,
}

impl Layout {
    /// The number that the C function takes.
    ///
    /// ```
    /// assert_eq!(lintelkite::Layout::Blocks.number(), 2);
    /// ```
    #[must_use]
    pub const fn number(self) -> u32 {
        self as u32
    }

    /// The layout with this number.
    ///
    /// # Errors
    /// [`Refusal::BadValue`]: there is none.
    ///
    /// ```
    /// use lintelkite::{Layout, Refusal};
    ///
    /// assert_eq!(Layout::of_number(1), Ok(Layout::Single));
    /// assert_eq!(Layout::of_number(0), Err(Refusal::BadValue));
    /// ```
    pub fn of_number(number: u32) -> Result<Layout, Refusal> {
        [Layout::Single, Layout::Blocks].into_iter().find(|layout| layout.number() == number).ok_or(Refusal::BadValue)
    }
}

/// `n` records in one slice.
///
/// ```
/// use lintelkite::{Layout, Records};
///
/// // Two records of up to 64 dimensions.
/// let records = Records { layout: Layout::Single, bytes: &[0; 48], n: 2 };
/// # let _ = records;
/// ```
#[derive(Clone, Copy, Debug, PartialEq, Eq)]
pub struct Records<'a> {
    /// How they are laid out.
    pub layout: Layout,
    /// `n` single codes, or as many blocks as hold `n` codes.
    pub bytes: &'a [u8],
    /// How many they are, at most 1,048,576.
    pub n: u32,
}

/// Ids and their lower bounds, place by place.
#[derive(Clone, Debug, Default, PartialEq)]
pub struct Candidates {
    /// The record's number.
    pub ids: Vec<u32>,
    /// A lower bound of its distance.
    pub bounds: Vec<f32>,
}

/// The ids of a range, ascending, with their lower bounds. A range that is empty or backwards gives none.
///
/// # Errors
/// [`Refusal::BadDims`]; [`Refusal::BadLength`] where the records are not as long as `n` says, or `n` is too large;
/// [`Refusal::Missing`] and [`Refusal::BadValue`] for the query as in [`code_rough`](crate::estimate::code_rough);
/// [`Refusal::OutOfRange`] where the range ends past `n`; [`Refusal::NoRoom`] where it has more than [`MOST_PLACES`] ids;
/// [`Refusal::NoEstimate`] where a bound in the range is a NaN.
///
/// ```
/// use lintelkite::{block, code, walk, Factors, Layout, Metric, Query, Records};
///
/// let code = code::encode(Factors { dis_u_2: 1.0, ..Factors::default() }, &[1.0, -1.0])?;
/// let block = block::pack(2, &code.repeat(32))?;
/// let query = Query { dis_v_2: 4.0, b: 0.0, k: 1.0, codes: &[3, 9] };
///
/// let records = Records { layout: Layout::Blocks, bytes: &block.repeat(2), n: 64 };
/// let found = walk::walk(Metric::L2, &query, &records, 31..33)?;
/// assert_eq!(found.ids, [31, 32]);
/// assert_eq!(found.bounds, [5.0, 5.0]);
/// # Ok::<(), lintelkite::Refusal>(())
/// ```
///
/// More records than [`MOST_PLACES`] are walked in windows. The nearest of all is the nearest of one of them; for the ten
/// nearest of all, each window gives its ten.
///
/// ```
/// use lintelkite::walk::{walk, MOST_PLACES};
/// use lintelkite::{code, Factors, Hit, Layout, Metric, Query, Records, Search};
///
/// // Record i is the vector [i - 2,500], and the query is [1,700]. In one dimension the estimates are exact.
/// let (n, x_of) = (5_000, |id: u32| id as f32 - 2_500.0);
/// let mut codes = Vec::new();
/// for x in (0..n).map(x_of) {
///     let factors = Factors { dis_u_2: x * x, factor_ppc: -2.0 * x, factor_ip: -2.0 * x.abs(), factor_err: 0.0 };
///     codes.extend(code::encode(factors, &[x])?);
/// }
/// let records = Records { layout: Layout::Single, bytes: &codes, n };
/// let query = Query { dis_v_2: 1_700.0 * 1_700.0, b: 1_700.0, k: 0.0, codes: &[0] };
/// let exact = |id| (x_of(id) - 1_700.0).powi(2);
///
/// let mut hits: Vec<Hit> = Vec::new();
/// for start in (0..n).step_by(MOST_PLACES) {
///     let end = n.min(start + MOST_PLACES as u32);
///     let mut search = Search::new(walk(Metric::L2, &query, &records, start..end)?)?;
///     hits.extend(search.next_hit(exact)?);
/// }
/// hits.sort_by(|x, y| x.distance.total_cmp(&y.distance));
/// assert_eq!(hits[0], Hit { id: 4_200, bound: 0.0, distance: 0.0 });
/// # Ok::<(), lintelkite::Refusal>(())
/// ```
pub fn walk(metric: Metric, query: &Query, records: &Records, range: Range<u32>) -> Result<Candidates, Refusal> {
    let places = range.len().min(MOST_PLACES);
    let (mut ids, mut bounds) = (vec![0; places], vec![0.0; places]);
    let mut marks = vec![Mark::Waiting; places];
    let count = walk_into(metric, query, records, range, &mut ids, &mut bounds, &mut marks)?;
    ids.truncate(count);
    bounds.truncate(count);
    Ok(Candidates { ids, bounds })
}

/// As [`walk`], into lent lists of one length, at most [`MOST_PLACES`]. Returns how many places were filled, from the
/// first on, with their marks at [`Mark::Waiting`]; the places after them stay as they were.
///
/// # Errors
/// As [`walk`]; [`Refusal::BadLength`] for the lists too; [`Refusal::NoRoom`] where they have too few places.
///
/// ```
/// use lintelkite::{walk, Layout, Mark, Metric, Query, Records};
///
/// let query = Query { dis_v_2: 4.0, b: 0.0, k: 1.0, codes: &[3, 9] };
/// let records = Records { layout: Layout::Single, bytes: &[0; 48], n: 2 };
/// let (mut ids, mut bounds, mut marks) = ([7; 3], [7.0; 3], [Mark::Given; 3]);
/// assert_eq!(walk::walk_into(Metric::L2, &query, &records, 0..2, &mut ids, &mut bounds, &mut marks)?, 2);
/// assert_eq!(ids, [0, 1, 7]);
/// assert_eq!(bounds, [4.0, 4.0, 7.0]);
/// assert_eq!(marks, [Mark::Waiting, Mark::Waiting, Mark::Given]);
/// # Ok::<(), lintelkite::Refusal>(())
/// ```
pub fn walk_into(
    metric: Metric,
    query: &Query,
    records: &Records,
    range: Range<u32>,
    ids: &mut [u32],
    bounds: &mut [f32],
    marks: &mut [Mark],
) -> Result<usize, Refusal> {
    let Query { dis_v_2, b, k, codes } = *query;
    let (ids, bounds, marks) = (of_numbers_mut(ids), of_floats_mut(bounds), of_marks_mut(marks));
    let count = number(|count, count_len| unsafe {
        sys::lk_walk(
            metric.number(),
            records.layout.number(),
            saturated(codes.len()),
            dis_v_2,
            b,
            k,
            codes.as_ptr(),
            codes.len(),
            records.bytes.as_ptr(),
            records.bytes.len(),
            records.n,
            range.start,
            range.end,
            ids.as_mut_ptr(),
            ids.len(),
            bounds.as_mut_ptr(),
            bounds.len(),
            marks.as_mut_ptr(),
            marks.len(),
            count,
            count_len,
        )
    })?;
    Ok(count as usize)
}
