//! Module 9: candidates with estimates, handed out by exact distance, with as few exact distances as that takes.
//!
//! [`Search`] does it all with a function that reads an exact distance. [`next`] and [`supply`] are its two steps, for
//! whoever keeps the lists elsewhere or waits for a distance to arrive.

use crate::bytes::{number, of_floats, of_floats_mut, saturated};
use crate::mark::of_marks_mut;
use crate::refusal::judge;
use crate::walk::Candidates;
use crate::{sys, Mark, Refusal};

/// What the reranker wants next.
#[derive(Clone, Copy, Debug, PartialEq)]
pub enum Answer {
    /// Nothing: every candidate has been handed out.
    Done,
    /// The exact distance of the candidate at this place, by [`supply`].
    Ask {
        /// The candidate's place in the lists.
        place: usize,
    },
    /// To hand out the candidate at this place. Its mark is [`Mark::Given`] now.
    Give {
        /// The candidate's place in the lists.
        place: usize,
        /// Its exact distance.
        distance: f32,
    },
}

impl Answer {
    /// The number that the C function writes for it.
    ///
    /// ```
    /// use lintelkite::Answer;
    ///
    /// assert_eq!((Answer::Done.number(), Answer::Ask { place: 7 }.number()), (0, 1));
    /// ```
    #[must_use]
    pub const fn number(self) -> u32 {
        match self {
            Answer::Done => 0,
            Answer::Ask { .. } => 1,
            Answer::Give { .. } => 2,
        }
    }
}

/// An answer, and how far the search has come.
#[derive(Clone, Copy, Debug, PartialEq)]
pub struct Step {
    /// What the reranker wants.
    pub answer: Answer,
    /// How many candidates no longer wait: exact distances supplied so far.
    pub asked: usize,
}

/// What the reranker wants next. An [`Answer::Ask`] changes nothing; an [`Answer::Give`] sets the mark.
///
/// The lists have one length, at most [`MOST_PLACES`](crate::walk::MOST_PLACES). Distances at waiting places are not
/// read.
///
/// # Errors
/// [`Refusal::BadLength`]; [`Refusal::Missing`] at a NaN estimate, or a NaN distance at an asked place.
///
/// ```
/// use lintelkite::rerank::{next, Answer, Step};
/// use lintelkite::Mark;
///
/// let mut marks = [Mark::Waiting; 2];
/// let step = next(&[2.0, 1.0], &[0.0; 2], &mut marks)?;
/// assert_eq!(step, Step { answer: Answer::Ask { place: 1 }, asked: 0 });
/// # Ok::<(), lintelkite::Refusal>(())
/// ```
pub fn next(estimates: &[f32], distances: &[f32], marks: &mut [Mark]) -> Result<Step, Refusal> {
    let (estimates, distances, marks) = (of_floats(estimates), of_floats(distances), of_marks_mut(marks));
    let mut out = [0; 16];
    judge(unsafe {
        sys::lk_rerank_next(
            estimates.as_ptr(),
            estimates.len(),
            distances.as_ptr(),
            distances.len(),
            marks.as_mut_ptr(),
            marks.len(),
            out.as_mut_ptr(),
            out.len(),
        )
    })?;
    let at = |i: usize| u32::from_le_bytes([out[i], out[i + 1], out[i + 2], out[i + 3]]);
    let (number, place, distance) = (at(0), at(4) as usize, f32::from_bits(at(8)));
    let answers = [Answer::Done, Answer::Ask { place }, Answer::Give { place, distance }];
    match answers.into_iter().find(|answer| answer.number() == number) {
        Some(answer) => Ok(Step { answer, asked: at(12) as usize }),
        None => panic!("the archive is not of this version: answer {number}"),
    }
}

/// Supplies the exact distance that was asked for, and returns how many candidates no longer wait.
///
/// # Errors
/// As [`next`]; [`Refusal::Missing`] where the distance is a NaN; [`Refusal::NotAsked`] where [`next`] would not ask for
/// this place.
///
/// ```
/// use lintelkite::rerank::{next, supply, Answer};
/// use lintelkite::{Mark, Refusal};
///
/// let (estimates, mut distances, mut marks) = ([2.0, 1.0], [0.0; 2], [Mark::Waiting; 2]);
/// assert_eq!(supply(&estimates, &mut distances, &mut marks, 0, 2.5), Err(Refusal::NotAsked));
/// assert_eq!(supply(&estimates, &mut distances, &mut marks, 1, 1.5)?, 1);
/// let step = next(&estimates, &distances, &mut marks)?;
/// assert_eq!(step.answer, Answer::Give { place: 1, distance: 1.5 });
/// # Ok::<(), Refusal>(())
/// ```
pub fn supply(
    estimates: &[f32],
    distances: &mut [f32],
    marks: &mut [Mark],
    place: usize,
    distance: f32,
) -> Result<usize, Refusal> {
    let (estimates, distances, marks) = (of_floats(estimates), of_floats_mut(distances), of_marks_mut(marks));
    let asked = number(|out, len| unsafe {
        sys::lk_rerank_supply(
            estimates.as_ptr(),
            estimates.len(),
            distances.as_mut_ptr(),
            distances.len(),
            marks.as_mut_ptr(),
            marks.len(),
            saturated(place),
            distance,
            out,
            len,
        )
    })?;
    Ok(asked as usize)
}

/// A candidate that a search hands out.
///
/// A lower bound of the method holds for most vectors, not for all. Where a distance is below its bound, hits may be out
/// of order, and a caller to whom that matters compares the two:
///
/// ```
/// use lintelkite::{Candidates, Search};
///
/// // Candidate 20 is nearer than its bound says, and comes late.
/// let candidates = Candidates { ids: vec![10, 20], bounds: vec![1.0, 4.0] };
/// let hits = Search::new(candidates)?.run(|id| if id == 10 { 3.0 } else { 2.0 })?;
/// assert_eq!(hits.iter().map(|hit| (hit.id, hit.distance < hit.bound)).collect::<Vec<_>>(), [(10, false), (20, true)]);
/// # Ok::<(), lintelkite::Refusal>(())
/// ```
#[derive(Clone, Copy, Debug, PartialEq)]
pub struct Hit {
    /// The candidate's id.
    pub id: u32,
    /// The lower bound of its distance, as the candidates had it.
    pub bound: f32,
    /// Its exact distance.
    pub distance: f32,
}

/// A search among candidates: hands them out by exact distance, and reads no more exact distances than it needs.
///
/// Where no exact distance is below its bound, hits come nearest first, and when one is handed out at distance d, the
/// candidates whose bounds lie above d have not been read. In any case each candidate is handed out once.
///
/// ```
/// use lintelkite::{Candidates, Search};
///
/// let candidates = Candidates { ids: vec![10, 20, 30], bounds: vec![1.0, 2.0, 3.0] };
/// let exact = |id| if id == 10 { 2.5 } else if id == 20 { 2.0 } else { 9.0 };
///
/// let mut search = Search::new(candidates)?;
/// let nearest = search.next_hit(exact)?.unwrap();
/// assert_eq!((nearest.id, nearest.distance), (20, 2.0));
/// assert_eq!(search.asked(), 2); // the third was never read
/// # Ok::<(), lintelkite::Refusal>(())
/// ```
#[derive(Clone, Debug)]
pub struct Search {
    candidates: Candidates,
    distances: Vec<f32>,
    marks: Vec<Mark>,
    asked: usize,
}

impl Search {
    /// A search among these candidates. None of them has been asked for.
    ///
    /// # Errors
    /// [`Refusal::BadLength`] where ids and bounds differ in length, or are more than
    /// [`MOST_PLACES`](crate::walk::MOST_PLACES); [`Refusal::Missing`] at a NaN bound.
    ///
    /// ```
    /// use lintelkite::{Candidates, Refusal, Search};
    ///
    /// let candidates = Candidates { ids: vec![1, 2], bounds: vec![0.5, f32::NAN] };
    /// assert_eq!(Search::new(candidates).unwrap_err(), Refusal::Missing);
    /// ```
    pub fn new(candidates: Candidates) -> Result<Search, Refusal> {
        let places = candidates.ids.len();
        let mut search =
            Search { candidates, distances: vec![0.0; places], marks: vec![Mark::Waiting; places], asked: 0 };
        // With every mark at Waiting this changes nothing: it asks for a place or is done.
        next(&search.candidates.bounds, &search.distances, &mut search.marks)?;
        Ok(search)
    }

    /// The next hit, or nothing when all have been handed out. `exact` reads the exact distance of an id.
    ///
    /// It is called for a candidate until it returns a distance, and not again. An id that stands at several places is
    /// several candidates.
    ///
    /// # Errors
    /// [`Refusal::Missing`] where `exact` returns a NaN. The search is as it was before that distance: the next call asks
    /// for it again.
    ///
    /// ```
    /// use lintelkite::{Candidates, Search};
    ///
    /// let mut search = Search::new(Candidates { ids: vec![7], bounds: vec![0.0] })?;
    /// assert_eq!(search.next_hit(|_| 4.0)?.unwrap().id, 7);
    /// assert_eq!(search.next_hit(|_| 4.0)?, None);
    /// # Ok::<(), lintelkite::Refusal>(())
    /// ```
    pub fn next_hit(&mut self, mut exact: impl FnMut(u32) -> f32) -> Result<Option<Hit>, Refusal> {
        self.try_next_hit(|id| Ok(exact(id)))
    }

    /// As [`next_hit`](Search::next_hit), where reading can fail. The call after an error asks for the same distance again.
    ///
    /// # Errors
    /// What `exact` returns, and as `next_hit`.
    ///
    /// ```
    /// use lintelkite::{Candidates, Search};
    /// use std::error::Error;
    ///
    /// let mut search = Search::new(Candidates { ids: vec![7], bounds: vec![0.0] })?;
    /// let failed = search.try_next_hit(|_| Err::<f32, Box<dyn Error>>("the disk is away".into()));
    /// assert_eq!(failed.unwrap_err().to_string(), "the disk is away");
    /// let hit = search.try_next_hit(|_| Ok::<f32, Box<dyn Error>>(4.0))?;
    /// assert_eq!(hit.unwrap().distance, 4.0);
    /// # Ok::<(), Box<dyn Error>>(())
    /// ```
    pub fn try_next_hit<E: From<Refusal>>(
        &mut self,
        mut exact: impl FnMut(u32) -> Result<f32, E>,
    ) -> Result<Option<Hit>, E> {
        let Candidates { ids, bounds } = &self.candidates;
        let hit = |place: usize, distance| Hit { id: ids[place], bound: bounds[place], distance };
        loop {
            match next(bounds, &self.distances, &mut self.marks)?.answer {
                Answer::Done => return Ok(None),
                Answer::Give { place, distance } => return Ok(Some(hit(place, distance))),
                Answer::Ask { place } => {
                    let distance = exact(ids[place])?;
                    self.asked = supply(bounds, &mut self.distances, &mut self.marks, place, distance)?;
                }
            }
        }
    }

    /// Runs the search to its end: every candidate that has not been handed out yet, in order.
    ///
    /// # Errors
    /// As [`next_hit`](Search::next_hit). Hits handed out before the error are lost to this call.
    ///
    /// ```
    /// use lintelkite::{Candidates, Search};
    ///
    /// let candidates = Candidates { ids: vec![0, 1, 2], bounds: vec![1.0, 2.0, 3.0] };
    /// let hits = Search::new(candidates)?.run(|id| [2.5, 2.0, 9.0][id as usize])?;
    /// assert_eq!(hits.iter().map(|hit| hit.id).collect::<Vec<_>>(), [1, 0, 2]);
    /// # Ok::<(), lintelkite::Refusal>(())
    /// ```
    pub fn run(&mut self, mut exact: impl FnMut(u32) -> f32) -> Result<Vec<Hit>, Refusal> {
        let mut hits = Vec::new();
        while let Some(hit) = self.next_hit(&mut exact)? {
            hits.push(hit);
        }
        Ok(hits)
    }

    /// How many exact distances have been supplied so far.
    ///
    /// ```
    /// use lintelkite::{Candidates, Search};
    ///
    /// let mut search = Search::new(Candidates { ids: vec![0, 1], bounds: vec![0.0, 9.0] })?;
    /// search.next_hit(|_| 4.0)?;
    /// assert_eq!(search.asked(), 1);
    /// # Ok::<(), lintelkite::Refusal>(())
    /// ```
    #[must_use]
    pub fn asked(&self) -> usize {
        self.asked
    }
}
