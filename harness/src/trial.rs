//! Trying a call that writes buffers, and holding it to its whole answer.
//!
//! The buffers are lent from the middle of a larger one, at odd addresses and even ones. A call is made once for each
//! of several old contents: bytes that happen to be right beforehand cannot hide that a call did not write them.

use std::hint::black_box;
use std::panic::{catch_unwind, AssertUnwindSafe};

/// Bytes on either side of a lent buffer.
const GUARD: usize = 67;

fn guard_byte(i: usize) -> u8 {
    (i * 29 + 0x5B) as u8
}

/// Lends the buffers `olds` with guard bytes around each, and returns what the call made of them. Panics if a guard
/// byte has changed.
pub fn lend<R>(olds: &[&[u8]], offset: usize, call: impl FnOnce(&mut [&mut [u8]]) -> R) -> (R, Vec<Vec<u8>>) {
    let mut all: Vec<u8> = Vec::new();
    let mut places = Vec::new();
    let guard = |all: &mut Vec<u8>, n: usize| {
        for _ in 0..n {
            all.push(guard_byte(all.len()));
        }
    };
    for old in olds {
        guard(&mut all, GUARD + offset);
        places.push(all.len()..all.len() + old.len());
        all.extend_from_slice(old);
    }
    guard(&mut all, GUARD);
    let mut lent = Vec::new();
    let mut rest = &mut all[..];
    let mut at = 0;
    for place in &places {
        let (before, from) = rest.split_at_mut(place.end - at);
        lent.push(&mut before[place.start - at..]);
        rest = from;
        at = place.end;
    }
    let said = call(&mut lent);
    let all = black_box(all);
    for (i, byte) in all.iter().enumerate() {
        if !places.iter().any(|place| place.contains(&i)) {
            assert_eq!(*byte, guard_byte(i), "a byte outside of the lent buffers was written");
        }
    }
    (said, places.into_iter().map(|place| all[place].to_vec()).collect())
}

/// Tries a call once, on buffers of these old contents, and holds it to the number and the bytes wanted. Returns the
/// number.
pub fn given(
    what: &str,
    offset: usize,
    olds: &[&[u8]],
    call: impl FnOnce(&mut [&mut [u8]]) -> u32,
    want: (u32, Vec<Vec<u8>>),
) -> u32 {
    let (got, news) = lend(olds, offset, call);
    assert_eq!(got, want.0, "{what}: refusal number");
    for (i, (new, wanted)) in news.iter().zip(&want.1).enumerate() {
        assert_eq!(new, wanted, "{what}: bytes of buffer {i} after {got}");
    }
    assert_eq!(news.len(), want.1.len(), "{what}: buffers");
    got
}

const FILLS: [fn(usize) -> u8; 3] = [|_| 0x00, |_| 0xFF, |i| (i * 37 + 11) as u8];

/// Tries a call with writable buffers of `lens` bytes and holds it to what `want` gives for their old contents. Returns
/// the number.
pub fn all(
    what: &str,
    lens: &[usize],
    call: impl Fn(&mut [&mut [u8]]) -> u32,
    want: impl Fn(&[Vec<u8>]) -> (u32, Vec<Vec<u8>>),
) -> u32 {
    let mut number = None;
    for (offset, fill) in FILLS.iter().enumerate() {
        let olds: Vec<Vec<u8>> = lens.iter().map(|len| (0..*len).map(fill).collect()).collect();
        let lent: Vec<&[u8]> = olds.iter().map(|old| &old[..]).collect();
        number = Some(given(what, offset, &lent, &call, want(&olds)));
    }
    number.unwrap()
}

/// The same for a call that is lent buffers of given contents and an output of `len` bytes after them.
pub fn with_out(
    what: &str,
    olds: &[&[u8]],
    len: usize,
    call: impl Fn(&mut [&mut [u8]]) -> u32,
    want: impl Fn(&[u8]) -> (u32, Vec<Vec<u8>>),
) -> u32 {
    let mut number = None;
    for (offset, fill) in FILLS.iter().enumerate() {
        let out: Vec<u8> = (0..len).map(fill).collect();
        number = Some(given(what, offset, &[olds, &[&out]].concat(), &call, want(&out)));
    }
    number.unwrap()
}

/// The same for a call that writes one buffer.
pub fn one(what: &str, len: usize, call: impl Fn(&mut [u8]) -> u32, want: impl Fn(&[u8]) -> (u32, Vec<u8>)) -> u32 {
    all(
        what,
        &[len],
        |lent| call(lent[0]),
        |olds| {
            let (number, bytes) = want(&olds[0]);
            (number, vec![bytes])
        },
    )
}

/// Whether the Rust ends the program here, where the library refuses or answers.
pub fn panics<R>(f: impl FnOnce() -> R) -> bool {
    catch_unwind(AssertUnwindSafe(f)).is_err()
}
