//! An entry's pages: what stands at the front of each, and what is filling (docs/RULES.md 1.2 to 1.8).
use std::iter;

use crate::{Entry, PAGE};

/// The front of each page of an entry: the mark, on the first page the payload's length, and the page's part of the
/// payload. What the front leaves of a page is filling.
pub fn fronts(id: u64, data: &[u8]) -> Vec<Vec<u8>> {
    let payload = [&id.to_be_bytes(), data].concat();
    let (first, rest) = payload.split_at(payload.len().min(1_020));
    let length = (payload.len() as u32).to_be_bytes();
    let start = [&[1], &length[1..], first].concat();
    iter::once(start).chain(rest.chunks(1_023).map(|part| [&[0], part].concat())).collect()
}

/// How many pages an entry takes.
pub fn count(entry: &Entry) -> u64 {
    fronts(entry.id, &entry.data).len() as u64
}

/// The pages of a push's entries: each front is put over a page of zeros.
pub fn clean(written: &[Entry]) -> Vec<u8> {
    pages(written, false)
}

/// The pages of a push's entries by one page of zeros that is kept over the push: each front is put over what the pages
/// before it have left there.
pub fn stale(written: &[Entry]) -> Vec<u8> {
    pages(written, true)
}

fn pages(written: &[Entry], kept: bool) -> Vec<u8> {
    let zeros = [0; PAGE as usize];
    let (mut page, mut pages) = (zeros, Vec::new());
    for front in written.iter().flat_map(|entry| fronts(entry.id, &entry.data)) {
        page = if kept { page } else { zeros };
        page[..front.len()].copy_from_slice(&front);
        pages.extend_from_slice(&page);
    }
    pages
}

/// Sets the filling of an entry to zeros, in bytes that begin with its pages.
pub fn clear_filling(bytes: &mut [u8], id: u64, data: &[u8]) {
    for (page, front) in bytes.chunks_mut(PAGE as usize).zip(fronts(id, data)) {
        page[front.len()..].fill(0);
    }
}
