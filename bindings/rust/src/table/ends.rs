//! The other ends of the requests that were freed: those of a gone peer, or those
//! that ran out.

use super::Peer;
use crate::{FrontNumber, PublisherNumber};
use std::fmt;
use std::slice::ChunksExact;

/// The other ends by their kind: front and publisher numbers are different types.
#[derive(Clone, Debug)]
pub enum OtherEnds<'a> {
    /// Of a front end's requests: publisher and publisher number.
    Publishers(EndList<'a, PublisherNumber>),
    /// Of a publisher's requests: link and front number.
    Fronts(EndList<'a, FrontNumber>),
}

impl<'a> OtherEnds<'a> {
    /// Those of the requests of `gone`, as they were written.
    pub(super) fn of(gone: Peer, written: &'a [i64]) -> OtherEnds<'a> {
        match gone {
            Peer::Front(_) => OtherEnds::Publishers(EndList::new(written, PublisherNumber)),
            Peer::Publisher(_) => OtherEnds::Fronts(EndList::new(written, FrontNumber)),
        }
    }

    pub fn len(&self) -> usize {
        match self {
            OtherEnds::Publishers(ends) => ends.len(),
            OtherEnds::Fronts(ends) => ends.len(),
        }
    }

    pub fn is_empty(&self) -> bool {
        self.len() == 0
    }
}

/// Links or publishers, each with a number of a request, oldest accepted first.
#[derive(Clone)]
pub struct EndList<'a, N> {
    pairs: ChunksExact<'a, i64>,
    number: fn(i64) -> N,
}

impl<'a, N> EndList<'a, N> {
    /// The ends as they were written: two numbers each.
    pub(super) fn new(written: &'a [i64], number: fn(i64) -> N) -> EndList<'a, N> {
        EndList {
            pairs: written.chunks_exact(2),
            number,
        }
    }
}

impl<N> Iterator for EndList<'_, N> {
    type Item = (u8, N);

    fn next(&mut self) -> Option<(u8, N)> {
        let pair = self.pairs.next()?;
        Some((pair[0] as u8, (self.number)(pair[1])))
    }

    fn size_hint(&self) -> (usize, Option<usize>) {
        self.pairs.size_hint()
    }
}

impl<N> ExactSizeIterator for EndList<'_, N> {}

/// As a list of what is still to come.
impl<N: Clone + fmt::Debug> fmt::Debug for EndList<'_, N> {
    fn fmt(&self, f: &mut fmt::Formatter) -> fmt::Result {
        f.debug_list().entries(self.clone()).finish()
    }
}
