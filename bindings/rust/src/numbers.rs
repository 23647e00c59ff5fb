//! The two numbers of a request in flight, kept apart.

/// The number that a front end gave its request.
#[repr(C)]
#[derive(Clone, Copy, Debug, PartialEq, Eq, PartialOrd, Ord, Hash)]
pub struct FrontNumber(pub i64);

/// The number under which a publisher has a request.
#[repr(C)]
#[derive(Clone, Copy, Debug, PartialEq, Eq, PartialOrd, Ord, Hash)]
pub struct PublisherNumber(pub i64);
