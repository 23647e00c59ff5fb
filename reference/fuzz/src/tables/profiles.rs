//! How wide lists of calls draw, and what they do how often.

/// Of one list.
pub struct Profile {
    pub links: u64,
    pub numbers: u64,
    pub publishers: u64,
    /// Shares of a hundred calls; the rest are asks.
    pub replies: u64,
    pub cancels: u64,
    pub drops: u64,
    pub run_outs: u64,
    /// Of a hundred asks, those with a time; the others are old ones.
    pub timed: u64,
    /// With fewer in flight, every call is an ask.
    pub fewest: usize,
}

/// Narrow and busy, wide and full, a few publishers that fill up, publishers that
/// hang, a crowd of 48 and more, and one of which most run out.
pub const PROFILES: [Profile; 6] = [
    Profile {
        links: 3,
        numbers: 6,
        publishers: 3,
        replies: 20,
        cancels: 15,
        drops: 8,
        run_outs: 4,
        timed: 60,
        fewest: 0,
    },
    Profile {
        links: 32,
        numbers: 40,
        publishers: 8,
        replies: 15,
        cancels: 8,
        drops: 1,
        run_outs: 2,
        timed: 50,
        fewest: 0,
    },
    Profile {
        links: 8,
        numbers: 30,
        publishers: 4,
        replies: 8,
        cancels: 5,
        drops: 1,
        run_outs: 2,
        timed: 40,
        fewest: 0,
    },
    Profile {
        links: 4,
        numbers: 100,
        publishers: 5,
        replies: 4,
        cancels: 4,
        drops: 2,
        run_outs: 12,
        timed: 90,
        fewest: 0,
    },
    Profile {
        links: 32,
        numbers: 1000,
        publishers: 8,
        replies: 28,
        cancels: 15,
        drops: 2,
        run_outs: 0,
        timed: 30,
        fewest: 48,
    },
    Profile {
        links: 32,
        numbers: 1000,
        publishers: 8,
        replies: 10,
        cancels: 5,
        drops: 1,
        run_outs: 10,
        timed: 90,
        fewest: 40,
    },
];
