//! A table of requests as one would write it by hand who keeps every rule: a hash map by each end of a request,
//! a sorted map of deadlines, eight loads and eight last numbers. It refuses as the library does, in the same order,
//! and searches a hash map twice nowhere. (A heap would leave the deadlines of answered requests behind, and could not
//! count those that have come before it takes them out.)

use std::collections::hash_map::Entry;
use std::collections::{BTreeMap, HashMap};

/// A front link or a publisher, and a number.
type End = (u8, i64);

/// The other end of a request in flight, when it was accepted, and its deadline, if it has one.
#[derive(Clone, Copy)]
struct Accepted {
    front: End,
    stamp: u64,
    deadline: Option<u64>,
}

#[derive(Clone)]
pub struct TwoMaps {
    by_front: HashMap<End, End>,
    by_number: HashMap<End, Accepted>,
    /// By deadline and stamp: the two ends.
    deadlines: BTreeMap<(u64, u64), (End, End)>,
    loads: [usize; 8],
    last: [i64; 8],
    accepted: u64,
    /// The latest time seen.
    latest: u64,
}

fn after(number: i64) -> i64 {
    number.checked_add(1).unwrap_or(1)
}

impl TwoMaps {
    pub fn new(first: i64) -> Result<TwoMaps, u8> {
        if first < 1 {
            return Err(30);
        }
        Ok(TwoMaps {
            by_front: HashMap::with_capacity(64),
            by_number: HashMap::with_capacity(64),
            deadlines: BTreeMap::new(),
            loads: [0; 8],
            last: [first - 1; 8],
            accepted: 0,
            latest: 0,
        })
    }

    pub fn ask(&mut self, link: u8, number: i64, publisher: u8) -> Result<i64, u8> {
        self.accept(link, number, publisher, None)
    }

    pub fn ask_by(&mut self, link: u8, number: i64, publisher: u8, time: u64, timeout: u32) -> Result<i64, u8> {
        let now = self.now(time)?;
        let deadline = (timeout > 0).then(|| now + u64::from(timeout));
        let given = self.accept(link, number, publisher, deadline)?;
        self.latest = now;
        Ok(given)
    }

    /// The latest time seen, with this one.
    fn now(&self, time: u64) -> Result<u64, u8> {
        if time < 1 << 62 { Ok(self.latest.max(time)) } else { Err(30) }
    }

    fn accept(&mut self, link: u8, number: i64, publisher: u8, deadline: Option<u64>) -> Result<i64, u8> {
        if link > 31 || publisher > 7 {
            return Err(30);
        }
        if number == 0 {
            return Err(12);
        }
        let Entry::Vacant(place) = self.by_front.entry((link, number)) else { return Err(31) };
        let p = usize::from(publisher);
        if self.loads[p] == 16 {
            return Err(32);
        }
        if self.loads[p] >= 4 && self.loads.iter().map(|&load| load.max(4)).sum::<usize>() == 64 {
            return Err(33);
        }
        let accepted = Accepted { front: (link, number), stamp: self.accepted, deadline };
        let mut given = after(self.last[p]);
        loop {
            let Entry::Vacant(place) = self.by_number.entry((publisher, given)) else {
                given = after(given);
                continue;
            };
            place.insert(accepted);
            break;
        }
        place.insert((publisher, given));
        if let Some(deadline) = deadline {
            self.deadlines.insert((deadline, self.accepted), ((link, number), (publisher, given)));
        }
        self.loads[p] += 1;
        self.last[p] = given;
        self.accepted += 1;
        Ok(given)
    }

    pub fn reply(&mut self, publisher: u8, number: i64) -> Result<End, u8> {
        if publisher > 7 {
            return Err(30);
        }
        if number == 0 {
            return Err(12);
        }
        let accepted = self.by_number.remove(&(publisher, number)).ok_or(34)?;
        self.by_front.remove(&accepted.front);
        self.forget(publisher, accepted);
        Ok(accepted.front)
    }

    /// What is left of a request that is in neither hash map any more.
    fn forget(&mut self, publisher: u8, accepted: Accepted) {
        if let Some(deadline) = accepted.deadline {
            self.deadlines.remove(&(deadline, accepted.stamp));
        }
        self.loads[usize::from(publisher)] -= 1;
    }

    pub fn cancel(&mut self, link: u8, number: i64) -> Result<End, u8> {
        if link > 31 {
            return Err(30);
        }
        if number == 0 {
            return Err(12);
        }
        let publisher = self.by_front.remove(&(link, number)).ok_or(34)?;
        if let Some(accepted) = self.by_number.remove(&publisher) {
            self.forget(publisher.0, accepted);
        }
        Ok(publisher)
    }

    /// The publisher of this number is lost, or the front link closed.
    pub fn gone(&mut self, publisher: bool, number: u8, out: &mut [i64]) -> Result<usize, u8> {
        match publisher {
            true if number < 8 => self.free(|_, key| key.0 == number, |front, _| front, out),
            false if number < 32 => self.free(|front, _| front.0 == number, |_, publisher| publisher, out),
            _ => Err(30),
        }
    }

    /// Frees the chosen requests, given by front and publisher, and writes the ends that are wanted, oldest first.
    fn free(
        &mut self,
        chosen: impl Fn(End, End) -> bool,
        wanted: impl Fn(End, End) -> End,
        out: &mut [i64],
    ) -> Result<usize, u8> {
        let all = self.by_number.iter().map(|(&publisher, request)| (request.stamp, request.front, publisher));
        let mut gone: Vec<_> = all.filter(|&(_, front, publisher)| chosen(front, publisher)).collect();
        if out.len() < 2 * gone.len() {
            return Err(16);
        }
        gone.sort_unstable();
        for (&(_, front, publisher), end) in gone.iter().zip(out.chunks_exact_mut(2)) {
            let (place, number) = wanted(front, publisher);
            end.copy_from_slice(&[place.into(), number]);
            self.by_front.remove(&front);
            if let Some(accepted) = self.by_number.remove(&publisher) {
                self.forget(publisher.0, accepted);
            }
        }
        Ok(gone.len())
    }

    /// Frees the requests whose deadline has come, and writes their front ends, oldest first.
    pub fn run_out(&mut self, time: u64, out: &mut [i64]) -> Result<usize, u8> {
        let now = self.now(time)?;
        let due = self.deadlines.range(..=(now, u64::MAX));
        let mut due: Vec<_> = due.map(|(&(_, stamp), &(front, publisher))| (stamp, front, publisher)).collect();
        if out.len() < 2 * due.len() {
            return Err(16);
        }
        due.sort_unstable();
        for (&(_, front, publisher), end) in due.iter().zip(out.chunks_exact_mut(2)) {
            end.copy_from_slice(&[front.0.into(), front.1]);
            self.by_front.remove(&front);
            self.by_number.remove(&publisher);
            self.loads[usize::from(publisher.0)] -= 1;
        }
        for _ in &due {
            self.deadlines.pop_first();
        }
        self.latest = now;
        Ok(due.len())
    }
}
