//! That the runs reach what they are stored for. What happens in a run is read
//! off its events and lines, not taken from how it was made.

use super::random::RUNS;
use super::*;
use crate::event::Event;
use crate::stored::walk_lines::{self, Run};
use crate::table::{End, Side, ROOM};
use std::collections::BTreeSet;

fn runs() -> Vec<Run> {
    walk_lines::runs(push)
}

#[derive(Clone)]
struct Ticket {
    slot: usize,
    serial: usize,
    front: End,
    publisher: End,
}

/// Tickets by lowest free slot, oldest first. `step` hands back those that the
/// event freed, in the order in which their lines stand.
#[derive(Default)]
struct Slots {
    tickets: Vec<Ticket>,
    accepted: usize,
}

impl Slots {
    fn step(&mut self, event: Event, lines: &[String]) -> Vec<Ticket> {
        let refused = lines[0].starts_with("no ");
        match event {
            _ if refused => vec![],
            Event::Ask(link, number, publisher) => {
                let (_, publisher_number) = lines[0].split_once(' ').unwrap();
                let taken: BTreeSet<usize> = self.tickets.iter().map(|t| t.slot).collect();
                self.tickets.push(Ticket {
                    slot: (0..ROOM).find(|slot| !taken.contains(slot)).unwrap(),
                    serial: self.accepted,
                    front: (link, number),
                    publisher: (publisher, publisher_number.parse().unwrap()),
                });
                self.accepted += 1;
                vec![]
            }
            Event::Reply(peer, number) => vec![self.take(|t| t.publisher == (peer, number))],
            Event::Cancel(peer, number) => vec![self.take(|t| t.front == (peer, number))],
            Event::Gone(side, _) => self.take_listed(lines, |t| side.of(t.publisher, t.front)),
            Event::AskBy(..) | Event::RunOut(_) => unreachable!("no times in these runs"),
        }
    }

    fn take(&mut self, chosen: impl Fn(&Ticket) -> bool) -> Ticket {
        let place = self.tickets.iter().position(chosen).unwrap();
        self.tickets.remove(place)
    }

    fn take_listed(&mut self, lines: &[String], end: impl Fn(&Ticket) -> End) -> Vec<Ticket> {
        let mut listed = Vec::new();
        for line in &lines[1..] {
            let words: Vec<&str> = line.split(' ').collect();
            let wanted = (words[1].parse().unwrap(), words[2].parse().unwrap());
            listed.push(self.take(|ticket| end(ticket) == wanted));
        }
        listed
    }
}

/// Walks over all runs; `seen` gets the table before each event, the event,
/// and what it freed.
fn watch(mut seen: impl FnMut(&Slots, Event, &[Ticket])) {
    for run in runs() {
        let mut slots = Slots::default();
        for (event, lines) in &run.events {
            let before = Slots {
                tickets: slots.tickets.clone(),
                accepted: slots.accepted,
            };
            let freed = slots.step(*event, lines);
            seen(&before, *event, &freed);
        }
    }
}

fn way(event: Event) -> usize {
    match event {
        Event::Ask(..) | Event::AskBy(..) => unreachable!("an ask frees nothing"),
        Event::RunOut(_) => unreachable!("no times in these runs"),
        Event::Reply(..) => 0,
        Event::Cancel(..) => 1,
        Event::Gone(Side::Front, _) => 2,
        Event::Gone(Side::Publisher, _) => 3,
    }
}

#[test]
fn the_lines_are_those_of_the_book() {
    walk_lines::assert_as_the_book(runs());
}

#[test]
fn every_refusal_occurs() {
    let runs = runs();
    let lines = runs.iter().flat_map(|run| &run.events);
    let count = |text: &str| lines.clone().filter(|(_, own)| own[0] == text).count();
    for (refusal, least) in [
        (12, 40),
        (30, 500),
        (31, 200),
        (32, 150),
        (33, 300),
        (34, 300),
    ] {
        let found = count(&format!("no {refusal}"));
        assert!(found >= least, "no {refusal}: {found}");
    }
    assert_eq!(count("no 16") + count("no 35"), 0);
}

/// Lists that slots in rising or in falling order would get wrong.
#[test]
fn many_lists_are_not_in_the_order_of_slots() {
    let (mut rising, mut falling) = ([0; 4], [0; 4]);
    watch(|_, event, freed| {
        if freed.len() > 1 {
            let pairs = || freed.windows(2);
            assert!(pairs().all(|pair| pair[0].serial < pair[1].serial));
            rising[way(event)] += usize::from(pairs().any(|pair| pair[0].slot > pair[1].slot));
            falling[way(event)] += usize::from(pairs().any(|pair| pair[0].slot < pair[1].slot));
        }
    });
    for [_, _, closed, lost] in [rising, falling] {
        assert!(closed > 100 && lost > 60, "{closed} {lost}");
    }
}

#[test]
fn every_slot_is_freed_in_each_way_and_taken_again() {
    let (mut freed_by, mut taken_again) = ([[0; ROOM]; 4], [0; ROOM]);
    let mut before_used = BTreeSet::new();
    watch(|before, event, freed| {
        for ticket in freed {
            freed_by[way(event)][ticket.slot] += 1;
            before_used.insert(ticket.slot);
        }
        if before.accepted == 0 {
            before_used.clear();
        }
        if let Some(newest) = before.tickets.last() {
            taken_again[newest.slot] += usize::from(before_used.remove(&newest.slot));
        }
    });
    for slot in 0..ROOM {
        assert!(freed_by.iter().all(|freed| freed[slot] > 0), "{slot}");
        assert!(taken_again[slot] > 10, "{slot}: {}", taken_again[slot]);
    }
}

#[test]
fn the_table_is_full_and_each_age_is_freed() {
    let (mut full, mut ages) = (0, BTreeSet::new());
    watch(|before, event, freed| {
        if before.tickets.len() == ROOM {
            full += 1;
            if let (Event::Reply(..) | Event::Cancel(..), [ticket]) = (event, freed) {
                let same = |other: &Ticket| other.serial == ticket.serial;
                ages.insert(before.tickets.iter().position(same));
            }
        }
        assert!(before.tickets.len() <= ROOM);
    });
    assert!(full > 400, "{full}");
    assert_eq!(ages.len(), ROOM);
}

/// A serial number of a byte, or one that starts again with each 64, would put
/// these in another order.
#[test]
fn some_lists_span_more_than_a_byte_can_count() {
    let mut widest = [0; 4];
    watch(|_, event, freed| {
        if let [oldest, .., newest] = freed {
            let span = newest.serial - oldest.serial;
            widest[way(event)] = span.max(widest[way(event)]);
        }
    });
    assert!(widest[2] > 256 && widest[3] > 256, "{widest:?}");
}

#[test]
fn random_runs_are_crowded() {
    let runs = runs();
    let random = &runs[runs.len() - RUNS.len()..];
    let (mut events, mut crowded, mut freed_by) = (0, 0, [0; 4]);
    for run in random {
        let mut slots = Slots::default();
        for (event, lines) in &run.events {
            if !slots.step(*event, lines).is_empty() {
                freed_by[way(*event)] += 1;
            }
            events += 1;
            crowded += usize::from(slots.tickets.len() >= 48);
        }
    }
    assert!(
        events > 2_500 && crowded * 4 > events * 3,
        "{crowded} {events}"
    );
    assert!(freed_by.iter().all(|&count| count > 15), "{freed_by:?}");
}

/// Each accepted number follows the publisher's last one. Passing over numbers
/// in flight cannot show: a number comes again only after all others.
#[test]
fn numbers_go_past_the_largest_at_every_publisher() {
    let mut wrapped = [0; 8];
    for run in runs() {
        let mut next = [run.first; 8];
        for (event, lines) in &run.events {
            let (Event::Ask(_, _, publisher), Some(number)) =
                (event, lines[0].strip_prefix("ask "))
            else {
                continue;
            };
            let next = &mut next[usize::from(*publisher)];
            assert_eq!(number.parse(), Ok(*next));
            wrapped[usize::from(*publisher)] += usize::from(*next == TOP);
            *next = next.checked_add(1).unwrap_or(1);
        }
    }
    assert!(wrapped.iter().all(|&count| count >= 5), "{wrapped:?}");
}

/// Ends of freed tickets that come late while another ticket has the slot.
#[test]
fn late_ends_meet_a_slot_used_again() {
    let (mut replies, mut cancels) = (0, 0);
    let mut gone: Vec<Ticket> = Vec::new();
    watch(|before, event, freed| {
        if before.accepted == 0 {
            gone.clear();
        }
        let used = |ticket: &&Ticket| before.tickets.iter().any(|t| t.slot == ticket.slot);
        let mut late = gone.iter().filter(used);
        match event {
            _ if !freed.is_empty() => {}
            Event::Reply(peer, number) => {
                replies += usize::from(late.any(|t| t.publisher == (peer, number)));
            }
            Event::Cancel(peer, number) => {
                cancels += usize::from(late.any(|t| t.front == (peer, number)));
            }
            _ => {}
        }
        gone.extend_from_slice(freed);
    });
    assert!(replies > 30 && cancels > 30, "{replies} {cancels}");
}
