//! What each call does on any contents, as crates/inflight/specs/Tables.antt
//! defines it, written down again by other means: lists and no masks in place.

use super::*;

/// The slots of a mask, lowest first.
fn slots(mask: u64) -> impl Iterator<Item = usize> {
    (0..64).filter(move |slot| mask >> slot & 1 == 1)
}

/// The used slots, laid out by their places: a place over 63 counts by its six
/// lowest bits, the highest of several slots has their place, and slot 0 stands
/// where there is none. As many count as slots are used.
fn line(table: &Table) -> Vec<usize> {
    let mut list = vec![0; 64];
    for slot in slots(table.masks[0]) {
        list[usize::from(table.order[slot] % 64)] = slot;
    }
    list.truncate(table.masks[0].count_ones() as usize);
    list
}

fn mine(table: &Table, publisher: u8) -> u64 {
    table.masks[1 + usize::from(publisher)]
}

fn of_front(table: &Table, link: u8, front: i64) -> Option<usize> {
    slots(table.masks[0]).find(|&i| (table.places[i], table.numbers[i]) == (link, front))
}

fn of_number(table: &Table, publisher: u8, number: i64) -> Option<usize> {
    slots(mine(table, publisher)).find(|&i| table.numbers[64 + i] == number)
}

fn after(number: i64) -> i64 {
    number.checked_add(1).unwrap_or(1)
}

fn unmask(table: &mut Table, gone: u64) {
    table.masks = table.masks.map(|mask| mask & !gone);
}

/// One slot is freed; all places behind its own come one forward, those of slots
/// that are not used too.
fn strike(table: &mut Table, slot: usize) {
    let own = table.order[slot];
    table.order = table.order.map(|place| match place {
        _ if own < place => place - 1,
        _ => place,
    });
    unmask(table, 1 << slot);
}

/// Below 2^62, whatever the table says that it has seen.
fn latest(table: &Table, time: u64) -> u64 {
    table.times[64].max(time).min(LAST_TIME)
}

/// The used slots whose deadline is there and has come.
fn due(table: &Table, now: u64) -> u64 {
    let due = slots(table.masks[0]).filter(|&i| (1..=now).contains(&table.times[i]));
    due.fold(0, |mask, i| mask | 1 << i)
}

fn ask_refusal(table: &Table, link: u8, front: i64, publisher: u8, time: u64) -> Option<u8> {
    if link > 31 || publisher > 7 || time > LAST_TIME {
        return Some(30);
    }
    let load = |p| mine(table, p).count_ones();
    let taken: u32 = (0..8).map(|p| load(p).max(4)).sum();
    let refusals = [
        (front == 0, 12),
        (of_front(table, link, front).is_some(), 31),
        (load(publisher) >= 16, 32),
        (load(publisher) >= 4 && taken == 64, 33),
        (table.masks[0] == u64::MAX, 33),
    ];
    refusals.into_iter().find(|r| r.0).map(|r| r.1)
}

/// The number that is given, or a refusal; the time and the timeout, 0 for none,
/// as they were brought.
pub fn ask(
    table: &mut Table,
    link: u8,
    front: i64,
    publisher: u8,
    (time, timeout): (u64, u32),
) -> Result<i64, u8> {
    if let Some(refusal) = ask_refusal(table, link, front, publisher, time) {
        return Err(refusal);
    }
    let count = table.masks[0].count_ones() as usize;
    let slot = slots(!table.masks[0]).next().expect("a free slot");
    let p = usize::from(publisher);
    let mut number = table.numbers[128 + p];
    // It gives up where garbage has more of a publisher's slots than used ones.
    for _ in 0..count {
        if of_number(table, publisher, number).is_none() {
            break;
        }
        number = after(number);
    }
    (table.numbers[slot], table.numbers[64 + slot]) = (front, number);
    table.numbers[128 + p] = after(number);
    (table.places[slot], table.places[64 + slot]) = (link, publisher);
    table.order[slot] = count as u8;
    let now = latest(table, time);
    table.times[slot] = match timeout {
        0 => 0,
        _ => now + u64::from(timeout),
    };
    table.times[64] = now;
    table.masks[0] |= 1 << slot;
    table.masks[1 + p] |= 1 << slot;
    Ok(number)
}

/// Link and front number, or a refusal.
pub fn reply(table: &mut Table, publisher: u8, number: i64) -> Result<(u8, i64), u8> {
    match publisher {
        8.. => return Err(30),
        _ if number == 0 => return Err(12),
        _ => {}
    }
    let slot = of_number(table, publisher, number).ok_or(34)?;
    strike(table, slot);
    Ok((table.places[slot], table.numbers[slot]))
}

/// Publisher and publisher number, or a refusal.
pub fn cancel(table: &mut Table, link: u8, front: i64) -> Result<(u8, i64), u8> {
    match link {
        32.. => return Err(30),
        _ if front == 0 => return Err(12),
        _ => {}
    }
    let slot = of_front(table, link, front).ok_or(34)?;
    strike(table, slot);
    Ok((table.places[64 + slot], table.numbers[64 + slot]))
}

/// How many were freed, or a refusal.
pub fn gone(table: &mut Table, publisher: bool, number: u8, out: &mut [i64]) -> Result<usize, u8> {
    match publisher {
        PUBLISHER if number > 7 => Err(30),
        PUBLISHER => freed(table, mine(table, number), 0, out),
        LINK if number > 31 => Err(30),
        LINK => freed(table, of_link(table, number), 64, out),
    }
}

/// The same of deadlines that have come.
pub fn run_out(table: &mut Table, time: u64, out: &mut [i64]) -> Result<usize, u8> {
    if time > LAST_TIME {
        return Err(30);
    }
    let now = latest(table, time);
    let count = freed(table, due(table, now), 0, out)?;
    table.times[64] = now;
    Ok(count)
}

fn of_link(table: &Table, link: u8) -> u64 {
    let slots = slots(table.masks[0]).filter(|&i| table.places[i] == link);
    slots.fold(0, |mask, i| mask | 1 << i)
}

/// The slots of a mask are freed. Their other ends are at an offset into numbers
/// and places; those that stay take their places anew.
fn freed(table: &mut Table, gone: u64, offset: usize, out: &mut [i64]) -> Result<usize, u8> {
    let line = line(table).into_iter();
    let (leaving, staying): (Vec<usize>, Vec<usize>) = line.partition(|slot| gone >> slot & 1 == 1);
    let ends = leaving.iter().flat_map(|slot| {
        let i = offset + slot;
        [i64::from(table.places[i]), table.numbers[i]]
    });
    let ends: Vec<i64> = ends.collect();
    out.get_mut(..ends.len()).ok_or(16)?.copy_from_slice(&ends);
    for (place, slot) in staying.into_iter().enumerate() {
        table.order[slot] = place as u8;
    }
    unmask(table, gone);
    Ok(leaving.len())
}
