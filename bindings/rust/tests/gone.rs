//! A gone peer, of either side, through the wrapper.

use relay::{
    EndList, FrontNumber, OtherEnds, Peer, PublisherNumber, Refusal, Table, ALL_ENDS, LINKS,
    PUBLISHERS,
};

/// Requests, oldest first: link, front number, publisher. Link 5 has three and
/// publisher 5 four, two of them with one another.
const ASKED: [(u8, i64, u8); 6] = [
    (6, 60, 5),
    (5, 51, 5),
    (5, 50, 2),
    (7, 70, 2),
    (5, 52, 5),
    (3, 30, 5),
];
const LINK: Peer = Peer::Front(5);
const PUBLISHER: Peer = Peer::Publisher(5);

/// Publisher 5 gave the numbers 1 to 4, and publisher 2 gave 1 and 2.
fn asked() -> Table {
    let mut table = Table::new(PublisherNumber(1)).unwrap();
    for (link, front, publisher) in ASKED {
        table.ask(link, FrontNumber(front), publisher).unwrap();
    }
    table
}

fn publishers(ends: OtherEnds) -> EndList<PublisherNumber> {
    match ends {
        OtherEnds::Publishers(ends) => ends,
        other => panic!("ends of a publisher's requests: {other:?}"),
    }
}

fn fronts(ends: OtherEnds) -> EndList<FrontNumber> {
    match ends {
        OtherEnds::Fronts(ends) => ends,
        other => panic!("ends of a front end's requests: {other:?}"),
    }
}

fn refusal(table: &mut Table, peer: Peer, out: &mut [i64]) -> Option<Refusal> {
    table.gone(peer, out).err()
}

#[test]
fn each_side_has_ends_of_its_own() {
    let mut out = [-1; ALL_ENDS];
    let ends = publishers(asked().gone(LINK, &mut out).unwrap());
    let at = |publisher, number| (publisher, PublisherNumber(number));
    assert!(ends.eq([at(5, 2), at(2, 1), at(5, 3)]));
    assert_eq!(out[..8], [5, 2, 2, 1, 5, 3, -1, -1]);
    let mut out = [-1; ALL_ENDS];
    let ends = fronts(asked().gone(PUBLISHER, &mut out).unwrap());
    let of = |link, number| (link, FrontNumber(number));
    assert!(ends.eq([of(6, 60), of(5, 51), of(5, 52), of(3, 30)]));
    assert_eq!(out[..10], [6, 60, 5, 51, 5, 52, 3, 30, -1, -1]);
}

/// Whichever goes first has the requests between the two.
#[test]
fn both_sides_gone_end_each_request_once() {
    for (peers, counts) in [([LINK, PUBLISHER], [3, 2]), ([PUBLISHER, LINK], [4, 1])] {
        let mut table = asked();
        for (peer, count) in peers.into_iter().zip(counts) {
            assert_eq!(table.gone(peer, &mut [0; ALL_ENDS]).unwrap().len(), count);
        }
        // One is left, and nothing of the other five.
        for (link, front, _) in ASKED {
            let left = table.cancel(link, FrontNumber(front));
            let expected = (front == 70).then_some((2, PublisherNumber(2)));
            assert_eq!(left, expected.ok_or(Refusal::NO_SUCH_REQUEST));
        }
    }
}

#[test]
fn a_number_out_of_its_sides_range_comes_before_the_room() {
    let mut table = asked();
    for number in 0..=255 {
        for (peer, limit) in [
            (Peer::Front(number), LINKS),
            (Peer::Publisher(number), PUBLISHERS),
        ] {
            let beyond = number >= limit;
            let has_some = ASKED.iter().any(|&(link, _, publisher)| match peer {
                Peer::Front(_) => link == number,
                Peer::Publisher(_) => publisher == number,
            });
            let expected = match (beyond, has_some) {
                (true, _) => Some(Refusal::OUT_OF_RANGE),
                (false, true) => Some(Refusal::BUFFER_TOO_SMALL),
                (false, false) => None,
            };
            assert_eq!(refusal(&mut table, peer, &mut []), expected, "{peer}");
        }
    }
}

/// And a refused call leaves the slice.
#[test]
fn a_slice_too_short_and_one_just_long_enough() {
    for (peer, room) in [(LINK, 6), (PUBLISHER, 8)] {
        let mut table = asked();
        let mut out = [-1; 9];
        let refused = refusal(&mut table, peer, &mut out[..room - 1]);
        assert_eq!(refused, Some(Refusal::BUFFER_TOO_SMALL));
        assert_eq!(out, [-1; 9]);
        let ends = table.gone(peer, &mut out[..room]).unwrap();
        assert_eq!(2 * ends.len(), room);
        assert_eq!(out.iter().filter(|&&n| n == -1).count(), 9 - room);
    }
}

#[test]
fn a_peer_gone_twice_has_no_more_requests() {
    for peer in [LINK, PUBLISHER] {
        let mut table = asked();
        assert!(!table.gone(peer, &mut [0; ALL_ENDS]).unwrap().is_empty());
        assert!(table.gone(peer, &mut []).unwrap().is_empty());
    }
}

#[test]
fn the_numbering_of_a_lost_publisher_goes_on() {
    let mut table = asked();
    table.gone(PUBLISHER, &mut [0; ALL_ENDS]).unwrap();
    let late = table.reply(5, PublisherNumber(4));
    assert_eq!(late, Err(Refusal::NO_SUCH_REQUEST));
    let number = table.ask(3, FrontNumber(30), 5);
    assert_eq!(number, Ok(PublisherNumber(5)));
}

/// What is said of the ends is said of those that are still to come.
#[test]
fn ends_are_counted_copied_and_shown() {
    let mut out = [0; ALL_ENDS];
    let mut ends = fronts(asked().gone(PUBLISHER, &mut out).unwrap());
    assert_eq!((ends.len(), ends.next()), (4, Some((6, FrontNumber(60)))));
    ends.next();
    let shown = "[(5, FrontNumber(52)), (3, FrontNumber(30))]";
    assert_eq!((ends.len(), format!("{ends:?}").as_str()), (2, shown));
    assert!(ends.clone().eq(ends.by_ref()));
    assert_eq!((ends.len(), ends.next()), (0, None));
}

#[test]
fn peers_have_names() {
    let names = [Peer::Front(3), Peer::Publisher(2)].map(|peer| peer.to_string());
    assert_eq!(names, ["front end 3", "publisher 2"]);
}
