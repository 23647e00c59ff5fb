//! The example of document 01's program, through the table.

use relay::{FrontNumber, OtherEnds, Peer, PublisherNumber, Refusal, Table, ALL_ENDS};

/// One line for each answer, as the program prints it.
struct Lines(Vec<String>);

impl Lines {
    fn add(&mut self, answer: Result<String, Refusal>) {
        let line = answer.unwrap_or_else(|refusal| format!("no {}", refusal.number()));
        self.0.push(line);
    }

    fn ask(&mut self, table: &mut Table, link: u8, number: i64, publisher: u8) {
        let asked = table.ask(link, FrontNumber(number), publisher);
        self.add(asked.map(|number| format!("ask {}", number.0)));
    }

    fn reply(&mut self, table: &mut Table, publisher: u8, number: i64) {
        let replied = table.reply(publisher, PublisherNumber(number));
        self.add(replied.map(|(link, number)| format!("reply {link} {}", number.0)));
    }

    fn cancel(&mut self, table: &mut Table, link: u8, number: i64) {
        let cancelled = table.cancel(link, FrontNumber(number));
        self.add(cancelled.map(|(publisher, number)| format!("cancel {publisher} {}", number.0)));
    }

    /// The program has a word for either side.
    fn gone(&mut self, table: &mut Table, peer: Peer) {
        let mut out = [0; ALL_ENDS];
        let ends = table.gone(peer, &mut out);
        let ends = ends.expect("a link or publisher in range, and room for all ends");
        let count = ends.len();
        let (word, ends): (&str, Vec<(u8, i64)>) = match ends {
            OtherEnds::Publishers(ends) => ("closed", ends.map(|(p, n)| (p, n.0)).collect()),
            OtherEnds::Fronts(ends) => ("lost", ends.map(|(link, n)| (link, n.0)).collect()),
        };
        self.0.push(format!("{word} {count}"));
        self.0
            .extend(ends.iter().map(|(other, n)| format!("drop {other} {n}")));
    }
}

#[test]
fn the_example_of_the_program() {
    let mut table = Table::new(PublisherNumber(1)).unwrap();
    let mut lines = Lines(Vec::new());
    lines.ask(&mut table, 3, 77, 0);
    lines.ask(&mut table, 3, 77, 1);
    lines.ask(&mut table, 4, 77, 0);
    lines.reply(&mut table, 0, 2);
    lines.reply(&mut table, 0, 2);
    lines.cancel(&mut table, 3, 77);
    lines.ask(&mut table, 3, 77, 0);
    lines.ask(&mut table, 3, 0, 0);
    lines.gone(&mut table, Peer::Publisher(0));
    lines.gone(&mut table, Peer::Front(3));
    let expected = "ask 1\nno 31\nask 2\nreply 4 77\nno 34\ncancel 0 1\nask 3\nno 12\nlost 1\ndrop 3 77\nclosed 0";
    assert_eq!(lines.0.join("\n"), expected);
}

/// Asks `count` more for a publisher, each from link 0 with a new number.
fn fill(table: &mut Table, publisher: u8, count: i64, from: i64) {
    for number in from..from + count {
        table.ask(0, FrontNumber(number), publisher).unwrap();
    }
}

#[test]
fn loads_16_16_12_and_the_reserve() {
    let mut table = Table::new(PublisherNumber(i64::MAX)).unwrap();
    fill(&mut table, 0, 16, 100);
    fill(&mut table, 1, 16, 200);
    fill(&mut table, 2, 12, 300);
    let ask =
        |table: &mut Table, number, publisher| table.ask(0, FrontNumber(number), publisher).err();
    assert_eq!(ask(&mut table, 1, 0), Some(Refusal::LOAD_AT_LIMIT));
    assert_eq!(ask(&mut table, 1, 2), Some(Refusal::CAPACITY_GONE));
    fill(&mut table, 3, 4, 400);
    assert_eq!(ask(&mut table, 404, 3), Some(Refusal::CAPACITY_GONE));
    // After the largest number comes 1.
    let cancelled = table.cancel(0, FrontNumber(101)).unwrap();
    assert_eq!(cancelled, (0, PublisherNumber(1)));
    assert_eq!(ask(&mut table, 404, 3), None);
}

#[test]
fn out_of_range() {
    let refused = Table::new(PublisherNumber(0)).err();
    assert_eq!(refused, Some(Refusal::OUT_OF_RANGE));
    let mut table = Table::new(PublisherNumber(1)).unwrap();
    let refused = table.ask(32, FrontNumber(0), 0).err();
    assert_eq!(refused, Some(Refusal::OUT_OF_RANGE));
    let refused = table.reply(8, PublisherNumber(0)).err();
    assert_eq!(refused, Some(Refusal::OUT_OF_RANGE));
    for peer in [Peer::Front(32), Peer::Publisher(8)] {
        let refused = table.gone(peer, &mut []).err();
        assert_eq!(refused, Some(Refusal::OUT_OF_RANGE));
    }
}
