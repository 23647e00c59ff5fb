//! What is cleared, and what is not shown.

use crate::parts::derivation;
use relay::keys::{clear, derive};
use relay::Side;

#[test]
fn what_is_cleared() {
    let mut buf = [0xee; 200];
    let mut what = derivation(2, Side::Client);
    let mut keys = derive(&mut buf, &what, b"key").unwrap();
    keys.clear();
    assert_eq!((keys.key, keys.vector), ([0; 32], [0; 16]));
    assert_eq!(buf[..121], [0; 121]);
    assert_eq!(buf[121..], [0xee; 79]);
    clear(&mut what.shared);
    assert_eq!(what.shared, [0; 32]);
}

#[test]
fn clearing_goes_by_the_slice() {
    for (from, to) in [(0, 0), (0, 100), (7, 7), (7, 8), (7, 57), (99, 100)] {
        let mut buf = [0xee; 100];
        clear(&mut buf[from..to]);
        let is_zero = |at: usize| (from..to).contains(&at);
        assert!((0..100).all(|at| buf[at] == if is_zero(at) { 0 } else { 0xee }));
    }
    clear(&mut []);
}

#[test]
fn no_secret_is_shown() {
    let what = derivation(2, Side::Client);
    let mut buf = [0; 200];
    let keys = derive(&mut buf, &what, b"key").unwrap();
    assert_eq!(format!("{keys:?}"), "Keys { .. }");
    let shown = format!("{what:?}");
    assert!(shown.ends_with("port: 6940 } }, .. }"), "{shown}");
}
