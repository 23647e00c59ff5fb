//! Requests without a timeout in the forms that no writer here uses: a front end
//! whose user set nothing fills in 0 (document 02, A1), or sends an extra that
//! has no field. The extra stands with the actor, before it or behind it.

use reference::message::values::{
    DEST_ACTOR, DEST_ACTOR_FLAGS, DEST_FLAGS, TIMEOUT_BIT, TL2_MARKER,
};
use reference::message::Invoke;

/// All such bodies of `invoke`; whether they have a field comes with each.
pub fn forms(invoke: &Invoke<&[u8]>) -> Vec<(bool, Vec<u8>)> {
    assert_eq!(invoke.timeout, None);
    let number = invoke.number.to_le_bytes();
    let marker = words(if invoke.tl2 { &[TL2_MARKER] } else { &[] });
    let mut forms = Vec::new();
    for (has_field, extra) in [(true, &[TIMEOUT_BIT, 0][..]), (false, &[0])] {
        for headers in headers(invoke.actor, &words(extra)) {
            let body = [&number, &headers[..], &marker, invoke.payload].concat();
            forms.push((has_field, body));
        }
    }
    forms
}

fn headers(actor: Option<i64>, extra: &[u8]) -> Vec<Vec<u8>> {
    let flags = [&words(&[DEST_FLAGS]), extra].concat();
    let Some(actor) = actor.map(i64::to_le_bytes) else {
        return vec![flags];
    };
    let alone = [&words(&[DEST_ACTOR]), &actor[..]].concat();
    let together = [&words(&[DEST_ACTOR_FLAGS]), &actor[..], extra].concat();
    let before = [&flags[..], &alone].concat();
    let behind = [&alone[..], &flags].concat();
    vec![together, before, behind]
}

fn words(words: &[u32]) -> Vec<u8> {
    words.iter().flat_map(|word| word.to_le_bytes()).collect()
}
