//! A key of a removed value, and inserts until it is returned again.
use crate::caller::Caller;

/// How many inserts it took until one returned the old key, if any did.
fn inserts_until_again(caller: &mut impl Caller, most: u64) -> Option<u64> {
    let old = caller.insert(0);
    caller.remove(old);
    let again = (1..=most).find(|&value| {
        let key = caller.insert(value);
        if key != old {
            caller.remove(key);
        }
        key == old
    });
    caller.load(old);
    again
}

pub fn play<C: Caller>(callers: Vec<C>, inserts: u64) -> String {
    let mut callers = callers.into_iter();
    let mut caller = callers.next().expect("there is one caller");
    match inserts_until_again(&mut caller, inserts) {
        Some(again) => format!("; the key was used again by insert {again} after its removal\n"),
        None => format!("; the key was not used again by {inserts} inserts after its removal\n"),
    }
}
