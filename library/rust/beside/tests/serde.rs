//! Keys as formats of serde write and read them.
use gearlongan::table::Key;
use serde::{Deserialize, Serialize};
use std::collections::HashMap;

#[derive(Debug, Deserialize, PartialEq, Serialize)]
struct Login {
    session: Key<u32>,
    before: Option<Key<u32>>,
}

fn key(bits: u64) -> Key<u32> {
    Key::from_bits(bits).expect("it is not 0")
}

#[test]
fn a_format_that_people_read_has_the_text_of_a_key() {
    let login = Login { session: key(u64::MAX), before: None };
    let text = r#"{"session":"18446744073709551615","before":null}"#;
    assert_eq!(serde_json::to_string(&login).expect("it is written"), text);
    assert_eq!(serde_json::from_str::<Login>(text).expect("it is read"), login);
}

#[test]
fn keys_are_keys_of_a_map() {
    let map = HashMap::from([(key(4096), "one")]);
    assert_eq!(serde_json::to_string(&map).expect("it is written"), r#"{"4096":"one"}"#);
    assert_eq!(serde_json::from_str::<HashMap<_, _>>(r#"{"4096":"one"}"#).expect("it is read"), map);
}

#[test]
fn other_formats_have_its_number() {
    assert_eq!(bincode::serialize(&key(4096)).expect("it is written"), [0, 16, 0, 0, 0, 0, 0, 0]);
    assert_eq!(bincode::deserialize::<Key<u32>>(&[0, 16, 0, 0, 0, 0, 0, 0]).expect("it is read"), key(4096));
}

#[test]
fn what_is_no_key_is_refused() {
    for text in [r#""0""#, r#""""#, r#""-1""#, r#""18446744073709551616""#, "4096", "null"] {
        assert!(serde_json::from_str::<Key<u32>>(text).is_err(), "{text}");
    }
    assert!(bincode::deserialize::<Key<u32>>(&[0; 8]).is_err());
}
