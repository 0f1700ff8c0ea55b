//! Records of types that are plain data.
use bytemuck::{Pod, Zeroable};
use gearlongan::{Error, Plain, Record, Table, Value};

#[derive(Clone, Copy, Debug, PartialEq)]
#[repr(C)]
struct Entity {
    place: [f32; 3],
    kind: u16,
    flags: [u8; 5],
    team: u8,
}

// SAFETY: zeros are an entity.
unsafe impl Zeroable for Entity {}

// SAFETY: its 20 bytes are those of its fields, all bits of which are values, and it has no padding.
unsafe impl Pod for Entity {}

#[test]
fn a_record_has_the_bytes_of_its_type_and_zeros_behind() {
    let entity = Entity { place: [1.0, 2.0, -1.0], kind: 0x0201, flags: [3, 4, 5, 6, 7], team: 8 };
    // (1.0 is 0x3f800000, 2.0 is 0x40000000 and -1.0 is 0xbf800000)
    let value = Value::of(&Plain(entity));
    assert_eq!(value, [0x4000_0000_3f80_0000, 0x0403_0201_bf80_0000, 0x0807_0605]);
    assert_eq!(value.record(), Ok(Plain(entity)));
}

#[test]
fn words_of_another_record_are_none() {
    assert_eq!(Value::of(&[1u64, 2, 1 << 32]).record::<Plain<Entity>>(), Err(Error::WrongKind));
    assert_eq!(Value::of(&[1u64, 2]).record::<Plain<Entity>>(), Err(Error::WrongKind));
    assert_eq!(Plain::<[u8; 3]>::read(&[1 << 24]), None);
    assert_eq!(Plain::<[u8; 3]>::read(&[(1 << 24) - 1]), Some(Plain([255; 3])));
}

#[test]
fn a_type_has_as_many_words_as_it_fills() {
    assert_eq!(Value::of(&Plain([0u8; 0])), []);
    assert_eq!((Plain::<u8>::WORDS, Plain::<[u8; 8]>::WORDS, Plain::<[u8; 9]>::WORDS), (1, 1, 2));
    let all = Plain([u8::MAX; 128]);
    assert_eq!(Value::of(&all), [u64::MAX; 16]);
    assert_eq!(Value::of(&all).record(), Ok(all));
}

#[test]
fn a_record_writes_all_of_its_words() {
    let mut words = [u64::MAX; 2];
    Plain([0u8; 9]).write(&mut words);
    assert_eq!(words, [0; 2]);
    // Among others.
    assert_eq!(Value::of(&(7u64, Plain([1u8; 3]), 8u64)), [7, 0x01_0101, 8]);
}

#[test]
fn a_table_has_them() -> Result<(), Error> {
    let table = Table::new();
    let entity = Entity { place: [0.5; 3], kind: 7, flags: [0; 5], team: 1 };
    let key = table.insert(&Plain(entity))?;
    assert_eq!((table.get(key), table.take(key), table.get(key)), (Some(Plain(entity)), Some(Plain(entity)), None));
    Ok(())
}
