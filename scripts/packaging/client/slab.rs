//! A program over `sharded-slab`, which a patch replaces, and over `gearlongan`.
fn main() {
    assert!(gearlongan::Heap::open(gearlongan::Layout::Tiny, gearlongan::Shape { shards: 1, segments: 1, passes: 1 })
        .is_ok());
    let slab = sharded_slab::Slab::new();
    let key = slab.insert(String::from("a value")).expect("there is room");
    assert_eq!(slab.get(key).expect("the key is live").as_str(), "a value");
    assert!(slab.remove(key) && !slab.contains(key));
    println!("slab: inserted, got and removed");
}
