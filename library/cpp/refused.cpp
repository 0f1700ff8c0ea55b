// What the compiler must refuse. Each line that ends in `//~ TEXT` must have an error in which this text is, if it is
// compiled with the other lines but without the rest of these: library/cpp/refused.py tries them one by one.
#include "shardheap.hpp"

#include <optional>
#include <string>
#include <utility>

struct owns_memory {
    std::string text;
};
struct too_long {
    char bytes[129];
};

void tables(gearlongan::table<double> &numbers, gearlongan::table<float> &others, gearlongan::key_of<double> half);
void tables(gearlongan::table<double> &numbers, gearlongan::table<float> &others, gearlongan::key_of<double> half) {
    // A key is of the table's type, and no number.
    (void)others.get(half); //~ no
    others.remove(half); //~ no
    (void)numbers.get(gearlongan::key(5)); //~ no
    (void)numbers.get(5); //~ no
    (void)(half == gearlongan::key_of<float>(5)); //~ operator==

    gearlongan::table<double> copy = numbers; //~ deleted
    gearlongan::table<owns_memory> texts; //~ a record is a trivially copyable type
    gearlongan::table<too_long> longs; //~ a record is a trivially copyable type
    numbers.insert(0.5); //~ nodiscard
    numbers.take(half); //~ nodiscard
    numbers.get(half); //~ nodiscard
    numbers.try_remove(half); //~ nodiscard

    // Several threads call what is const and what is not. A const table does not change.
    const gearlongan::table<double> &constant = numbers;
    (void)constant.get(half), (void)constant.contains(half), (void)constant.size();
    (void)constant.begin();
    constant.begin()->record = 0.5; //~ read-only
    constant.remove_if([](auto, double) { return true; }); //~ const
    constant.remove(half); //~ const
    constant.on_end([](auto, double) {}); //~ const
    numbers.on_end([](gearlongan::key_of<float>, double) {}); //~ no
    numbers.on_end(5); //~ no
    numbers.try_on_end([](auto, double) {}); //~ nodiscard
    (void)constant.insert(0.5); //~ const
    (void)constant.take(half); //~ const
    (void)others;
}

void refused(gearlongan::heap &heap, gearlongan::pass &pass, gearlongan::shard &shard, const gearlongan::key key);
void refused(gearlongan::heap &heap, gearlongan::pass &pass, gearlongan::shard &shard, const gearlongan::key key) {
    gearlongan::guard guard = pass.get(key);
    gearlongan::receipt receipt = pass.receipt();
    std::optional<gearlongan::ended> told;

    // A hook takes a key and words, and a refusal is looked at.
    pass.on_end([](gearlongan::key_of<double>, gearlongan::words_view) {}); //~ no
    pass.try_remove(key, told); //~ nodiscard
    pass.take(key, told); //~ nodiscard
    (void)pass.take(key, told);

    // Handles are not copied.
    gearlongan::heap another = heap; //~ deleted
    gearlongan::pass copy = pass; //~ deleted
    gearlongan::shard owner = shard; //~ deleted
    gearlongan::guard hold = guard; //~ deleted
    gearlongan::receipt second = receipt; //~ deleted
    pass.heed(receipt); //~ heed
    pass = shard.get(key); //~ no
    heap = *&heap; //~ deleted

    // A pass does not become a shard, nor a shard a pass, except by an adopt and a leave.
    gearlongan::shard made(std::move(pass)); //~ no matching
    gearlongan::pass unmade(std::move(shard)); //~ no matching
    gearlongan::reader both(std::move(pass)); //~ protected
    pass.insert({7, 8}); //~ no member
    (void)pass.slots_out(); //~ no member
    gearlongan::shard adopted = pass.adopt(0); //~ adopt
    gearlongan::pass left = shard.leave(); //~ leave

    // A guard does not outlive the expression that its pass is in.
    gearlongan::guard late = heap.take().get(key); //~ get
    gearlongan::guard later = heap.take().find(key); //~ find

    // Nor does a range of keys outlive that of its heap, its shard or its pass.
    (void)heap.share().keys(); //~ keys
    (void)gearlongan::key_range(); //~ no matching
    (void)heap.take().adopt(0).keys(); //~ keys
    (void)heap.take().walk(); //~ walk

    // What must not be dropped.
    pass.get(key); //~ nodiscard
    pass.find(key); //~ nodiscard
    pass.take(key); //~ nodiscard
    pass.take_record<double>(key); //~ nodiscard
    pass.receipt(); //~ nodiscard
    pass.try_heed(receipt); //~ nodiscard
    shard.pages_left(); //~ nodiscard
    shard.slots_out(); //~ nodiscard
    heap.keys(); //~ nodiscard
    shard.keys(); //~ nodiscard
    shard.walk(); //~ nodiscard
    heap.take(); //~ nodiscard
    std::move(pass).adopt(0); //~ nodiscard
    std::move(shard).leave(); //~ nodiscard
    pass.try_remove(key); //~ nodiscard
    shard.insert({7, 8}); //~ nodiscard
    gearlongan::heap::open(gearlongan::layout::wide, {1, 1, 1}); //~ nodiscard

    // Keys are no numbers, and records no others than those that are plain bytes.
    pass.load(5); //~ no
    std::uint64_t number = key; //~ no
    shard.insert_record(owns_memory{}); //~ a record is a trivially copyable type
    shard.insert_record(too_long{}); //~ a record is a trivially copyable type
    pass.load_record<std::string>(key); //~ a record is a trivially copyable type
    (void)pass.take_record<std::string>(key); //~ a record is a trivially copyable type
    guard.record<too_long>(); //~ a record is a trivially copyable type

    // Calls on a handle are not const: they are not for several threads at once.
    const gearlongan::pass &constant = pass;
    constant.load(key); //~ const
    constant.remove(key); //~ const
    (void)constant.take(key); //~ const
    (void)constant.receipt(); //~ const
    (void)static_cast<const gearlongan::shard &>(shard).slots_out(); //~ const
    (void)static_cast<const gearlongan::heap &>(heap).keys(); //~ const
    (void)static_cast<const gearlongan::shard &>(shard).keys(); //~ const
    (void)constant.walk(); //~ const
    (void)constant, (void)heap, (void)shard;

    // Those that look at a heap are const, and for several threads at once. Those that change what others find are not.
    const gearlongan::heap &looked_at = heap;
    const gearlongan::growing_heap growing;
    (void)looked_at.passes(), (void)looked_at.capacity(1), (void)looked_at.bytes(), (void)looked_at.layout_of();
    (void)growing.chunks(), (void)growing.capacity(1), (void)growing.bytes(), (void)growing.passes();
    (void)looked_at.take(); //~ const
    (void)looked_at.share(); //~ const
    looked_at.gather(); //~ const
    (void)growing.take(); //~ const
    looked_at.capacity(1); //~ nodiscard
}
