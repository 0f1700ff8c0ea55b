// What passes, shards and callers have in common. A part of shardheap.hpp, which says what holds of all.
#ifndef GEARLONGAN_READERS_HPP
#define GEARLONGAN_READERS_HPP

#include "gearlongan/ended.hpp"
#include "gearlongan/keys.hpp"
#include "gearlongan/ranges.hpp"
#include "gearlongan/receipts.hpp"
#include "gearlongan/values.hpp"

#include <cstddef>
#include <cstdint>
#include <optional>
#include <thread>
#include <utility>

namespace gearlongan {

class guard;
class pass;
class shard;

/// What a pass, a shard and a caller have in common: any key may be held, read, removed and taken. A function that
/// takes a `reader &` takes each of them. The refusals of all calls here include errc::empty.
class reader : public detail::ending {
public:
    reader(const reader &) = delete;
    reader &operator=(const reader &) = delete;

    // (with those forms that write which key they ended)
    using detail::ending::try_release;
    using detail::ending::try_remove;
    using detail::ending::try_take;
#if defined(__cpp_exceptions)
    using detail::ending::remove;
    using detail::ending::take;
#endif

    /// Takes a hold on a key into an empty guard, so that its value stays readable. A pass has at most 16 holds, also
    /// several on one key. bad_key, holds_full, gone, crowded; occupied, if the guard is not empty.
    ///
    ///     gearlongan::guard guard;
    ///     if (pass.try_get(key, guard) == gearlongan::errc::ok) guard.reset();
    errc try_get(key of, guard &into) & noexcept;
    errc try_get(key of, guard &into, std::optional<ended> &told) & noexcept;

    /// Copies the value of a key, and takes no hold. It writes nothing to shared memory if the key has a value or was
    /// removed. bad_key, gone; holds_full and crowded come only of a key whose insert the pass neither made nor heard
    /// of by a receipt.
    ///
    ///     gearlongan::value value;
    ///     assert(pass.try_load(key, value) == gearlongan::errc::ok);
    inline errc try_load(key of, value &into) noexcept {
        return load_words(of, into.words_, value::max_size(), into.size_);
    }

    /// Loads each key of a batch, in order, and writes what its load returned beside it. A load that is refused stops
    /// nothing. In a heap of a fixed shape the waits for the memory of eight keys overlap. Whether a batch is faster
    /// than its loads one by one depends on the processor, and on how many values there are.
    ///
    ///     std::vector<gearlongan::loaded> batch = {gearlongan::loaded(key), gearlongan::loaded()};
    ///     assert(pass.try_load_each(batch.data(), batch.size()) == gearlongan::errc::ok);
    ///     assert(batch[0].view() == pass.load(key)->view());
    ///     assert(batch[1].code() == gearlongan::errc::bad_key && batch[1].view().empty());
    errc try_load_each(loaded *batch, std::size_t count) noexcept {
        if (has_hook()) return load_one_by_one(batch, count);
        return static_cast<errc>(shardheap_load_each(&raw_, batch, count));
    }

    /// Copies the value of a key as a record. wrong_size, and those of a load.
    ///
    ///     std::array<std::uint64_t, 2> pair;
    ///     assert(pass.try_load_record(key, pair) == gearlongan::errc::ok);
    template <class T> errc try_load_record(key of, T &into) noexcept {
        std::uint64_t words[detail::words_of<T>];
        const errc code = load_record_words<T>(of, words);
        if (code == errc::ok) std::memcpy(static_cast<void *>(&into), words, sizeof(T));
        return code;
    }

    /// Removes a key: no later get finds it, and its value stays until the last hold goes. bad_key, gone.
    ///
    ///     assert(pass.try_remove(key) == gearlongan::errc::ok);
    errc try_remove(key of) noexcept {
        if (has_hook()) return hooked(shardheap_remove_ended, of);
        return static_cast<errc>(shardheap_remove(&raw_, of.number()));
    }

    /// Takes the value of a key: a get, a read, a remove and a release in one. Of all calls that remove one key,
    /// exactly one is ok. bad_key, holds_full, gone, crowded.
    ///
    ///     gearlongan::value value;
    ///     assert(pass.try_take(key, value) == gearlongan::errc::ok && value.size() == 2);
    ///     assert(pass.try_take(key, value) == gearlongan::errc::gone);
    inline errc try_take(key of, value &into) noexcept {
        if (has_hook()) return hooked_take(of, into);
        return static_cast<errc>(
            shardheap_take_value(&raw_, of.number(), into.words_, value::max_size(), &into.size_));
    }

    /// Takes the value of a key as a record, by a load and a removal. wrong_size, after which the key is as it was, and
    /// those of a load.
    ///
    ///     double number = 0;
    ///     assert(pass.try_take_record(key, number) == gearlongan::errc::wrong_size && pass.load(key));
    template <class T> errc try_take_record(key of, T &into) noexcept {
        std::uint64_t words[detail::words_of<T>];
        errc code = load_record_words<T>(of, words);
        // (the value of a key does not change, so that the call that removes it has the value)
        if (code == errc::ok) code = try_remove(of);
        if (code == errc::ok) std::memcpy(static_cast<void *>(&into), words, sizeof(T));
        return code;
    }

    /// Finds the first live key of the heap at a place or behind it, with its value. Places are numbers of slots over
    /// the whole heap, and `place` becomes the one behind that of the key. A walk is a loop that begins at place 0. It
    /// meets the live keys in the order of their places, each place once. A key that is live from its begin to its end
    /// is met; one that is inserted or removed meanwhile is met or not, and a key that is met was live at that moment.
    /// It takes no hold. no_key, if no key is met.
    ///
    ///     std::uint64_t place = 0;
    ///     gearlongan::live_key met;
    ///     assert(pass.try_next_live(place, met) == gearlongan::errc::ok && met.key == key && met.value[1] == 8);
    ///     assert(pass.try_next_live(place, met) == gearlongan::errc::no_key);
    errc try_next_live(std::uint64_t &place, live_key &into) noexcept {
        shardheap_live_key met; // NOLINT(cppcoreguidelines-pro-type-member-init,hicpp-member-init)
        const auto code = static_cast<errc>(shardheap_next_live(&raw_, place, UINT64_MAX, &met));
        if (code != errc::ok) return code;
        place = met.behind;
        into.key = gearlongan::key(met.key);
        into.value.fill({met.words, static_cast<std::size_t>(met.length)});
        return code;
    }

    /// Walks over all keys, and removes each key for which `predicate` is true and that nobody else removed. It writes
    /// to `removed` how many it removed. `predicate` is called with a gearlongan::key and a const gearlongan::value &,
    /// and makes no call of this pass.
    ///
    ///     std::uint64_t removed = 0;
    ///     const auto is_seven = [](gearlongan::key, const gearlongan::value &value) { return value[0] == 7; };
    ///     assert(pass.try_remove_if(is_seven, removed) == gearlongan::errc::ok && removed == 1);
    template <class Predicate> errc try_remove_if(Predicate &&predicate, std::uint64_t &removed) {
        live_key met;
        std::uint64_t place = 0, count = 0;
        errc code = try_next_live(place, met);
        for (; code == errc::ok; code = try_next_live(place, met))
            if (predicate(met.key, std::as_const(met.value)) && try_remove(met.key) == errc::ok) count++;
        if (code != errc::no_key) return code;
        removed = count;
        return errc::ok;
    }

    /// Makes a receipt into an empty one. It covers all calls of this pass until now, and what the receipts cover that
    /// the pass heeded. memory; occupied, if `into` is not empty.
    ///
    ///     gearlongan::receipt receipt;
    ///     assert(shard.try_receipt(receipt) == gearlongan::errc::ok && receipt);
    errc try_receipt(gearlongan::receipt &into) noexcept {
        return static_cast<errc>(shardheap_receipt_make(&raw_, into.raw()));
    }

    /// Heeds a receipt that a pass of the same heap made, and empties it: all that it covers happens before the next
    /// calls of this pass. So a key whose insert it covers is gone only if a call removed it. empty, and a refusal of
    /// checked mode, leave the receipt as it was. taken, if it covers a chunk that this heap has not opened, so that it
    /// is of another growing heap: then the receipt is empty.
    ///
    ///     gearlongan::receipt receipt = shard.receipt();
    ///     assert(pass.try_heed(receipt) == gearlongan::errc::ok && !receipt);
    errc try_heed(gearlongan::receipt &from) noexcept {
        return static_cast<errc>(shardheap_heed(&raw_, from.raw()));
    }

    /// Gives back one hold that a guard left behind (guard::detach). not_held.
    ///
    ///     gearlongan::key held = pass.get(key).detach();
    ///     assert(pass.try_release(held) == gearlongan::errc::ok);
    errc try_release(key of) noexcept { return give_back(of); }

#if defined(__cpp_exceptions)
    /// Takes a hold on a key. It throws if the key is gone, too.
    ///
    ///     gearlongan::guard guard = pass.get(key);
    [[nodiscard]] guard get(key of) &;

    /// Takes a hold on a key. The guard is empty if the key is gone.
    ///
    ///     if (gearlongan::guard guard = pass.find(key)) assert(guard.read()[0] == 7);
    [[nodiscard]] guard find(key of) &;
    [[nodiscard]] guard find(key of, std::optional<ended> &told) &;

    /// Copies the value of a key, and takes no hold: nothing if the key is gone.
    ///
    ///     if (auto value = pass.load(key)) assert((*value)[0] == 7);
    [[nodiscard]] inline std::optional<value> load(key of) {
        std::optional<value> loaded(std::in_place);
        if (!detail::found(try_load(of, *loaded))) loaded.reset();
        return loaded;
    }

    /// Copies the value of a key into one that is there. Whether the key was there; if not, the value is as it was.
    ///
    ///     gearlongan::value value;
    ///     while (pass.load(key, value)) pass.remove(key);
    bool load(key of, value &into) { return detail::found(try_load(of, into)); }

    /// Loads each key of a batch, which has data() and size(), such as a std::vector or a std::array.
    ///
    ///     std::array<gearlongan::loaded, 1> batch = {gearlongan::loaded(key)};
    ///     pass.load_each(batch);
    ///     for (const gearlongan::loaded &one : batch) assert(one && one.view().size() == 2);
    template <class Batch> void load_each(Batch &batch) {
        detail::check(try_load_each(std::data(batch), std::size(batch)));
    }

    /// Copies the value of a key as a record: nothing if the key is gone. It throws wrong_size, too.
    ///
    ///     auto pair = pass.load_record<std::array<std::uint64_t, 2>>(key);
    ///     assert(pair && pair->at(1) == 8);
    template <class T> [[nodiscard]] std::optional<T> load_record(key of) {
        value words;
        if (!load(of, words)) return std::nullopt;
        std::optional<T> record = words.as<T>();
        if (!record) detail::refuse(errc::wrong_size);
        return record;
    }

    /// Removes a key, and returns whether this call removed it.
    ///
    ///     assert(pass.remove(key) && !pass.remove(key));
    bool remove(key of) { return detail::found(try_remove(of)); }

    /// Takes the value of a key: nothing if the key is gone. So of all calls that take or remove it, one alone has it.
    ///
    ///     auto value = pass.take(key);
    ///     assert(value && value->size() == 2 && !shard.take(key));
    [[nodiscard]] inline std::optional<value> take(key of) {
        std::optional<value> taken(std::in_place);
        if (!detail::found(try_take(of, *taken))) taken.reset();
        return taken;
    }

    /// Takes the value of a key into one that is there. Whether the key was there; if not, the value is as it was.
    ///
    ///     gearlongan::value value;
    ///     while (pass.take(key, value)) assert(value[0] == 7);
    bool take(key of, value &into) { return detail::found(try_take(of, into)); }

    /// Takes the value of a key as a record: nothing if the key is gone. It throws wrong_size, too: then the key is as
    /// it was.
    ///
    ///     auto pair = pass.take_record<std::array<std::uint64_t, 2>>(key);
    ///     assert(pair && pair->at(1) == 8 && !pass.load(key));
    template <class T> [[nodiscard]] std::optional<T> take_record(key of) {
        std::optional<T> record = load_record<T>(of);
        if (record && !remove(of)) record.reset();
        return record;
    }

    /// The live keys of the heap with their values, as try_next_live meets them.
    ///
    ///     for (const auto &[met, value] : pass.walk()) assert(met == key && value[1] == 8);
    [[nodiscard]] live_range walk() & noexcept { return live_range(*this); }

    /// Removes each key for which `predicate` is true, as try_remove_if does, and returns how many.
    ///
    ///     assert(pass.remove_if([](gearlongan::key, const gearlongan::value &value) { return value[0] == 7; }) == 1);
    ///     assert(!pass.load(key));
    template <class Predicate> std::uint64_t remove_if(Predicate &&predicate) {
        std::uint64_t removed = 0;
        detail::check(try_remove_if(predicate, removed));
        return removed;
    }

    /// Makes a receipt, which covers all calls of this pass until now.
    ///
    ///     gearlongan::receipt receipt = shard.receipt();
    [[nodiscard]] gearlongan::receipt receipt() {
        gearlongan::receipt made;
        detail::check(try_receipt(made));
        return made;
    }

    /// Heeds a receipt, and empties it. After a refusal, except taken, it is as it was.
    ///
    ///     pass.heed(shard.receipt());
    ///     assert(pass.load(key));
    void heed(gearlongan::receipt &&from) { detail::check(try_heed(from)); }
#endif

    /// Whether there is a pass here: false if it is empty.
    [[nodiscard]] explicit operator bool() const noexcept { return raw_.full; }

    /// The handle, for a call of shardheap.h that this header does not have. It stays the property of this object.
    ///
    ///     assert(shardheap_remove(pass.raw(), key.number()) == SHARDHEAP_OK);
    [[nodiscard]] shardheap_pass *raw() noexcept { return &raw_; }

    /// Loses the pass (shardheap_pass_lose), with its holds and its shard: the heap has one pass less for good. It is
    /// for a pass that should not come home, as one with a shard that it cannot leave.
    ///
    ///     pass.lose();
    ///     assert(!pass);
    void lose() noexcept {
        unguarded();
        on_end_.reset();
        shardheap_pass_lose(&raw_);
    }

protected:
    reader() noexcept = default;
    reader(reader &&other) noexcept {
        if (other.unguarded()) take_over(other);
    }
    reader &operator=(reader &&other) noexcept {
        if (this == &other || !other.unguarded()) return *this;
        close();
        take_over(other);
        return *this;
    }
    ~reader() { close(); }

    // Brings the pass home, once it has left the shard that it may own. Loses it if it cannot leave. (In a growing heap
    // the close leaves the shards, and is waiting if that is.)
    void close() noexcept {
        unguarded();
        on_end_.reset();
        for (int tries = 0; tries < 1000; tries++) {
            const std::uint32_t code = shardheap_pass_close(&raw_);
            if (code != SHARDHEAP_OWNS && code != SHARDHEAP_WAITING) return;
            if (shardheap_leave(&raw_) == SHARDHEAP_WAITING) std::this_thread::yield();
        }
        shardheap_pass_lose(&raw_);
    }

private:
    friend class guard;
    friend class pass;
    friend class shard;

    // Moves the pass of another one, with its hook. (This has none.)
    void take_over(reader &other) noexcept {
        detail::shift(other.raw_, raw_);
        on_end_ = std::move(other.on_end_);
    }

    [[gnu::cold, gnu::noinline]] errc load_one_by_one(loaded *batch, std::size_t count) noexcept {
        if (!raw_.full || !batch) return static_cast<errc>(shardheap_load_each(&raw_, batch, count));
        for (loaded *it = batch; it != batch + count; ++it) {
            shardheap_loaded *one = it;
            one->code = static_cast<std::uint32_t>(load_by_hold(it->key(), one->words, value::max_size(), one->length));
        }
        return errc::ok;
    }
    // (wrong_size, if the value has another number of words than the record)
    template <class T> errc load_record_words(key of, std::uint64_t *words) noexcept {
        static_assert(is_record_v<T>, "a record is a trivially copyable type of at most 128 bytes");
        std::uint64_t size = 0;
        const errc code = load_words(of, words, detail::words_of<T>, size);
        const bool other = code == errc::too_short || (code == errc::ok && size != detail::words_of<T>);
        return other ? errc::wrong_size : code;
    }
#ifdef SHARDHEAP_CHECKED
    void count_guard(bool more) noexcept { more ? guards_++ : guards_--; }
    [[nodiscard]] bool is_guarded() const noexcept { return guards_ != 0; }
    std::uint32_t guards_ = 0;
#else
    void count_guard(bool) noexcept {}
    [[nodiscard]] static bool is_guarded() noexcept { return false; }
#endif
    // Whether no guard uses the pass. Checked mode alone finds that one does, and says so.
    bool unguarded() const noexcept {
        if (is_guarded()) SHARDHEAP_ON_MISUSE(SHARDHEAP_BUSY);
        return !is_guarded();
    }
};

} // namespace gearlongan

#endif
