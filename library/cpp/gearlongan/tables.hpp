// Tables of records that any thread uses, without a pass. A part of shardheap.hpp, which says what holds of all.
#ifndef GEARLONGAN_TABLES_HPP
#define GEARLONGAN_TABLES_HPP

#include "gearlongan/handles.hpp"
#include "gearlongan/keys.hpp"
#include "gearlongan/values.hpp"

#include <cstddef>
#include <cstdint>
#include <cstring>
#include <functional>
#include <iterator>
#include <memory>
#include <optional>
#include <utility>

namespace gearlongan {

/// What a table has room for as it opens, and how far it grows.
struct table_room {
    std::uint32_t threads = 2; ///< that insert at the same time, 1 to 64; each has room of its own
    std::uint64_t values = 1;  ///< of each of these threads, at least
    std::uint32_t chunks = 64; ///< in all, 1 to 256: an insert that finds no room opens another
};

/// A table of records of type R, which is trivially copyable and has at most 128 bytes. Any number of threads use one
/// object, at the same time, except that it is moved, closed and destroyed by one thread while no other uses it. The
/// head of shardheap_table.h says which calls take a lock or memory. The refusals of all calls here include
/// errc::empty.
///
///     auto numbers = gearlongan::table<double>::open();
///     const gearlongan::key_of<double> half = numbers.insert(0.5);
///     std::thread([&] { assert(numbers.get(half) == 0.5); }).join();
///     assert(numbers.take(half) == 0.5 && !numbers.get(half));    // from now on, for ever
template <class R> class [[nodiscard]] table : public detail::owned<shardheap_table> {
    static_assert(is_record_v<R>, "a record is a trivially copyable type of at most 128 bytes");

public:
    using key_type = key_of<R>;

    // (a user-provided one, as an empty table may be const)
    table() noexcept {} // NOLINT(modernize-use-equals-default)
    table(table &&) noexcept = default;
    table &operator=(table &&) noexcept = default;
    ~table() { this->close(); }

    /// Opens a table in this object, which is empty. occupied, memory; bad_shape, if a number is outside its limits or
    /// no first chunk has the room.
    ///
    ///     gearlongan::table<double> numbers;
    ///     assert(numbers.try_open({4, 10000, 257}) == gearlongan::errc::bad_shape);
    ///     assert(numbers.try_open() == gearlongan::errc::ok && numbers.size() == 0);
    errc try_open(table_room first = {}) noexcept {
        return static_cast<errc>(
            shardheap_table_open_for(raw(), first.threads, first.values, detail::words_of<R>, first.chunks));
    }

    /// Stores a record. memory, no_place; full, if the table has all its chunks and no place that it tried has room.
    ///
    ///     auto numbers = gearlongan::table<double>::open();
    ///     gearlongan::key_of<double> half;
    ///     assert(numbers.try_insert(0.5, half) == gearlongan::errc::ok);
    errc try_insert(const R &record, key_type &into) noexcept {
        std::uint64_t number = 0;
        const detail::record_words<R> value(record);
        const auto code = static_cast<errc>(shardheap_table_insert(raw(), value.words, detail::words_of<R>, &number));
        if (code == errc::ok) into = key_type(number);
        return code;
    }

    /// Copies a record. bad_key, gone, no_place.
    ///
    ///     auto numbers = gearlongan::table<double>::open();
    ///     double half = 0;
    ///     assert(numbers.try_get(numbers.insert(0.5), half) == gearlongan::errc::ok && half == 0.5);
    errc try_get(key_type of, R &into) const noexcept {
        words_read words;
        return words.copied(shardheap_table_get(raw(), of.number(), words.all, words.most, &words.length), into);
    }

    /// Whether a key has a record: ok if it has. bad_key, gone, no_place.
    ///
    ///     auto numbers = gearlongan::table<double>::open();
    ///     assert(numbers.try_contains(gearlongan::key_of<double>(~0ull)) == gearlongan::errc::bad_key);
    errc try_contains(key_type of) const noexcept {
        return static_cast<errc>(shardheap_table_contains(raw(), of.number()));
    }

    /// Removes a key: no later get finds it. Of all calls that remove or take it, exactly one is ok. bad_key, gone,
    /// no_place.
    ///
    ///     auto numbers = gearlongan::table<double>::open();
    ///     assert(numbers.try_remove(numbers.insert(0.5)) == gearlongan::errc::ok);
    errc try_remove(key_type of) noexcept { return static_cast<errc>(shardheap_table_remove(raw(), of.number())); }

    /// Copies a record, and removes its key. bad_key, gone, no_place.
    ///
    ///     auto numbers = gearlongan::table<double>::open();
    ///     double half = 0;
    ///     assert(numbers.try_take(numbers.insert(0.5), half) == gearlongan::errc::ok && numbers.size() == 0);
    errc try_take(key_type of, R &into) noexcept {
        words_read words;
        return words.copied(shardheap_table_take(raw(), of.number(), words.all, words.most, &words.length), into);
    }

    /// Meets the first key at a place or behind it, and copies its record. `place` becomes the one behind the key. A
    /// walk is a loop that begins at place 0. It meets the live keys in the order of their places, each place once. A
    /// key that is live from its begin to its end is met; one that is inserted or removed meanwhile is met or not, and
    /// a key that is met was live at that moment. Between two calls the walk has no place of the table and no lock.
    /// no_key, if no key is met; no_place.
    ///
    ///     auto numbers = gearlongan::table<double>::open();
    ///     const auto half = numbers.insert(0.5);
    ///     std::uint64_t place = 0;
    ///     gearlongan::key_of<double> met;
    ///     double number = 0;
    ///     assert(numbers.try_next(place, met, number) == gearlongan::errc::ok && met == half && number == 0.5);
    ///     assert(numbers.try_next(place, met, number) == gearlongan::errc::no_key);
    errc try_next(std::uint64_t &place, key_type &met, R &into) const noexcept {
        shardheap_live_key next; // NOLINT(cppcoreguidelines-pro-type-member-init,hicpp-member-init)
        const errc code = find_next(place, next);
        if (code != errc::ok) return code;
        met = key_type(next.key);
        std::memcpy(static_cast<void *>(&into), next.words, sizeof(R));
        return code;
    }

    /// Walks over all keys, and removes each for which `predicate` is true and that nobody else removed. It writes to
    /// `removed` how many it removed. `predicate` is called with a key and a const R &, and may call the table.
    /// no_place.
    ///
    ///     auto numbers = gearlongan::table<double>::open();
    ///     const auto half = numbers.insert(0.5);
    ///     std::uint64_t removed = 0;
    ///     const auto is_half = [](gearlongan::key_of<double>, double number) { return number == 0.5; };
    ///     assert(numbers.try_remove_if(is_half, removed) == gearlongan::errc::ok && removed == 1);
    ///     assert(numbers.try_contains(half) == gearlongan::errc::gone);
    template <class Predicate> errc try_remove_if(Predicate &&predicate, std::uint64_t &removed) {
        shardheap_live_key next; // NOLINT(cppcoreguidelines-pro-type-member-init,hicpp-member-init)
        std::uint64_t place = 0, count = 0;
        errc code = find_next(place, next);
        for (; code == errc::ok; code = find_next(place, next)) {
            detail::record_room<R> room;
            room.fill(next.words);
            const key_type met(next.key);
            if (predicate(met, std::as_const(room.record)) && try_remove(met) == errc::ok) count++;
        }
        removed = count;
        return code == errc::no_key ? errc::ok : code;
    }

    /// Has `hook` called with each key that ends from now on, and its record. It is called once for each key that is
    /// removed, by the thread whose call was the last to use the key, at the end of that call. The close calls it for
    /// each key that is left. It replaces the one before. No other call runs meanwhile. It throws nothing: otherwise
    /// the program ends. shardheap_table_on_end says what else holds of it.
    ///
    ///     auto numbers = gearlongan::table<double>::open();
    ///     double sum = 0;
    ///     const auto adds = [&sum](gearlongan::key_of<double>, double number) { sum += number; };
    ///     assert(numbers.try_on_end(adds) == gearlongan::errc::ok);
    ///     assert(numbers.remove(numbers.insert(0.5)) && sum == 0.5);
    ///     (void)numbers.insert(100);
    ///     numbers.close();
    ///     assert(sum == 100.5);
    errc try_on_end(std::function<void(key_type, const R &)> hook) {
        auto kept = std::make_unique<std::function<void(key_type, const R &)>>(std::move(hook));
        const auto code = static_cast<errc>(shardheap_table_on_end(raw(), ends, kept.get()));
        if (code == errc::ok) on_end_ = std::move(kept);
        return code;
    }

    /// Takes a place for this thread beforehand. Calls are served without it. memory, no_place.
    ///
    ///     auto numbers = gearlongan::table<double>::open();
    ///     assert(numbers.try_enter() == gearlongan::errc::ok);
    errc try_enter() noexcept { return static_cast<errc>(shardheap_table_enter(raw())); }

    /// Lets the place of this thread rest, for another thread to have it. no_place.
    ///
    ///     auto numbers = gearlongan::table<double>::open();
    ///     assert(numbers.try_rest() == gearlongan::errc::ok);
    errc try_rest() noexcept { return static_cast<errc>(shardheap_table_rest(raw())); }

    /// How many records there are: exact if no call runs, and otherwise off by at most the calls that run. 0 of an
    /// empty object.
    ///
    ///     auto numbers = gearlongan::table<double>::open();
    ///     const auto half = numbers.insert(0.5);
    ///     assert(numbers.size() == 1 && numbers.remove(half) && numbers.size() == 0);
    [[nodiscard]] std::uint64_t size() const noexcept { return shardheap_table_length(raw()); }

    /// How many records the open chunks have slots for. The table opens another chunk earlier if some threads fill
    /// their own room. 0 of an empty object.
    ///
    ///     auto numbers = gearlongan::table<double>::open();
    ///     assert(numbers.capacity() == 768);
    [[nodiscard]] std::uint64_t capacity() const noexcept {
        return shardheap_table_capacity(raw(), detail::words_of<R>);
    }

    /// How many bytes of memory the words of the open chunks take. The lists of owners and the places of threads take
    /// more. 0 of an empty object.
    ///
    ///     auto numbers = gearlongan::table<double>::open();
    ///     assert(numbers.bytes() == 24992);
    [[nodiscard]] std::uint64_t bytes() const noexcept { return shardheap_table_bytes(raw()); }

#if defined(__cpp_exceptions)
    /// Opens a table.
    ///
    ///     auto numbers = gearlongan::table<double>::open({4, 10000, 256});    // 10,000 numbers for each of 4 threads
    [[nodiscard]] static table open(table_room first = {}) {
        table opened;
        detail::check(opened.try_open(first));
        return opened;
    }

    /// Stores a record, and returns its key.
    ///
    ///     auto numbers = gearlongan::table<double>::open();
    ///     assert(numbers.insert(0.5) != numbers.insert(0.5));
    [[nodiscard]] key_type insert(const R &record) {
        key_type into;
        detail::check(try_insert(record, into));
        return into;
    }

    /// Copies a record: nothing if the key is gone.
    ///
    ///     auto numbers = gearlongan::table<double>::open();
    ///     if (auto half = numbers.get(numbers.insert(0.5))) assert(*half == 0.5);
    [[nodiscard]] std::optional<R> get(key_type of) const {
        detail::record_room<R> room;
        if (!detail::found(try_get(of, room.record))) return std::nullopt;
        return room.record;
    }

    /// Whether a key has a record.
    ///
    ///     auto numbers = gearlongan::table<double>::open();
    ///     assert(numbers.contains(numbers.insert(0.5)));
    [[nodiscard]] bool contains(key_type of) const { return detail::found(try_contains(of)); }

    /// Removes a key, and returns whether this call removed it.
    ///
    ///     auto numbers = gearlongan::table<double>::open();
    ///     const auto half = numbers.insert(0.5);
    ///     assert(numbers.remove(half) && !numbers.remove(half));
    bool remove(key_type of) { return detail::found(try_remove(of)); }

    /// Copies a record, and removes its key: nothing if the key is gone. So of all calls that take or remove it, one
    /// alone has it.
    ///
    ///     auto numbers = gearlongan::table<double>::open();
    ///     const auto half = numbers.insert(0.5);
    ///     assert(numbers.take(half) == 0.5 && !numbers.take(half));
    [[nodiscard]] std::optional<R> take(key_type of) {
        detail::record_room<R> room;
        if (!detail::found(try_take(of, room.record))) return std::nullopt;
        return room.record;
    }

    /// A key that a walk met, with a copy of its record.
    struct entry {
        key_type key;
        R record;
    };

    /// A walk, as an input iterator. It refers to the table, which is not moved or closed while it is used. A begin and
    /// an increment are a try_next, and throw what that refuses, except no_key: that is the end.
    class iterator {
    public:
        using iterator_category = std::input_iterator_tag;
        using value_type = entry;
        using difference_type = std::ptrdiff_t;
        using pointer = const entry *;
        using reference = const entry &;

        iterator() noexcept = default; ///< The end.
        [[nodiscard]] reference operator*() const noexcept { return *met_; }
        [[nodiscard]] pointer operator->() const noexcept { return &*met_; }
        iterator &operator++() {
            shardheap_live_key next; // NOLINT(cppcoreguidelines-pro-type-member-init,hicpp-member-init)
            const errc code = of_->find_next(place_, next);
            met_.reset();
            if (code == errc::no_key) {
                of_ = nullptr;
                place_ = 0;
                return *this;
            }
            detail::check(code);
            detail::record_room<R> room;
            room.fill(next.words);
            met_.emplace(entry{key_type(next.key), room.record});
            return *this;
        }
        iterator operator++(int) {
            iterator before = *this;
            ++*this;
            return before;
        }

        friend bool operator==(const iterator &a, const iterator &b) noexcept {
            return a.of_ == b.of_ && a.place_ == b.place_;
        }
        friend bool operator!=(const iterator &a, const iterator &b) noexcept { return !(a == b); }

    private:
        friend class table;
        explicit iterator(const table &of) : of_(&of) { ++*this; }
        const table *of_ = nullptr;
        std::uint64_t place_ = 0;
        std::optional<entry> met_;
    };

    /// All keys with copies of their records, as try_next meets them.
    ///
    ///     auto numbers = gearlongan::table<double>::open();
    ///     const auto half = numbers.insert(0.5);
    ///     for (const auto &[met, number] : numbers) assert(met == half && number == 0.5);
    [[nodiscard]] iterator begin() const { return iterator(*this); }
    [[nodiscard]] iterator end() const noexcept { return {}; }

    /// Removes each key for which `predicate` is true, as try_remove_if does, and returns how many.
    ///
    ///     auto numbers = gearlongan::table<double>::open();
    ///     const auto half = numbers.insert(0.5);
    ///     assert(numbers.remove_if([half](gearlongan::key_of<double> met, double) { return met == half; }) == 1);
    template <class Predicate> std::uint64_t remove_if(Predicate &&predicate) {
        std::uint64_t removed = 0;
        detail::check(try_remove_if(predicate, removed));
        return removed;
    }

    /// Has a hook called with each key that ends, as try_on_end does.
    ///
    ///     auto numbers = gearlongan::table<double>::open();
    ///     numbers.on_end([](auto, double number) { assert(number == 0.5); });
    ///     numbers.remove(numbers.insert(0.5));
    void on_end(std::function<void(key_type, const R &)> hook) { detail::check(try_on_end(std::move(hook))); }

    /// Takes a place for this thread beforehand, as try_enter does.
    ///
    ///     auto numbers = gearlongan::table<double>::open();
    ///     numbers.enter();
    void enter() { detail::check(try_enter()); }

    /// Lets the place of this thread rest, as try_rest does.
    ///
    ///     auto numbers = gearlongan::table<double>::open();
    ///     numbers.rest();
    void rest() { detail::check(try_rest()); }
#endif

private:
    // What C calls as a key ends. (A call of C may have stored another value.)
    static void ends(void *hook, const shardheap_ended *of) noexcept {
        if (of->length != detail::words_of<R>) return;
        detail::record_room<R> room;
        room.fill(of->words);
        (*static_cast<std::function<void(key_type, const R &)> *>(hook))(key_type(of->key), room.record);
    }

    // Meets the first key at a place or behind it that has a record. (A call of C may have stored another value.)
    errc find_next(std::uint64_t &place, shardheap_live_key &next) const noexcept {
        do {
            const auto code = static_cast<errc>(shardheap_table_next(raw(), place, &next));
            if (code != errc::ok) return code;
            place = next.behind;
        } while (next.length != detail::words_of<R>);
        return errc::ok;
    }

    // What a get and a take read into.
    struct words_read {
        static constexpr std::size_t most = detail::words_of<R>;
        std::uint64_t all[most]; // NOLINT(cppcoreguidelines-avoid-c-arrays)
        std::uint64_t length = 0;

        // (each value of a table has the words of a record, unless a call of C stored another)
        errc copied(std::uint32_t code, R &into) const noexcept {
            if (code == SHARDHEAP_SHORT || (code == SHARDHEAP_OK && length != most)) return errc::wrong_size;
            if (code == SHARDHEAP_OK) std::memcpy(static_cast<void *>(&into), all, sizeof(R));
            return static_cast<errc>(code);
        }
    };

    std::unique_ptr<std::function<void(key_type, const R &)>> on_end_;
};

} // namespace gearlongan

#endif
