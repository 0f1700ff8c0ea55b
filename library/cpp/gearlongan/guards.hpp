// Guards. A part of shardheap.hpp, which says what holds of all.
#ifndef GEARLONGAN_GUARDS_HPP
#define GEARLONGAN_GUARDS_HPP

#include "gearlongan/readers.hpp"

#include <optional>
#include <utility>

namespace gearlongan {

/// A hold on a key, which is given back when the guard is destroyed. Until then the value stays readable and unchanged.
/// It is used by the thread that has its pass, and ends before that pass is moved or destroyed.
///
///     gearlongan::guard guard = pass.get(key);
///     shard.remove(key);
///     assert(guard.read()[1] == 8);
class [[nodiscard]] guard {
public:
    guard() noexcept = default;
    guard(guard &&other) noexcept : of_(std::exchange(other.of_, nullptr)), key_(other.key_) {}
    guard &operator=(guard &&other) noexcept {
        guard moved(std::move(other));
        std::swap(of_, moved.of_);
        std::swap(key_, moved.key_);
        return *this;
    }
    guard(const guard &) = delete;
    guard &operator=(const guard &) = delete;
    ~guard() { reset(); }

    /// Whether there is a hold here: false if it is empty.
    [[nodiscard]] explicit operator bool() const noexcept { return of_ != nullptr; }

    /// The key that is held.
    ///
    ///     assert(pass.get(key).key() == key);
    [[nodiscard]] gearlongan::key key() const noexcept { return key_; }

    /// Copies the value. empty; not_held, if the hold was given back by its key.
    ///
    ///     gearlongan::value value;
    ///     assert(pass.get(key).try_read(value) == gearlongan::errc::ok);
    errc try_read(value &into) const noexcept;

#if defined(__cpp_exceptions)
    /// Copies the value.
    ///
    ///     assert(pass.get(key).read().size() == 2);
    [[nodiscard]] inline value read() const {
        value words;
        detail::check(try_read(words));
        return words;
    }

    /// Copies the value as a record. It throws wrong_size, too.
    ///
    ///     gearlongan::key third = shard.insert_record(1.5);
    ///     assert(pass.get(third).record<double>() == 1.5);
    template <class T> [[nodiscard]] T record() const {
        std::optional<T> read_as = read().template as<T>();
        if (!read_as) detail::refuse(errc::wrong_size);
        return *read_as;
    }
#endif

    /// Gives the hold back, and empties the guard.
    ///
    ///     gearlongan::guard guard = pass.get(key);
    ///     guard.reset();
    void reset() noexcept {
        if (reader *of = forget()) (void)of->try_release(key_);
    }

    /// Gives the hold back, and empties the guard, as reset does. Returns the key if that ended, and calls no hook.
    ///
    ///     gearlongan::guard one = pass.get(key), other = pass.get(key);
    ///     shard.remove(key);
    ///     assert(!one.release() && other.release()->key == key);
    std::optional<ended> release() noexcept {
        std::optional<ended> told;
        if (reader *of = forget()) (void)of->try_release(key_, told);
        return told;
    }

    /// Leaves the hold with the pass, and empties the guard: reader::try_release gives it back by its key. So a pass
    /// may move while it has holds. A pass that comes home takes them along, and its next user has them.
    ///
    ///     gearlongan::key held = pass.get(key).detach();
    ///     auto moved = std::move(pass);
    ///     assert(moved.try_release(held) == gearlongan::errc::ok);
    gearlongan::key detach() noexcept {
        (void)forget();
        return key_;
    }

private:
    friend class reader;
    // (the pass has a hold on the key that nothing else refers to)
    guard(reader &of, gearlongan::key key) noexcept { fill(of, key); }
    // (it is empty)
    void fill(reader &of, gearlongan::key key) noexcept {
        of_ = &of;
        key_ = key;
        of.count_guard(true);
    }
    reader *forget() noexcept {
        reader *of = std::exchange(of_, nullptr);
        if (of) of->count_guard(false);
        return of;
    }
    reader *of_ = nullptr;
    gearlongan::key key_;
};

inline errc reader::try_get(key of, guard &into) & noexcept {
    if (into) return errc::occupied;
    const errc code = hold(of);
    if (code == errc::ok) into.fill(*this, of);
    return code;
}

inline errc reader::try_get(key of, guard &into, std::optional<ended> &told) & noexcept {
    told.reset();
    if (into) return errc::occupied;
    const errc code = tell(shardheap_get_ended, of, told);
    if (code == errc::ok) into.fill(*this, of);
    return code;
}

inline errc guard::try_read(value &into) const noexcept {
    return of_ ? of_->read_words(key_, into) : errc::empty;
}

#if defined(__cpp_exceptions)
inline guard reader::get(key of) & {
    detail::check(hold(of));
    return {*this, of};
}

inline guard reader::find(key of) & { return detail::found(hold(of)) ? guard(*this, of) : guard(); }

inline guard reader::find(key of, std::optional<ended> &told) & {
    return detail::found(tell(shardheap_get_ended, of, told)) ? guard(*this, of) : guard();
}
#endif

} // namespace gearlongan

#endif
