// Which key a call ended. A part of shardheap.hpp, which says what holds of all.
#ifndef GEARLONGAN_ENDED_HPP
#define GEARLONGAN_ENDED_HPP

#include "gearlongan/keys.hpp"
#include "gearlongan/values.hpp"

#include <cstddef>
#include <cstdint>
#include <functional>
#include <memory>
#include <optional>
#include <utility>

namespace gearlongan {

/// A key that a call ended, with its value: it was removed, and nobody has a hold on it or is at its slot. Exactly one
/// call ends a key. The section on the end of a value in shardheap.h says which calls may.
///
///     gearlongan::guard guard = pass.get(key);
///     std::optional<gearlongan::ended> ended;
///     assert(shard.remove(key, ended) && !ended);    // the guard still has the value
///     ended = guard.release();
///     assert(ended && ended->key == key && ended->value[1] == 8);
struct ended {
    gearlongan::key key;
    gearlongan::value value;
};

/// What a pass calls with each key that a call of it ends, and the words of its value: see reader::on_end.
using end_hook = std::function<void(key, words_view)>;

namespace detail {

/// What a pass, a shard and a caller have of ends: their handle with a hook, and the calls that write which key they
/// ended.
class ending {
public:
    /// The calls of a reader that have these names, which also write the key that they ended: nothing, if they ended
    /// none. They write it whether they are refused or not, and call no hook. So do try_get, find and guard::release.
    ///
    ///     std::optional<gearlongan::ended> told;
    ///     gearlongan::guard guard;
    ///     gearlongan::value value;
    ///     assert(pass.try_get(key, guard, told) == gearlongan::errc::ok && !told);
    ///     assert(shard.try_take(key, value, told) == gearlongan::errc::ok && !told);
    ///     assert(pass.try_release(guard.detach(), told) == gearlongan::errc::ok && told->key == key);
    ///     assert(pass.try_remove(key, told) == gearlongan::errc::gone && !told);
    errc try_remove(key of, std::optional<ended> &told) noexcept { return tell(shardheap_remove_ended, of, told); }
    errc try_release(key of, std::optional<ended> &told) noexcept { return tell(shardheap_release_ended, of, told); }
    errc try_take(key of, value &into, std::optional<ended> &told) noexcept {
        value taken;
        errc code = tell(shardheap_get_ended, of, told);
        if (code != errc::ok) return code;
        // (the removal ends no key, since this has a hold on it)
        code = read_words(of, taken);
        if (code == errc::ok) code = try_remove(of, told);
        (void)try_release(of, told);
        if (code == errc::ok) into = taken;
        return code;
    }

#if defined(__cpp_exceptions)
    /// The same, which throw.
    ///
    ///     std::optional<gearlongan::ended> told;
    ///     assert(pass.find(key, told) && !told);
    ///     assert(pass.remove(key, told) && told->value[0] == 7);
    ///     assert(!pass.find(key, told) && !pass.take(key, told) && !told);
    bool remove(key of, std::optional<ended> &told) { return found(try_remove(of, told)); }
    [[nodiscard]] std::optional<value> take(key of, std::optional<ended> &told) {
        std::optional<value> taken(std::in_place);
        if (!found(try_take(of, *taken, told))) taken.reset();
        return taken;
    }
#endif

    /// Has `hook` called with each key that a call of this pass ends, and the words of its value. The calls that write
    /// the key do not call it. The thread that makes the call calls it, after all else that the call does. No user of
    /// the value is left then, so the hook may free what that names. It stays with the pass as that moves, adopts or
    /// leaves, until it is closed. It replaces the one before, and an empty one calls nothing. It throws nothing:
    /// otherwise the program ends. With a hook a load takes a hold for a moment, since it may end a key.
    ///
    ///     std::vector<gearlongan::key> ends;
    ///     const auto hook = [&ends](gearlongan::key of, gearlongan::words_view words) {
    ///         if (words[0] == 7) ends.push_back(of);
    ///     };
    ///     pass.on_end(hook);
    ///     shard.on_end(hook);
    ///     gearlongan::guard guard = pass.get(key);
    ///     shard.remove(key);
    ///     assert(ends.empty());    // the guard still has the value
    ///     guard.reset();
    ///     assert(ends.size() == 1 && ends[0] == key);
    void on_end(end_hook hook) { on_end_ = hook ? std::make_unique<end_hook>(std::move(hook)) : nullptr; }

protected:
    ending() noexcept = default;
    ~ending() = default;

    // A call of C that writes which key it ended.
    using telling = std::uint32_t (*)(shardheap_pass *, std::uint64_t, shardheap_ended *);
    errc tell(telling call, key of, std::optional<ended> &told) noexcept {
        shardheap_ended written; // NOLINT(cppcoreguidelines-pro-type-member-init,hicpp-member-init)
        written.key = 0;
        const auto code = static_cast<errc>(call(&raw_, of.number(), &written));
        told.reset();
        if (written.key == 0) return code;
        told.emplace();
        told->key = key(written.key);
        (void)told->value.try_assign({written.words, static_cast<std::size_t>(written.length)});
        return code;
    }

    // Such a call and a take, which call the hook.
    [[nodiscard]] bool has_hook() const noexcept { return __builtin_expect(on_end_ != nullptr, 0) != 0; }
    [[gnu::cold, gnu::noinline]] errc hooked(telling call, key of) noexcept {
        std::optional<ended> told;
        const errc code = tell(call, of, told);
        if (told) (*on_end_)(told->key, told->value.view());
        return code;
    }
    [[gnu::cold, gnu::noinline]] errc hooked_take(key of, value &into) noexcept {
        std::optional<ended> told;
        const errc code = try_take(of, into, told);
        if (told) (*on_end_)(told->key, told->value.view());
        return code;
    }

    errc hold(key of) noexcept {
        if (has_hook()) return hooked(shardheap_get_ended, of);
        return static_cast<errc>(shardheap_get(&raw_, of.number()));
    }
    errc give_back(key of) noexcept {
        if (has_hook()) return hooked(shardheap_release_ended, of);
        return static_cast<errc>(shardheap_release(&raw_, of.number()));
    }
    inline errc read_words(key of, value &into) noexcept {
        return static_cast<errc>(shardheap_read(&raw_, of.number(), into.words_, value::max_size(), &into.size_));
    }
    inline errc load_words(key of, std::uint64_t *words, std::size_t room, std::uint64_t &size) noexcept {
        if (has_hook()) return load_by_hold(of, words, room, size);
        // (as shardheap_load, without a look at pointers, none of which is null or leads to what another does)
        std::uint64_t number = of.number();
        const std::uint32_t code = shardheap_begin_key(&raw_, &number);
        if (code != SHARDHEAP_OK) return static_cast<errc>(code);
        return static_cast<errc>(shardheap_end(&raw_.seal, shardheap_raw_load(&raw_, number, words, room, &size)));
    }
    // A load that ends no key, or calls the hook: by a hold. If that is refused before it is at the slot, or while the
    // value is there, so is what the load would go on as.
    [[gnu::cold, gnu::noinline]] errc load_by_hold(key of, std::uint64_t *words, std::size_t room,
                                                   std::uint64_t &size) noexcept {
        errc code = hold(of);
        if (code == errc::holds_full || code == errc::crowded)
            return static_cast<errc>(shardheap_load(&raw_, of.number(), words, room, &size));
        if (code != errc::ok) return code;
        code = static_cast<errc>(shardheap_read(&raw_, of.number(), words, room, &size));
        (void)give_back(of);
        return code;
    }

    shardheap_pass raw_ = SHARDHEAP_INIT;
    std::unique_ptr<end_hook> on_end_;
};

} // namespace detail

} // namespace gearlongan

#endif
