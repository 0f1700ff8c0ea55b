// The entities of a game in a table. Systems run in threads, and refer to entities by keys. A key that a system kept of
// an entity which is gone finds nothing, as no later entity has it. So nothing counts references.
#include "shardheap.hpp"

#include <atomic>
#include <cstdint>
#include <cstdio>
#include <optional>
#include <random>
#include <thread>
#include <vector>

namespace {

struct entity;
using entity_key = gearlongan::key_of<entity>;

struct entity { // trivially copyable, at most 128 bytes
    float place[3];
    std::uint32_t health;
    entity_key target;
};

using entities = gearlongan::table<entity>;

constexpr std::size_t systems = 4, count = 4000;

// Entities, each of which aims at one that was there before it.
std::vector<entity_key> spawn(entities &world) {
    std::minstd_rand random(1);
    std::vector<entity_key> spawned;
    for (std::size_t n = 0; n < count; n++) {
        const auto target = spawned.empty() ? entity_key() : spawned[random() % spawned.size()];
        spawned.push_back(world.insert({{1, 2, 3}, 100, target}));
    }
    return spawned;
}

struct score {
    std::atomic<std::uint64_t> hits{0}, misses{0};
};

// The entity of this key shoots at its target.
void shoot(entities &world, entity_key by, score &of_all) {
    const std::optional<entity> shooter = world.get(by);
    if (!shooter) return; // it was shot
    const bool hit = world.remove(shooter->target); // of all that shoot at it, one removes it
    (hit ? of_all.hits : of_all.misses)++;
}

} // namespace

int main() {
    auto world = entities::open();
    const auto spawned = spawn(world);
    score of_all;
    std::vector<std::thread> threads;
    for (std::size_t system = 0; system < systems; system++)
        threads.emplace_back([&, system] { // no thread asks for a pass, or gives one back
            for (std::size_t n = system + 1; n < count; n += systems)
                shoot(world, spawned[n], of_all);
        });
    for (auto &thread : threads) thread.join();
    std::printf("%llu entities were hit, %llu shots found their target gone, and %llu entities are left\n",
                static_cast<unsigned long long>(of_all.hits), static_cast<unsigned long long>(of_all.misses),
                static_cast<unsigned long long>(world.size()));
    return of_all.hits + world.size() == count ? 0 : 1;
}
