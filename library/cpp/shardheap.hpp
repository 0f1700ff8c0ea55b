// shardheap.hpp: the calls of shardheap.h for C++17, by handles that move and close themselves.
//
//     #include "shardheap.hpp"
//
//     auto heap = gearlongan::heap::open_for(gearlongan::layout::wide, {1, 20000, 2, 8});
//     auto shard = heap.take().adopt(0);           // a pass of its own for each thread; the owner of a shard inserts
//     auto pass = heap.take();
//     gearlongan::key key = shard.insert({7, 8});
//     gearlongan::guard guard = pass.get(key);     // by any pass, of any thread
//     shard.remove(key);                           // from now on the key is gone, for ever
//     assert(guard.read()[1] == 8);                // the guard keeps the value until its scope ends
//     assert(!pass.load(key));
//
// The head of shardheap.h says what heaps, passes, shards, keys, holds and receipts are, and what its calls return.
// This header changes none of that. It is not proved, as that header is not. A table of records that any thread uses
// without a pass is a gearlongan::table, over the calls of shardheap_table.h.
//
// NAMESPACE. It is `gearlongan`, because `shardheap` is a type of shardheap.h: C++ allows no namespace of that name
// beside it. `gearlongan` is the name of the crate for Rust, too.
//
// HANDLES. A heap, a growing heap, a pass, a shard, a caller, a guard, a receipt and a table can be moved and not
// copied. One that was default-constructed, closed or moved from is empty. It may be destroyed, assigned to and filled.
// Any other call on it returns errc::empty. To move a handle onto itself does nothing. An assignment first closes what
// the target holds.
//
// GUARDS. A guard refers to its pass or shard, as an iterator refers to its container. While a guard exists, its pass
// is not moved, closed, or destroyed; nor does it adopt or leave. Otherwise the hold is lost, or the guard refers to an
// object that is gone.
//
// DESTRUCTORS. That of a pass gives it home, as shardheap_pass_close does. Those of a shard, and of a caller of a
// growing heap, leave what they own first. If another pass is in the middle of a free there, the destructor yields to
// other threads and tries again, 1,000 times. If that free does not end, for example because its thread was stopped,
// the destructor loses the pass (shardheap_pass_lose): the heap has one pass less, and that shard has no other owner
// again. A program that has to know calls `leave` or `try_leave` first.
//
// ERRORS. Each call has two forms. The plain form throws gearlongan::error, which is a std::system_error. The form
// named `try_..` is noexcept, returns an errc, and writes its result to a parameter, which a refusal leaves as it was.
// A program that is compiled without exceptions has only the second form. Nothing else is thrown, except std::bad_alloc
// if the text of an error, or a hook, finds no memory.
//
// THREADS. The rules are those of shardheap.h. A pass, with its guards, is used by one thread at a time, and may go to
// another thread by whatever orders the two. The calls on a handle are therefore not const. A const member function may
// be called by several threads at once, except those of a guard, which use its pass. All calls on a heap, a growing
// heap and a table may, except that it is moved, opened, closed and destroyed by one thread alone. Those on a heap lock
// a mutex of the object. A call of C on its handle (`raw`) does not, and is made while no other uses the object.
//
// SIGNALS. In a signal handler a program may use the forms that do not throw, of the calls that shardheap.h allows
// there, and a guard's destructor. Of a heap it calls those of C on the handle, as the others lock.
//
// CHECKED MODE. With SHARDHEAP_CHECKED all that shardheap.h finds is found here. A handle that is moved is sealed at
// its new place. A pass also counts its guards. If it has one, a move, an adopt and a leave do nothing; a close, a lose
// and a destructor go on. Each of them calls SHARDHEAP_ON_MISUSE(SHARDHEAP_BUSY).
//
// HOOKS. `on_end` of a pass, a shard, a caller and a table has a function called with each key that ends. It throws
// nothing: otherwise the program ends. Each call of such an object finds out that there is one by one test.
//
// COSTS. A call is the call of shardheap.h, inlined; that on a heap also takes a lock of its object. No call takes
// memory of its own, except for the text of an error and a hook.
#ifndef SHARDHEAP_HPP
#define SHARDHEAP_HPP

#if !defined(__x86_64__) || defined(__ILP32__) || !defined(__linux__)
#error "shardheap supports x86-64 Linux alone"
#endif
#if __cplusplus < 201703L
#error "shardheap.hpp needs C++17"
#endif

#include "gearlongan/ended.hpp"
#include "gearlongan/errors.hpp"
#include "gearlongan/growing.hpp"
#include "gearlongan/guards.hpp"
#include "gearlongan/handles.hpp"
#include "gearlongan/heaps.hpp"
#include "gearlongan/inserters.hpp"
#include "gearlongan/keys.hpp"
#include "gearlongan/passes.hpp"
#include "gearlongan/ranges.hpp"
#include "gearlongan/readers.hpp"
#include "gearlongan/receipts.hpp"
#include "gearlongan/tables.hpp"
#include "gearlongan/values.hpp"

#endif
