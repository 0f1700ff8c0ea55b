"""Tests of the module shardheap: python3 -m unittest, with libshardheap.so.0 where the dynamic linker finds it."""
import copy
import ctypes
import gc
import pickle
import threading
import unittest

import shardheap
from shardheap import Code, Heap, Layout, Refused, Table


def in_threads(count, work):
    """Runs a function in several threads, and returns what each one returned."""
    results = [None] * count

    def run(number):
        results[number] = work(number)

    threads = [threading.Thread(target=run, args=(number,)) for number in range(count)]
    for it in threads:
        it.start()
    for it in threads:
        it.join()
    return results


class Refusing(unittest.TestCase):
    def refused(self, code, call, *words):
        with self.assertRaises(Refused) as seen:
            call(*words)
        self.assertIs(seen.exception.code, code)


class TestTable(Refusing):
    def test_a_removed_key_is_gone_for_ever(self):
        with Table(values=10, words=2) as table:
            key = table.insert([7, 8])
            self.assertEqual(table[key], (7, 8))
            self.assertIn(key, table)
            del table[key]
            self.assertNotIn(key, table)
            others = {table.insert([number]) for number in range(1000)}
            self.assertEqual(len(others), 1000)
            self.assertNotIn(key, others)
            self.refused(Code.GONE, table.take, key)

    def test_values_have_0_to_16_words_of_64_bits(self):
        with Table() as table:
            for value in ((), (2**64 - 1,), tuple(range(16))):
                self.assertEqual(table[table.insert(value)], value)
            self.refused(Code.TOO_LONG, table.insert, range(17))
            for word in (-1, 2**64):
                self.assertRaises(OverflowError, table.insert, [word])
                self.assertRaises(OverflowError, table.take, word)

    def test_of_several_threads_one_takes_a_value(self):
        with Table() as table:
            keys = [table.insert([number]) for number in range(500)]

            def work(_):
                taken = []
                for key in keys:
                    try:
                        taken.append(table.take(key)[0])
                    except Refused as fault:
                        assert fault.code is Code.GONE
                return taken

            taken = in_threads(8, work)
            self.assertEqual(sorted(sum(taken, [])), list(range(500)))

    def test_passes_of_threads_that_ended_come_home(self):
        with Table(threads=2) as table:
            for number in range(20):
                key, = in_threads(1, lambda number: table.insert([number]))
                gc.collect()
                self.assertEqual(table[key], (0,))

    def test_a_closed_table_is_empty(self):
        table = Table()
        table.close()
        table.close()
        self.refused(Code.EMPTY, table.insert, [1])


class TestHeap(Refusing):
    def heap(self, passes=2):
        return Heap.open_for(Layout.WIDE, owners=1, values=100, words=2, passes=passes)

    def test_a_guard_keeps_a_removed_value(self):
        with self.heap() as heap, heap.take() as owner, heap.take() as reader:
            owner.adopt(0)
            key = owner.insert([7, 8])
            with reader.get(key) as guard:
                owner.remove(key)
                self.assertEqual(guard.read(), (7, 8))
                self.refused(Code.GONE, reader.get, key)
            self.refused(Code.NOT_HELD, guard.read)
            guard.release()

    def test_calls_are_refused_by_their_codes(self):
        with self.heap() as heap, heap.take() as one, heap.take() as other:
            self.refused(Code.NO_PASS, heap.take)
            self.refused(Code.NO_SHARD, one.insert, [1])
            one.adopt(0)
            self.refused(Code.TAKEN, other.adopt, 0)
            self.refused(Code.BAD_KEY, one.load, 2**64 - 1)
            key = one.insert([1])
            guards = [one.get(key) for _ in range(16)]
            self.refused(Code.HOLDS_FULL, one.get, key)
            self.assertEqual(one.load(key), (1,))
            # The key of the next slot, which nothing was put in yet: a load of it goes on to a get.
            self.refused(Code.HOLDS_FULL, one.load, key + 1)
            for it in guards:
                it.release()
            self.refused(Code.GONE, one.load, key + 1)
        self.refused(Code.EMPTY, heap.take)
        self.refused(Code.EMPTY, one.load, key)
        self.refused(Code.BAD_SHAPE, Heap.open, Layout.TINY, 5, 1, 1)
        self.refused(Code.BAD_LAYOUT, Heap.open, 4, 1, 1, 1)
        self.assertRaises(OverflowError, Heap.open, Layout.TINY, 2**32 + 1, 1, 1)

    def test_a_shard_goes_to_another_owner(self):
        with self.heap() as heap:
            with heap.take() as first:
                first.adopt(0)
                key = first.insert([5])
            with heap.take() as second:
                second.adopt(0)
                self.assertEqual(second.take_value(key), (5,))

    def test_a_heap_that_grows_opens_chunks(self):
        with Heap.growing(owners=1, values=10, words=1, passes=1, chunks=4) as heap, heap.take() as caller:
            self.assertEqual((heap.chunks, heap.passes), (1, 1))
            # 8 pages of 195 words, with 48 slots for one word or 3 for sixteen, and two words of the shard.
            self.assertEqual((heap.capacity(1), heap.capacity(16), heap.capacity(17)), (384, 24, 0))
            self.assertEqual((heap.bytes, heap.layout), ((8 * 195 + 2) * 8, Layout.GROWING))
            while heap.chunks < 3:
                caller.insert([1])
            self.assertEqual(heap.capacity(1), 3 * 384)
        self.assertEqual((heap.chunks, heap.passes, heap.capacity(1), heap.bytes), (0, 0, 0, 0))
        self.refused(Code.EMPTY, lambda: heap.layout)

    def test_one_shard_serves_passes_that_leave_it(self):
        with Heap.growing(owners=1, values=10, words=1, passes=2, chunks=1) as heap, heap.take() as one:
            with heap.take() as other:
                one.insert([1])
                self.refused(Code.NO_SHARD, other.insert, [2])
                one.leave_idle()
                other.insert([2])

    def test_a_heap_has_its_layout(self):
        with self.heap() as heap:
            self.assertEqual((heap.layout, heap.capacity(2)), (Layout.WIDE, 192))

    def test_passes_outlive_the_handle_of_their_heap(self):
        heap = self.heap()
        owner = heap.take()
        del heap
        owner.adopt(0)
        self.assertEqual(owner.load(owner.insert([3])), (3,))
        owner.close()
        owner.close()

    def test_handles_are_not_copied(self):
        heap = self.heap()
        for copied in (copy.copy, copy.deepcopy, pickle.dumps):
            self.assertRaises(TypeError, copied, heap)

    def test_the_exported_calls_look_at_pointers_and_handles(self):
        library, key = shardheap._lib, ctypes.c_uint64()
        self.assertEqual(library.shardheap_get(None, 1), Code.NULL)
        self.assertEqual(library.shardheap_insert(None, None, 0, key), Code.NULL)
        wrong = shardheap._Handle((1, 1, 1, 1))
        self.assertEqual(library.shardheap_get(wrong, 1), Code.NO_HANDLE)


if __name__ == "__main__":
    unittest.main()
