"""Broken heaps: wrong bodies of the running heap, each of which `scripts/compiled/schedule` has to find.

All of them are put into one copy of the sources. `BROKEN` in the new text stands for a test whether this heap was asked
for, so one program is each of the broken heaps, by a number that it reads from the variable SCHEDULE_BROKEN as it
starts. With the number 0 it is the heap as it is.

Most of them are edits of `refused/`: contracts refuse them, and here runs do. Contracts cannot refuse the first five,
since no proof looks at how the steps are compiled, nor the last two. Those with False at the end are not found. Nothing
judges how many holds a key has. A search that passes over an armed page loses a slot only while its freer is in the
middle of the free, when Full is right too. A page is in the queue of its class still when JUDGE frees a slot of it.

The copy's tool_rounds judges one thing more (JUDGE): while nothing else runs, a full shard has room again once another
pass has removed one of its values, and once its owner has.
"""
import re
from dataclasses import dataclass


@dataclass
class Broken:
    """A heap in which `new` is done in place of `old`, or stands there if it says itself when it is done (BROKEN). OLD
    in it stands for the old text. `behind` is what the old text comes right behind, and both are once in the file."""
    name: str
    file: str
    old: str
    new: str
    is_found: bool = True
    behind: str = ""

    def text(self):
        new = self.new if "BROKEN" in self.new else f"if BROKEN {{ {self.new} }} else {{ OLD }}"
        return self.behind + new.replace("OLD", self.old)


def two_steps(name, words, stored):
    """A heap in which a step of table.rt is a load and a store. `stored` has it in place of STORE."""
    def of_table(step):
        return f"self.table.shared.{step}(seat, table_number(&self.shape, place)"

    old = f"""self.table
            .shared
            .{name}::<Does<L, D>>(seat, table_number(&self.shape, place), {words})"""
    new = f"let found = {of_table('load::<Does<L, D>>')}); {stored} found"
    return Broken(f"a_{name}_is_a_load_and_a_store", "sh_table/src/table.rt", old,
                  new.replace("STORE(", f"{of_table('store::<Stores<L, D>>')}, "))


SWAP = "self.swap::<Brand, _>(seat"
RESTS = "            return false;\n        }\n        "
STATE_AGAIN = "(key, name, class_word, count, words),\n            Place::State(name.page, "

HEAPS = [
    # Steps that are not one.
    two_steps("swap", "new", "STORE(new);"),
    two_steps("fetch_sub", "less", "STORE(found.wrapping_sub(less));"),
    two_steps("fetch_add", "more", "STORE(found.wrapping_add(more));"),
    two_steps("compare_exchange", "old, new", "if found == old { STORE(new); }"),
    two_steps("fetch_or", "bits", "STORE(found | bits);"),
    # Calls of a pass.
    Broken("get_is_gone_on_a_live_key", "sh_pass/src/pass.rt", "Ok(guard.hold())", "Err(Refusal::Gone)"),
    Broken("release_drops_no_count", "sh_pass/src/pass.rt",
           "release_key(&self.heap.kept().table, seat, held, &hold, None).0",
           "read_key(&self.heap.kept().table, seat, held, &hold, &mut Value::from(0))"),
    Broken("slot_stays_in_the_hand", "sh_pass/src/ending.rt", "finish(table, seat, slot_ref, generation, owned)",
           "if BROKEN && slot_ref.slot == 0 { return false; }\n    OLD", behind="{\n    "),
    Broken("read_is_empty", "sh_pass/src/pass.rt", "Ok(value)", "Ok(Value::empty())",
           behind="        self.read_into(hold, &mut value)?;\n        "),
    # Calls that tell ends.
    Broken("removal_tells_the_end_of_a_key_that_is_held", "sh_pass/src/told_entering.rt",
           "(first, is_own.then_some(slot_ref), ended)",
           "(first, is_own.then_some(slot_ref), if BROKEN && first { Some(key) } else { ended })"),
    Broken("end_is_told_though_another_ended_the_key", "sh_pass/src/told_ending.rt",
           "        return (None, false);\n",
           "        return (if BROKEN { key_in::<L>(table.shape(), slot_ref, generation) } else { None }, false);\n",
           behind="    if found != marked {\n"),
    # Looks.
    Broken("look_loads_the_state_once", "sh_table/src/looks.rt",
           f"self.load::<Brand, _>(\n            seat,\n            {STATE_AGAIN}name.slot),\n        )",
           "sh_word::State::new(sh_word::Kind::Live, name.generation, 0).word()"),
    Broken("look_loads_the_state_of_another_slot_at_its_end", "sh_table/src/looks.rt", "name.slot", "name.slot ^ 1",
           behind=STATE_AGAIN),
    Broken("look_loads_the_state_again_before_the_words", "sh_pass/src/looking.rt",
           "    let class_word = table.look_class(seat, key, name);\n", """OLD    if BROKEN {
        let count = table.look_length(seat, key, name, class_word);
        let after = table.look_again(seat, key, name, class_word, count, &[]);
        if !is_live(name.generation, after) {
            return Glance::Gone;
        }
        let mut words = [0; WORDS_MAX];
        let first = first_word(name.slot, class_word);
        let many = words_to_read(first, count) as usize;
        for i in 0..many {
            let word = table.look_word(seat, key, name, class_word, count, &words[..i], first);
            words[i] = word;
        }
        room.put(&words[..many]);
        return Glance::Seen;
    }
"""),
    # Walks.
    Broken("walk_passes_over_a_slot_that_was_filled_again", "sh_pass/src/peeking.rt", "L::in_range(parts)",
           "OLD && !(BROKEN && generation > 1)", behind="    if "),
    # What a word says.
    Broken("second_mark_decides", "sh_slots/src/free.rt", "!State::of(found).marked", "State::of(found).present",
           behind="    "),
    Broken("generation_wraps_to_1", "sh_slots/src/free.rt", "retired_word(generation)",
           "State::new(Kind::Empty, 1, 0).word()", behind="        "),
    Broken("finish_ignores_the_count", "sh_slots/src/free.rt",
           "    found == marked_word(generation) && generation != gen_max\n", """    let state = State::of(found);
    let marked = BROKEN && state.kind() == Kind::Marked && state.generation == generation;
    (marked || found == marked_word(generation)) && generation != gen_max
"""),
    Broken("get_takes_one_hold_too_many", "sh_slots/src/enter.rt", "State::of(found).count < guard_max",
           "OLD || BROKEN && State::of(found).count == guard_max", False),
    # Steps with another word.
    Broken("taken_bell_stays", "sh_table/src/bells.rt", f"{SWAP}, shard, Place::Bell(shard), 0)",
           f"{SWAP}, shard, Place::Bell(shard), 1)"),
    Broken("finish_leaves_the_mark", "sh_table/src/slots.rt", "finished_word(generation, gen_max::<L>())",
           "marked_word(generation)", behind="            "),
    Broken("arm_raises_no_flag", "sh_table/src/bells.rt", f"{SWAP}, (page_name, page), Place::Head(page), ARMED)",
           f"{SWAP}, (page_name, page), Place::Head(page), 0)"),
    # An owner's lists, and links.
    Broken("pop_hands_a_slot_out_twice", "sh_lists/src/lists.rt", "self.free.front = self.next[slot as usize];", ""),
    Broken("add_read_forgets_the_slot", "sh_lists/src/lists.rt", "self.free.end = slot;", ""),
    Broken("link_forgets_what_was_below", "sh_stack/src/top.rt", "top + 1", "top / 2 * 2 + 1",
           behind="{ result ≡ link_over top }\n{\n    "),
    Broken("unwritten_link_is_the_end", "sh_shard/src/pages/stack.rt", "found == 0", "OLD && !BROKEN",
           behind="        if "),
    # An owner's calls.
    Broken("armed_page_is_told_to_rest", "sh_shard/src/pages/leaving.rt", "!self.is_armed(page)",
           "self.is_armed(page)", behind=RESTS),
    Broken("full_is_answered_without_a_search", "sh_shard/src/shard/search.rt", "for _turn in 0..opened {",
           "let turns = if BROKEN { 0 } else { opened };\n        for _turn in 0..turns {"),
    Broken("bell_is_taken_and_not_followed", "sh_shard/src/shard/bell.rt",
           "for _turn in 0..count + 1 {\n            let Some(word)",
           "let turns = if BROKEN { 0 } else { count + 1 };\n"
           "        for _turn in 0..turns {\n            let Some(word)"),
    Broken("page_of_an_own_free_stays_full", "sh_shard/src/shard/calls.rt",
           "        let (answer, gained) = self.pages.remove(key);\n",
           "OLD        let gained = if BROKEN { None } else { gained };\n", False),
    # What other threads could have brought about, so that no contract refuses it.
    Broken("a_written_link_is_taken_as_unwritten", "sh_shard/src/pages/stack.rt",
           "if self.has_cursor(page) {\n            self.follow_on(page);",
           "if self.has_cursor(page) && !BROKEN {\n            self.follow_on(page);"),
    Broken("an_armed_page_is_passed_over", "sh_shard/src/pages/insert.rt", "self.collect(page);\n        if",
           "if BROKEN && self.is_armed(page) {\n            return false;\n        }\n        OLD", False,
           behind="        "),
]

# File, old text and new text of the copy's tool_rounds.
JUDGE = [
    (
        "tool_rounds/src/ending.rt",
        """    fill_others(workers, moments, shards, len);
""",
        """    if let Some((worker, others)) = workers.split_first_mut() {
        if let Some(other) = others.first_mut() {
            worker.refill(other, moments, len);
        }
    }
    fill_others(workers, moments, shards, len);
""",
    ),
    (
        "tool_rounds/src/worker.rt",
        """    /// Fills its shard with values of `len` words, if it has one.
""",
        """    // Fills the first shard, and again after another pass and after the owner removed a value. A slot of the
    // layout with few holds has few generations, so it may be retired.
    pub fn refill(&mut self, other: &mut Self, moments: &Moments, len: usize) {
        if owning::has_few_holds::<P::Layout>() {
            return;
        }
        let actor = match self.moving() {
            Actor::Lone(lone) => owning::adopt::<P>(self.alloc, lone, &mut self.record, 0),
            actor => actor,
        };
        let actor = match actor {
            Actor::Owner(mut owner) => {
                owning::refill::<C, P>(&mut owner, &mut self.record, other, moments, len);
                owning::leave::<P>(owner, &mut self.record)
            }
            actor => actor,
        };
        self.put(actor);
    }

    pub fn remove_key(&mut self, moments: &Moments, key: u64) {
        if let Actor::Lone(lone) = &mut self.actor {
            using::remove(lone, &mut self.record, moments, key);
        }
    }

    /// Fills its shard with values of `len` words, if it has one.
""",
    ),
    (
        "tool_rounds/src/owning.rt",
        """/// Adopts a shard that nobody owns, inserts values of `len` words until it is full, and leaves it.
""",
        """pub fn has_few_holds<L: sh_key::KeyLayout>() -> bool {
    L::GUARD_MAX < 5
}

// Fills the shard, and again after another pass and after the owner removed a value.
pub fn refill<C: Drop, P: LonePass<Receipt = C>>(
    owner: &mut P::Owner,
    record: &mut Record,
    other: &mut crate::worker::Worker<P>,
    moments: &Moments,
    len: usize,
) {
    let mut last = None;
    for _ in 0..MOST_SLOTS {
        let Some(key) = put::<P>(owner, record, moments, len) else { break; };
        last = Some(key);
    }
    let Some(key) = last else { return; };
    other.remove_key(moments, key);
    let Some(key) = put::<P>(owner, record, moments, len) else {
        record.refused(Call::Insert, Refusal::Full);
        return;
    };
    using::remove(owner, record, moments, key);
    if put::<P>(owner, record, moments, len).is_none() {
        record.refused(Call::Insert, Refusal::Full);
    }
}

/// Adopts a shard that nobody owns, inserts values of `len` words until it is full, and leaves it.
""",
    ),
]

DEFINED = re.compile(r'^define internal (?:noundef )?i64 (@"[^"\n]*::broken_(\d+)"\(\))[^\n]*\{\n.*?^\}\n', re.M | re.S)


def replace(file, old, new):
    text = file.read_text()
    if text.count(old) != 1:
        raise SystemExit(f"broken.py: an old text is {text.count(old)} times in {file}:\n{old}")
    file.write_text(text.replace(old, new))


def break_sources(crates):
    """Puts all broken heaps, and the stricter judge, into the sources of this folder `crates`."""
    for file, old, new in JUDGE:
        replace(crates / file, old, new)
    for number, heap in enumerate(HEAPS, 1):
        file = crates / heap.file
        replace(file, heap.behind + heap.old, heap.text().replace("BROKEN", f"(broken_{number}() != 0)"))
        with file.open("a") as end:
            end.write(f"\n#[inline(never)]\nfn broken_{number}() -> u64 {{\n    0\n}}\n")


def with_selectors(text):
    """The module, in which each selector compares its number with the one that was asked for."""
    found = set()

    def selector(match):
        found.add(int(match[2]))
        return f"""define internal i64 {match[1]} {{
  %asked = load i32, ptr @schedule_broken
  %same = icmp eq i32 %asked, {match[2]}
  %word = zext i1 %same to i64
  ret i64 %word
}}
"""

    text = DEFINED.sub(selector, text)
    missing = set(range(1, len(HEAPS) + 1)) - found
    if missing:
        names = " ".join(HEAPS[number - 1].name for number in sorted(missing))
        raise SystemExit(f"broken.py: the program does not have {names}")
    return text + "\n@schedule_broken = external global i32\n"
