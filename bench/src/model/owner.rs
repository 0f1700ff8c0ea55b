//! What the owner of a shard does: the steps of insert, of its own removals, of adopt and of leave.
use super::lists::Lists;
use super::words::{class_of, slots, width, Spot, Words, PRESENT};
use std::collections::VecDeque;
use std::sync::atomic::Ordering::SeqCst;

struct Page {
    lists: Lists,
    class_word: u64,
    armed: bool,
    // Whether it is in no queue, since it had no slot.
    full: bool,
    cursor: Option<usize>,
}

pub struct Owner<'a, const PLAIN: bool = false> {
    words: &'a Words<PLAIN>,
    shard: usize,
    pages: Vec<Page>,
    queues: [VecDeque<usize>; 8],
    // The page of the bell to be read next.
    rings: Option<usize>,
    // The pages from here on are blank.
    blank: usize,
}

impl<'a, const PLAIN: bool> Owner<'a, PLAIN> {
    /// Takes the shard over, and reads the class of each page.
    pub fn adopt(words: &'a Words<PLAIN>, shard: usize) -> Self {
        assert_eq!(words.owner(shard).swap(1, SeqCst), 0);
        let first = shard * words.pages;
        let page = |class_word| Page { lists: Lists::full(0), class_word, armed: false, full: false, cursor: None };
        let pages: Vec<Page> = (0..words.pages).map(|p| page(words.class(first + p).load(SeqCst))).collect();
        let mut queues: [VecDeque<usize>; 8] = Default::default();
        let classed = pages.iter().enumerate().filter(|(_, page)| page.class_word > 0);
        classed.for_each(|(p, page)| queues[page.class_word as usize - 1].push_back(p));
        let blank = pages.iter().rposition(|page| page.class_word > 0).map_or(0, |last| last + 1);
        Owner { words, shard, pages, queues, rings: None, blank }
    }

    fn number(&self, page: usize) -> usize {
        self.shard * self.words.pages + page
    }

    /// Stores the words, and answers their key.
    pub fn insert(&mut self, words: &[u64]) -> Option<u64> {
        let class = class_of(words.len());
        let front = self.queues[class].front().copied();
        let slot = front.and_then(|page| self.slot_in(page)).or_else(|| self.slot_elsewhere(class));
        slot.map(|spot| self.fill(spot, class, words))
    }

    fn fill(&self, spot: Spot, class: usize, words: &[u64]) -> u64 {
        self.words.length(spot).store(words.len() as u64, Words::<PLAIN>::FILLS);
        let first = spot.slot * width(class);
        for (i, word) in words.iter().enumerate() {
            self.words.payload(spot.page, first + i).store(*word, Words::<PLAIN>::FILLS);
        }
        let found = self.words.state(spot).fetch_or(PRESENT, SeqCst);
        self.words.key(spot, found >> 32)
    }

    fn slot_in(&mut self, page: usize) -> Option<Spot> {
        let slot = self.pages[page].lists.next_slot()?;
        Some(Spot { page: self.number(page), slot })
    }

    // The pages of the class, those on the bell's list, and then a blank page.
    fn slot_elsewhere(&mut self, class: usize) -> Option<Spot> {
        if let Some(spot) = self.search(class) {
            return Some(spot);
        }
        self.hear();
        self.take_bell();
        if let Some(spot) = self.search(class) {
            return Some(spot);
        }
        if self.blank == self.pages.len() {
            return None;
        }
        let page = self.blank;
        self.blank += 1;
        self.words.class(self.number(page)).store(class as u64 + 1, SeqCst);
        self.pages[page].class_word = class as u64 + 1;
        self.pages[page].lists = Lists::full(slots(class));
        self.queues[class].push_front(page);
        self.slot_in(page)
    }

    fn search(&mut self, class: usize) -> Option<Spot> {
        for _turn in 0..self.queues[class].len() {
            let page = *self.queues[class].front()?;
            if let Some(spot) = self.try_page(page) {
                return Some(spot);
            }
            self.queues[class].pop_front();
            if self.pages[page].cursor.is_some() {
                self.queues[class].push_back(page);
            } else {
                self.pages[page].full = true;
            }
        }
        None
    }

    fn try_page(&mut self, page: usize) -> Option<Spot> {
        if let Some(spot) = self.slot_in(page) {
            return Some(spot);
        }
        if self.pages[page].cursor.is_none() {
            self.collect(page, 0);
        }
        self.follow(page);
        if let Some(spot) = self.slot_in(page) {
            return Some(spot);
        }
        if self.pages[page].cursor.is_none() && !self.pages[page].armed {
            self.collect(page, 1);
            self.pages[page].armed = true;
            self.follow(page);
        }
        self.slot_in(page)
    }

    // Takes what was put on the page; the head becomes 0, or 1, which asks for a ring.
    fn collect(&mut self, page: usize, head: u64) {
        let found = self.words.head(self.number(page)).swap(head, SeqCst);
        self.pages[page].cursor = (found >> 1).checked_sub(1).map(|slot| slot as usize);
        if found & 1 == 1 {
            self.pages[page].armed = false;
        }
    }

    fn follow(&mut self, page: usize) {
        while let Some(slot) = self.pages[page].cursor {
            let spot = Spot { page: self.number(page), slot };
            let link = self.words.link(spot).swap(0, SeqCst);
            if link == 0 {
                return;
            }
            self.pages[page].lists.add_read(slot);
            self.pages[page].cursor = link.checked_sub(2).map(|slot| slot as usize);
        }
    }

    fn take_bell(&mut self) {
        if self.rings.is_none() {
            let found = self.words.bell(self.shard).swap(0, SeqCst);
            self.rings = found.checked_sub(1).map(|page| page as usize);
            self.hear();
        }
    }

    fn hear(&mut self) {
        while let Some(page) = self.rings {
            let link = self.words.page_link(self.number(page)).swap(0, SeqCst);
            if link == 0 {
                return;
            }
            self.pages[page].armed = false;
            self.back_to_class(page);
            self.rings = link.checked_sub(2).map(|page| page as usize);
        }
    }

    fn back_to_class(&mut self, page: usize) {
        if self.pages[page].full {
            self.pages[page].full = false;
            self.queues[self.pages[page].class_word as usize - 1].push_back(page);
        }
    }

    /// Removes a key.
    pub fn remove(&mut self, key: u64) {
        let (first, ended) = self.words.end(key);
        assert!(first);
        let Some(spot) = ended else {
            return;
        };
        if spot.page / self.words.pages != self.shard {
            return self.words.put(spot);
        }
        let page = spot.page % self.words.pages;
        self.pages[page].lists.push_local(spot.slot);
        self.back_to_class(page);
    }

    /// Collects what others put, puts each slot that is its own on its page, and gives the shard up.
    pub fn leave(mut self) {
        self.hear();
        self.take_bell();
        for page in 0..self.pages.len() {
            self.follow(page);
            if self.pages[page].armed && self.pages[page].cursor.is_none() {
                self.collect(page, 0);
                self.follow(page);
            }
        }
        let rests = |page: &Page| page.cursor.is_none() && !page.armed;
        assert!(self.rings.is_none() && self.pages.iter().all(rests));
        for page in 0..self.pages.len() {
            while let Some(spot) = self.slot_in(page) {
                self.words.put(spot);
            }
        }
        self.words.owner(self.shard).store(0, SeqCst);
    }
}
