//! Spans of `tracing` with the registry of `tracing-subscriber`.
use crate::clock::Times;
use crate::{in_threads, Row};
use std::sync::mpsc::sync_channel;
use std::sync::Mutex;
use tracing::{info_span, Span, Subscriber};
use tracing_subscriber::layer::{Layer, SubscriberExt};
use tracing_subscriber::Registry;

/// A layer that does nothing. A registry alone never closes a span: the layers above it do.
struct Nothing;

impl<S: Subscriber> Layer<S> for Nothing {}

const CALLS: usize = 100;

/// Each thread makes two spans, one in the other; enters a span of its own, and one of all threads; and makes spans
/// that the next thread closes.
pub fn calls(threads: usize, rounds: usize) -> Vec<Row> {
    tracing::subscriber::set_global_default(Registry::default().with(Nothing)).expect("it is the first");
    let of_all = info_span!("of all");
    let (senders, receivers): (Vec<_>, Vec<_>) = (0..threads).map(|_| sync_channel::<Vec<Span>>(4)).unzip();
    let receivers: Vec<_> = receivers.into_iter().map(Mutex::new).collect();
    in_threads(threads, |start, number| {
        let mut times = Times::none();
        let own = info_span!("own");
        let to = senders[(number + 1) % threads].clone();
        let from = receivers[number].lock().expect("no other thread has it");
        start.wait();
        for _ in 0..rounds {
            let nested = |n: usize| {
                let outer = info_span!("outer", n);
                let _outer = outer.enter();
                let inner = info_span!("inner", n);
                let _inner = inner.enter();
            };
            times.add(0, || (0..CALLS).for_each(nested));
            times.add(1, || (0..CALLS).for_each(|_| drop(own.enter())));
            times.add(2, || (0..CALLS).for_each(|_| drop(of_all.enter())));
            let handed = || (0..CALLS).map(|n| info_span!("handed", n)).collect();
            times.add(3, || to.send(handed()).expect("the next thread is there"));
            let theirs = from.recv().expect("the thread before is there");
            times.add(4, || drop(theirs));
        }
        let names =
            ["two spans", "enter and exit", "enter and exit, one span of all", "make for another", "close another's"];
        times.each(names, rounds * CALLS)
    })
}
