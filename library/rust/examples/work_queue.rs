//! A queue of work: one thread stores the tasks, workers take them, and nobody copies more than a key.
//!
//! A task that is called off is removed by its key, by any thread that has the key. A worker that comes too late gets
//! [`Error::Gone`].
use gearlongan::{Error, Guard, Heap, Key, Layout, Pass, Room};
use std::sync::mpsc::{channel, Receiver};
use std::sync::Mutex;
use std::thread;

const WORKERS: u32 = 3;
const TASKS: u64 = 9_999;

/// The next key of the queue: workers share its end.
fn next(queue: &Mutex<Receiver<Key>>) -> Option<Key> {
    queue.lock().ok()?.recv().ok()
}

/// Takes a task for this worker alone: of all who try, and of who calls it off, one removes it.
fn take(pass: &Pass, key: Key) -> Result<Option<Guard<'_>>, Error> {
    let taken = pass.get(key).and_then(|task| pass.remove(key).map(|()| task));
    match taken {
        Ok(task) => Ok(Some(task)),
        Err(Error::Gone) => Ok(None),
        Err(error) => Err(error),
    }
}

/// How many tasks this worker did, and the sum of what they were.
fn work(pass: &Pass, queue: &Mutex<Receiver<Key>>) -> Result<(u64, u64), Error> {
    let (mut done, mut sum) = (0, 0);
    while let Some(key) = next(queue) {
        if let Some(task) = take(pass, key)? {
            done += 1;
            sum += task.iter().sum::<u64>();
        }
    }
    Ok((done, sum))
}

fn main() -> Result<(), Error> {
    let heap = &Heap::open_for(Layout::Wide, Room { owners: 1, values: TASKS, words: 4, passes: 1 + WORKERS })?;
    let shard = heap.take()?.adopt(0)?;
    let (sender, receiver) = channel();
    let queue = &Mutex::new(receiver);
    let (done, sum, called_off) = thread::scope(|scope| {
        let workers: Vec<_> = (0..WORKERS).map(|_| scope.spawn(move || work(&heap.take()?, queue))).collect();
        let mut called_off = 0;
        for n in 0..TASKS {
            let key = shard.insert(&[n; 4][..1 + (n % 4) as usize])?;
            sender.send(key).expect("somebody works");
            // Every third is called off, unless a worker was faster.
            called_off += u64::from(n % 3 == 0 && shard.remove(key).is_ok());
        }
        drop(sender);
        let mut all = (0, 0);
        for worker in workers {
            let (done, sum) = worker.join().expect("no thread panics")?;
            all = (all.0 + done, all.1 + sum);
        }
        Ok::<_, Error>((all.0, all.1, called_off))
    })?;
    assert_eq!(done + called_off, TASKS);
    println!("{done} tasks were done, with the sum {sum}, and {called_off} were called off");
    Ok(())
}
