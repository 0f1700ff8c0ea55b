//! A server's table of sessions: threads that serve requests open, look up, and end sessions of each other.
//!
//! The number of a session is its key. A client that comes back with the number of a session that ended gets
//! [`Error::Gone`], for ever: no later session has that number.
use gearlongan::{Error, Heap, Key, Layout, Pass, Record, Room, Shard};
use std::sync::mpsc::{channel, Receiver, Sender};
use std::thread;

const SERVERS: u32 = 3;
const CLIENTS: u64 = 10_000;

#[derive(Clone, Copy, Debug, PartialEq)]
struct Session {
    user: u64,
    until: u64,
    rights: u64,
}

impl Record for Session {
    const WORDS: usize = 3;

    fn write(&self, words: &mut [u64]) {
        [self.user, self.until, self.rights].write(words);
    }

    fn read(words: &[u64]) -> Option<Session> {
        let [user, until, rights] = Record::read(words)?;
        Some(Session { user, until, rights })
    }
}

/// Whom a number that a client sent belongs to, at this time.
fn user_of(pass: &Pass, number: u64, now: u64) -> Result<Option<u64>, Error> {
    match pass.load_record::<Session>(Key::from(number)) {
        Ok(session) if now < session.until => Ok(Some(session.user)),
        Ok(_) | Err(Error::Gone | Error::BadKey) => Ok(None),
        Err(error) => Err(error),
    }
}

/// Opens sessions in the shard of this server, and sends their numbers to another, which the clients turn to next.
fn log_in(shard: &Shard, server: u32, next: Sender<u64>) -> Result<(), Error> {
    for n in 0..CLIENTS {
        let session = Session { user: u64::from(server) * CLIENTS + n, until: 100, rights: 3 };
        let key = shard.insert_record(&session)?;
        if next.send(key.into()).is_err() {
            break;
        }
    }
    Ok(())
}

/// Looks up what other servers opened, and ends it.
fn log_out(pass: &Pass, numbers: Receiver<u64>) -> Result<u64, Error> {
    let mut ended = 0;
    for number in numbers {
        assert!(user_of(pass, number, 99)?.is_some(), "it is open");
        assert_eq!(user_of(pass, number, 100)?, None, "its time is over");
        pass.remove(Key::from(number))?;
        assert_eq!(user_of(pass, number, 99)?, None, "it has ended");
        ended += 1;
    }
    Ok(ended)
}

fn main() -> Result<(), Error> {
    let room = Room { owners: SERVERS, values: CLIENTS, words: 3, passes: 2 * SERVERS };
    let heap = &Heap::open_for(Layout::Wide, room)?;
    let ended = thread::scope(|scope| {
        let servers: Vec<_> = (0..SERVERS)
            .map(|server| {
                let (next, numbers) = channel();
                scope.spawn(move || log_in(&heap.take()?.adopt(server)?, server, next));
                scope.spawn(move || log_out(&heap.take()?, numbers))
            })
            .collect();
        servers.into_iter().map(|server| server.join().expect("no thread panics")).sum::<Result<u64, Error>>()
    })?;
    println!("{ended} sessions were opened by {SERVERS} threads, and looked up and ended by {SERVERS} others");
    Ok(())
}
