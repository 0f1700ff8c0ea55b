//! Requests of tokio's tasks in one table, whose keys are the numbers of the requests. Two tasks wait for each: for its
//! reply, and for its time to be over. Both remove the key, and one of them has the request.
//!
//! A call of a table begins and ends within one poll of its task, and holds nothing afterwards: no guard, no lock and
//! no place goes over an await. So a task may go on in another thread, and tasks share the table by an `Arc`. What they
//! keep over an await are keys and copies.
//!
//! `cargo run --offline --example requests` runs it, with Debian's librust-tokio-dev.
use gearlongan::table::Key;
use gearlongan::{Error, Table};
use std::sync::Arc;
use std::time::Duration;
use tokio::runtime::Builder;
use tokio::time::sleep;

const REQUESTS: u32 = 200;

/// How long a request waits for its reply, in milliseconds.
const PATIENCE: u64 = 20;

gearlongan::record! {
    #[derive(Debug, PartialEq)]
    struct Request {
        user: u32,
        milliseconds: u64,
    }
}

type Requests = Arc<Table<Request>>;

/// The reply comes, after a while: whether the request was still there.
async fn reply(requests: Requests, number: u64, milliseconds: u64) -> bool {
    sleep(Duration::from_millis(milliseconds)).await;
    let request = Key::from_bits(number).and_then(|key| requests.take(key));
    request.inspect(|request| assert_eq!(request.milliseconds, milliseconds)).is_some()
}

/// The time of a request is over: whether it was still there.
async fn give_up(requests: Requests, key: Key<Request>) -> bool {
    sleep(Duration::from_millis(PATIENCE)).await;
    requests.remove(key)
}

/// Makes a request: whether a reply came in time.
async fn ask(requests: Requests, user: u32) -> Result<bool, Error> {
    let milliseconds = u64::from(user) * 2 * PATIENCE / u64::from(REQUESTS);
    let key = requests.insert(&Request { user, milliseconds })?;
    let over = tokio::spawn(give_up(requests.clone(), key));
    let replied = tokio::spawn(reply(requests.clone(), key.to_bits(), milliseconds));
    let (replied, over) = (replied.await.expect("it does not panic"), over.await.expect("it does not panic"));
    assert!(replied != over, "one of both has the request");
    assert_eq!(requests.get(key), None);
    Ok(replied)
}

async fn ask_all(requests: &Requests) -> Result<usize, Error> {
    let tasks: Vec<_> = (0..REQUESTS).map(|user| tokio::spawn(ask(requests.clone(), user))).collect();
    let mut replied = 0;
    for task in tasks {
        replied += usize::from(task.await.expect("it does not panic")?);
    }
    Ok(replied)
}

fn main() -> Result<(), Error> {
    let runtime = Builder::new_multi_thread().worker_threads(4).enable_time().build().expect("it starts");
    let requests = Requests::default();
    let replied = runtime.block_on(ask_all(&requests))?;
    assert!(requests.is_empty());
    println!("{REQUESTS} requests: {replied} had a reply in time");
    Ok(())
}
