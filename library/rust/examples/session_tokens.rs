//! A server of session tokens over TCP. Each connection has a thread, and all threads share one table.
//!
//! A client writes lines: `open USER` opens a session and returns its token, `who TOKEN` returns the user, and
//! `end TOKEN` ends the session. A token is the key of the session: one that was ended, or whose time is over, finds
//! nothing, for ever. (A key is no secret. A real server adds a random number to the record and to the token.)
//!
//! A janitor walks over the table now and then, and removes the sessions whose time is over.
use gearlongan::table::Key;
use gearlongan::Table;
use std::io::{self, BufRead, BufReader, Write};
use std::net::{SocketAddr, TcpListener, TcpStream};
use std::sync::Arc;
use std::thread;
use std::time::{Duration, Instant};

/// How long a session lasts.
const LIFETIME: Duration = Duration::from_millis(300);

gearlongan::record! {
    #[derive(Clone, Copy, Debug, PartialEq)]
    struct Session {
        user: u32,
        until: u64, // milliseconds after the start of the server
    }
}

/// What all connections share.
struct Sessions {
    table: Table<Session>,
    start: Instant,
}

impl Sessions {
    fn new() -> Sessions {
        Sessions { table: Table::new(), start: Instant::now() }
    }

    fn open(&self, user: u32) -> Result<Key<Session>, gearlongan::Error> {
        let until = (self.start.elapsed() + LIFETIME).as_millis() as u64;
        self.table.insert(&Session { user, until })
    }

    /// Removes the sessions whose time is over: how many this call removed. Others were ended before.
    fn sweep(&self) -> usize {
        let now = self.start.elapsed().as_millis() as u64;
        self.table.remove_if(|_, session| session.until <= now)
    }

    /// The reply to a line of a client.
    fn reply(&self, line: &str) -> String {
        let token = |word: &str| word.parse::<Key<Session>>().ok();
        match line.split_once(' ') {
            Some(("open", user)) => match user.parse().map(|user| self.open(user)) {
                Ok(Ok(key)) => format!("token {key}"),
                Ok(Err(refused)) => format!("refused: {refused}"),
                Err(_) => String::from("refused: no user"),
            },
            Some(("who", word)) => match token(word).and_then(|key| self.table.get(key)) {
                Some(session) => format!("user {}", session.user),
                None => String::from("gone"),
            },
            Some(("end", word)) => match token(word).is_some_and(|key| self.table.remove(key)) {
                true => String::from("ended"),
                false => String::from("gone"),
            },
            _ => String::from("refused: open, who or end"),
        }
    }

    fn serve(&self, stream: TcpStream) -> io::Result<()> {
        let mut out = stream.try_clone()?;
        for line in BufReader::new(stream).lines() {
            writeln!(out, "{}", self.reply(line?.trim()))?;
        }
        Ok(())
    }
}

/// Serves each connection in a thread of its own.
fn listen(listener: TcpListener, sessions: &Arc<Sessions>) {
    for stream in listener.incoming().flatten() {
        let sessions = sessions.clone();
        thread::spawn(move || {
            if let Err(fault) = sessions.serve(stream) {
                eprintln!("a connection ended: {fault}");
            }
        });
    }
}

/// A client, which has one connection.
struct Client(BufReader<TcpStream>);

impl Client {
    fn connect(server: SocketAddr) -> io::Result<Client> {
        Ok(Client(BufReader::new(TcpStream::connect(server)?)))
    }

    fn ask(&mut self, line: &str) -> io::Result<String> {
        writeln!(self.0.get_mut(), "{line}")?;
        let mut reply = String::new();
        self.0.read_line(&mut reply)?;
        Ok(reply.trim_end().to_string())
    }
}

/// Opens a session, which another connection uses and ends: its token.
fn use_a_session(server: SocketAddr, user: u32) -> io::Result<String> {
    let (mut one, mut other) = (Client::connect(server)?, Client::connect(server)?);
    let reply = one.ask(&format!("open {user}"))?;
    let token = reply.strip_prefix("token ").expect("there is room").to_string();
    assert_eq!(other.ask(&format!("who {token}"))?, format!("user {user}"));
    if user % 2 == 0 {
        assert_eq!(other.ask(&format!("end {token}"))?, "ended");
        assert_eq!(one.ask(&format!("end {token}"))?, "gone");
        assert_eq!(one.ask(&format!("who {token}"))?, "gone");
    }
    Ok(token)
}

fn main() -> io::Result<()> {
    const CLIENTS: u32 = 50;
    let listener = TcpListener::bind("127.0.0.1:0")?;
    let (server, sessions) = (listener.local_addr()?, Arc::new(Sessions::new()));
    let shared = sessions.clone();
    thread::spawn(move || listen(listener, &shared));

    let clients: Vec<_> = (0..CLIENTS).map(|user| thread::spawn(move || use_a_session(server, user))).collect();
    let tokens = clients.into_iter().map(|client| client.join().expect("it ends well"));
    let tokens = tokens.collect::<io::Result<Vec<_>>>()?;

    // The janitor.
    let mut swept = 0;
    while !sessions.table.is_empty() {
        thread::sleep(LIFETIME / 10);
        swept += sessions.sweep();
    }
    let mut client = Client::connect(server)?;
    for token in &tokens {
        assert_eq!(client.ask(&format!("who {token}"))?, "gone");
    }
    println!("{} sessions were opened, of which {swept} ended by their time", tokens.len());
    Ok(())
}
