//! The server: one thread that welcomes connections, a few that serve them, and the keepers beside them.

use crate::command::Desk;
use crate::event_loop::{EventLoop, Mailbox};
use crate::keeper::keep;
use crate::keyspace::{Keyspace, KEEPERS};
use crate::seats::{Seat, Seats};
use crate::settings::Settings;
use mio::net::{TcpListener, TcpStream, UnixStream};
use mio::{Events, Interest, Poll, Token};
use signal_hook::consts::{SIGINT, SIGTERM};
use socket2::{SockRef, TcpKeepalive};
use std::io::{self, ErrorKind, Write};
use std::net::SocketAddr;
use std::sync::Arc;
use std::thread::{self, JoinHandle};
use std::time::Duration;

const LISTENER: Token = Token(0);
const SIGNALS: Token = Token(1);
/// How many connections may wait to be welcomed, where the machine allows as many: as Redis has it.
const BACKLOG: i32 = 511;
/// How long it waits where the machine has no file for another connection.
const NO_FILE: Duration = Duration::from_millis(20);

struct Server {
    mailbox: Arc<Mailbox>,
    thread: JoinHandle<io::Result<()>>,
}

type Failure = Box<dyn std::error::Error>;

pub fn listen(at: SocketAddr) -> io::Result<std::net::TcpListener> {
    let listener = std::net::TcpListener::bind(at)?;
    SockRef::from(&listener).listen(BACKLOG)?;
    Ok(listener)
}

/// Serves until it is told to end, by SIGTERM or SIGINT. Then it answers what has come, and closes all connections.
pub fn serve(
    listener: std::net::TcpListener,
    keyspace: &Arc<Keyspace>,
    seats: &Arc<Seats>,
    settings: &Arc<Settings>,
    threads: usize,
) -> Result<(), Failure> {
    for keeper in 0..KEEPERS {
        let keyspace = keyspace.clone();
        thread::Builder::new().name(format!("keeper {keeper}")).spawn(move || keep(&keyspace, keeper))?;
    }
    let desk = || Desk::new(keyspace.clone(), seats.clone(), settings.clone());
    let servers = (0..threads).map(|at| server(at, desk())).collect::<Result<Vec<_>, _>>()?;
    Reception { seats, servers: &servers, probes: settings.probes() }.welcome_all(listener)?;
    servers.iter().try_for_each(|it| it.mailbox.end())?;
    for server in servers {
        server.thread.join().map_err(|_| "a thread of the server panicked")??;
    }
    Ok(())
}

fn server(at: usize, desk: Desk) -> Result<Server, Failure> {
    let event_loop = EventLoop::new(desk)?;
    let mailbox = event_loop.mailbox.clone();
    let thread = thread::Builder::new().name(format!("server {at}")).spawn(move || event_loop.run())?;
    Ok(Server { mailbox, thread })
}

/// A stream that has something to read once the process is told to end.
fn signals() -> io::Result<UnixStream> {
    let (told, telling) = std::os::unix::net::UnixStream::pair()?;
    told.set_nonblocking(true)?;
    for signal in [SIGTERM, SIGINT] {
        signal_hook::low_level::pipe::register(signal, telling.try_clone()?)?;
    }
    Ok(UnixStream::from_std(told))
}

struct Reception<'a> {
    seats: &'a Arc<Seats>,
    servers: &'a [Server],
    probes: Option<TcpKeepalive>,
}

impl Reception<'_> {
    /// Welcomes connections until the process is told to end.
    fn welcome_all(&self, listener: std::net::TcpListener) -> io::Result<()> {
        listener.set_nonblocking(true)?;
        let (mut listener, mut signals) = (TcpListener::from_std(listener), signals()?);
        let mut poll = Poll::new()?;
        poll.registry().register(&mut listener, LISTENER, Interest::READABLE)?;
        poll.registry().register(&mut signals, SIGNALS, Interest::READABLE)?;
        let (mut events, mut patience) = (Events::with_capacity(2), None);
        loop {
            match poll.poll(&mut events, patience) {
                Err(error) if error.kind() == ErrorKind::Interrupted => continue,
                done => done?,
            }
            if events.iter().any(|it| it.token() == SIGNALS) {
                return Ok(());
            }
            patience = loop {
                match listener.accept() {
                    Ok((socket, from)) => self.welcome(socket, from)?,
                    Err(error) if error.kind() == ErrorKind::WouldBlock => break None,
                    // The client has gone, or too many files are open: the next may fare better.
                    Err(_) => break Some(NO_FILE),
                }
            };
        }
    }

    /// Gives a connection to the thread that has the fewest, or refuses it by name.
    fn welcome(&self, mut socket: TcpStream, from: SocketAddr) -> io::Result<()> {
        let seat = match Seat::take(self.seats, from) {
            Err(refusal) => {
                // A new socket has room for a line.
                let _ = socket.write(format!("-{refusal}\r\n").as_bytes());
                return Ok(());
            }
            Ok(seat) => seat,
        };
        // A socket that is gone already says so to whoever serves it.
        let _ = socket.set_nodelay(true);
        if let Some(probes) = &self.probes {
            let _ = SockRef::from(&socket).set_tcp_keepalive(probes);
        }
        let server = self.servers.iter().min_by_key(|it| it.mailbox.count()).expect("there is a thread");
        server.mailbox.hand(socket, seat)
    }
}
