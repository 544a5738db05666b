//! Connections that end once no byte has moved for a while.

use hontkhale_tokio::{IdleTimeout, IdleTimeouts};
use std::io::{self, ErrorKind};
use tokio::io::{duplex, AsyncReadExt, AsyncWriteExt, DuplexStream};
use tokio::time::{sleep, Duration, Instant};

const IDLE: Duration = Duration::from_secs(30);

/// Sends back what it reads, until the other side ends or idles.
async fn echo(mut connection: IdleTimeout<DuplexStream>) -> io::Result<()> {
    let mut buffer = [0; 512];
    loop {
        match connection.read(&mut buffer).await? {
            0 => return Ok(()),
            count => connection.write_all(&buffer[..count]).await?,
        }
    }
}

#[tokio::main(flavor = "current_thread", start_paused = true)]
pub async fn main() {
    let start = Instant::now();
    let timeouts = IdleTimeouts::new();
    let (mut client, server) = duplex(64); // a `TcpStream` of a listener
    let served = tokio::spawn(echo(timeouts.wrap(server, IDLE)));
    for _ in 0..3 {
        sleep(Duration::from_secs(20)).await;
        client.write_all(b"ping").await.expect("it is served");
        client.read_exact(&mut [0; 4]).await.expect("it is served");
    }
    let ended = served.await.expect("no panic").expect_err("it idles");
    assert_eq!((ended.kind(), start.elapsed().as_secs()), (ErrorKind::TimedOut, 90));
}
