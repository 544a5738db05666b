//! Both servers send back what they read, and end a connection that idles.

#[path = "../src/bin/by_timeout.rs"]
mod by_timeout;
#[path = "../src/bin/idle_timeouts.rs"]
mod idle_timeouts;

use std::future::Future;
use std::io;
use std::time::Duration;
use tokio::io::{AsyncReadExt, AsyncWriteExt};
use tokio::net::{TcpListener, TcpStream};
use tokio::time::{sleep, timeout};

const IDLE: Duration = Duration::from_millis(400);
/// Whoever takes longer hangs.
const LIMIT: Duration = Duration::from_secs(60);

async fn serves<S: Future<Output = io::Result<()>> + Send + 'static>(serve: fn(TcpListener, Duration) -> S) {
    let listener = TcpListener::bind("127.0.0.1:0").await.unwrap();
    let address = listener.local_addr().unwrap();
    tokio::spawn(serve(listener, IDLE));
    let (mut talks, mut idles) =
        (TcpStream::connect(address).await.unwrap(), TcpStream::connect(address).await.unwrap());
    for _ in 0..10 {
        let mut back = [0; 4];
        talks.write_all(b"ping").await.unwrap();
        talks.read_exact(&mut back).await.unwrap();
        assert_eq!(&back, b"ping");
        sleep(IDLE / 20).await;
    }
    for ended in [&mut idles, &mut talks] {
        assert_eq!(timeout(LIMIT, ended.read(&mut [0])).await.expect("it idles").unwrap(), 0);
    }
}

#[tokio::test]
async fn a_connection_that_idles_is_ended() {
    serves(idle_timeouts::serve).await;
}

#[tokio::test]
async fn by_tokio_alone_too() {
    serves(by_timeout::serve).await;
}
