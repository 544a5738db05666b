//! A TCP server that sends back what it reads, and ends each connection on which no byte moved for a while.

use hontkhale_tokio::{IdleTimeout, IdleTimeouts};
use std::{io, time::Duration};
use tokio::io::{AsyncReadExt, AsyncWriteExt};
use tokio::net::{TcpListener, TcpStream};

pub async fn serve(listener: TcpListener, idle: Duration) -> io::Result<()> {
    let timeouts = IdleTimeouts::new();
    loop {
        let (stream, _) = listener.accept().await?;
        tokio::spawn(echo(timeouts.wrap(stream, idle)));
    }
}

async fn echo(mut stream: IdleTimeout<TcpStream>) -> io::Result<()> {
    let mut buffer = [0; 512];
    loop {
        match stream.read(&mut buffer).await? {
            0 => return Ok(()),
            count => stream.write_all(&buffer[..count]).await?,
        }
    }
}

#[allow(dead_code)]
#[tokio::main]
async fn main() -> io::Result<()> {
    serve(TcpListener::bind("127.0.0.1:7007").await?, Duration::from_secs(30)).await
}
