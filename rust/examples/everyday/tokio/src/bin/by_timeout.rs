//! The same server by tokio alone: each read and each write has a timeout of its own.

use std::{io, time::Duration};
use tokio::io::{AsyncReadExt, AsyncWriteExt};
use tokio::net::{TcpListener, TcpStream};
use tokio::time::timeout;

pub async fn serve(listener: TcpListener, idle: Duration) -> io::Result<()> {
    loop {
        let (stream, _) = listener.accept().await?;
        tokio::spawn(echo(stream, idle));
    }
}

async fn echo(mut stream: TcpStream, idle: Duration) -> io::Result<()> {
    let mut buffer = [0; 512];
    loop {
        let mut rest = match timeout(idle, stream.read(&mut buffer)).await?? {
            0 => return Ok(()),
            count => &buffer[..count],
        };
        while !rest.is_empty() {
            let count = timeout(idle, stream.write(rest)).await??;
            rest = &rest[count..];
        }
    }
}

#[allow(dead_code)]
#[tokio::main]
async fn main() -> io::Result<()> {
    serve(TcpListener::bind("127.0.0.1:7007").await?, Duration::from_secs(30)).await
}
