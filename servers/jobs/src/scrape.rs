//! Answers Prometheus: one request a connection.

use crate::worker::Worker;
use std::io;
use std::sync::Arc;
use std::time::Duration;
use tokio::io::{AsyncReadExt, AsyncWriteExt};
use tokio::net::{TcpListener, TcpStream};
use tokio::sync::Semaphore;
use tokio::time::timeout;

/// The longest request, the most that are answered at a time, and how long each may take.
const REQUEST: usize = 8_192;
const AT_A_TIME: usize = 16;
const PATIENCE: Duration = Duration::from_secs(5);

pub async fn serve(worker: Arc<Worker>, listener: TcpListener) {
    let seats = Arc::new(Semaphore::new(AT_A_TIME));
    loop {
        let seat = seats.clone().acquire_owned().await;
        match listener.accept().await {
            Ok((stream, _)) => {
                let worker = worker.clone();
                tokio::spawn(async move {
                    // Who is too slow or gone gets no answer.
                    let _ = timeout(PATIENCE, talk(&worker, stream)).await;
                    drop(seat);
                });
            }
            Err(_) => tokio::time::sleep(Duration::from_millis(50)).await,
        }
    }
}

async fn talk(worker: &Worker, mut stream: TcpStream) -> io::Result<()> {
    let mut request = Vec::new();
    while !request.windows(4).any(|it| it == b"\r\n\r\n") {
        if request.len() > REQUEST || stream.read_buf(&mut request).await? == 0 {
            return Ok(());
        }
    }
    let (status, body) = match request.starts_with(b"GET /metrics ") {
        true => ("200 OK", worker.metrics.text()),
        false => ("404 Not Found", "the numbers are at /metrics\n".to_owned()),
    };
    let (kind, length) = ("text/plain; version=0.0.4; charset=utf-8", body.len());
    let answer = format!(
        "HTTP/1.1 {status}\r\nContent-Type: {kind}\r\nContent-Length: {length}\r\nConnection: close\r\n\r\n{body}"
    );
    stream.write_all(answer.as_bytes()).await?;
    stream.shutdown().await
}
