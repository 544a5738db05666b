//! A TCP server that sends back what it reads, and closes each connection that was idle for a while.

use hontkhale::DelayQueue;
use std::error::Error;
use std::io::{Read, Write};
use std::net::{Shutdown, TcpListener, TcpStream};
use std::sync::Arc;
use std::thread;
use std::time::Duration;

pub fn serve(listener: TcpListener, queue: DelayQueue<Arc<TcpStream>>, idle: Duration) {
    let idle_ones = queue.clone();
    thread::spawn(move || {
        for expired in &idle_ones {
            let _ = expired.value.shutdown(Shutdown::Both);
        }
    });
    for stream in listener.incoming().flatten() {
        let queue = queue.clone();
        thread::spawn(move || echo(stream, &queue, idle).is_ok());
    }
}

/// When the connection ends, whatever ends it, the guard removes the entry.
fn echo(stream: TcpStream, queue: &DelayQueue<Arc<TcpStream>>, idle: Duration) -> Result<(), Box<dyn Error>> {
    let stream = Arc::new(stream);
    let timeout = queue.guard(Arc::clone(&stream), idle)?;
    let mut stream = &*stream;
    let mut buffer = [0; 4_096];
    loop {
        let count = stream.read(&mut buffer)?;
        if count == 0 {
            return Ok(());
        }
        timeout.extend(idle)?;
        stream.write_all(&buffer[..count])?;
    }
}

#[allow(dead_code)]
fn main() {
    serve(TcpListener::bind("127.0.0.1:7007").expect("a free port"), DelayQueue::new(), Duration::from_secs(30));
}
