//! Takes the requests of a holder out of the bytes of its connection.

use servers::resp::{Broken, Limits, Parser};
use std::io;
use tokio::io::{AsyncRead, AsyncReadExt};

const LIMITS: Limits = Limits { words: 64, bulk: 16 << 10, request: 16 << 10, line: 16 << 10 };
const PIECE: usize = 64 << 10;

pub type Args = Vec<Vec<u8>>;

pub struct Input {
    bytes: Vec<u8>,
    /// Where the bytes begin that aren't taken yet.
    at: usize,
    parser: Parser,
}

impl Input {
    pub fn new() -> Input {
        Input { bytes: Vec::new(), at: 0, parser: Parser::within(LIMITS) }
    }

    /// Reads a piece. False where the client has ended.
    pub async fn read(&mut self, from: &mut (impl AsyncRead + Unpin)) -> io::Result<bool> {
        self.bytes.drain(..self.at);
        self.at = 0;
        self.bytes.reserve(PIECE);
        Ok(from.read_buf(&mut self.bytes).await? > 0)
    }

    /// The next request, once all of it has come. One of no word is passed over.
    pub fn next(&mut self) -> Result<Option<Args>, Broken> {
        while let Some(length) = self.parser.parse(&self.bytes[self.at..])? {
            let args: Args = self.parser.words(&self.bytes[self.at..]).map(<[u8]>::to_vec).collect();
            self.parser.reset();
            self.at += length;
            if !args.is_empty() {
                return Ok(Some(args));
            }
        }
        Ok(None)
    }
}
