//! The Redis protocol, RESP2 and RESP3: where a request's words stand in bytes that come in pieces, and replies as
//! bytes.

use std::fmt;
use std::io::Write;
use std::mem;
use std::ops::Range;
use std::sync::Arc;

/// The most that a request may have: its words, the bytes of one of them, those of all, and a line that isn't the content of
/// a bulk string.
#[derive(Clone, Copy)]
pub struct Limits {
    pub words: usize,
    pub bulk: usize,
    pub request: usize,
    pub line: usize,
}

impl Limits {
    /// No server takes more.
    pub const MOST: Limits = Limits { words: 1 << 16, bulk: 1 << 20, request: 2 << 20, line: 64 << 10 };
}

impl Default for Limits {
    fn default() -> Limits {
        Limits::MOST
    }
}

/// The most words of a request of a client that hasn't told the password, and the longest of them.
const NARROW_WORDS: i64 = 10;
const NARROW_BULK: usize = 16 << 10;
/// What a word counts beside its bytes: its place, and the lines around it.
pub const PER_WORD: usize = 32;
/// The end of a line and of a bulk string.
pub const END: &[u8] = b"\r\n";
/// The room for words that a parser keeps from one request to the next.
const KEPT_WORDS: usize = 64;

/// What a client sent that is no request, and the byte at which that was seen. The connection is closed after it.
#[derive(Debug, PartialEq, Eq)]
pub struct Broken(&'static str, Option<u8>);

const UNBALANCED: Broken = Broken("unbalanced quotes in request", None);

impl fmt::Display for Broken {
    fn fmt(&self, f: &mut fmt::Formatter<'_>) -> fmt::Result {
        write!(f, "{}", self.0)?;
        self.1.map_or(Ok(()), |got| write!(f, ", got '{}'", got as char))
    }
}

/// Finds the words of one request in bytes that begin with it. It goes on where it stopped once more of them are there.
#[derive(Default)]
pub struct Parser {
    /// What is done of the bytes.
    at: usize,
    /// How far the line was looked for whose end isn't there.
    looked: usize,
    words: Vec<Range<u32>>,
    /// The words of a request that is one line, without their quotes. All others stand in the bytes themselves.
    inline: Vec<u8>,
    is_inline: bool,
    /// The words that the request still wants.
    missing: usize,
    /// The length of the bulk string that was announced.
    bulk: Option<usize>,
    size: usize,
    /// Whether requests are short: those of a client that hasn't told the password.
    pub is_narrow: bool,
    limits: Limits,
}

impl Parser {
    pub fn within(limits: Limits) -> Parser {
        Parser { limits, ..Parser::default() }
    }

    /// The length of the request, once all of it is there. A request of no word is passed over by the caller.
    pub fn parse(&mut self, bytes: &[u8]) -> Result<Option<usize>, Broken> {
        loop {
            let is_done = match (self.missing, self.bulk) {
                (0, _) if self.at > 0 => return Ok(Some(self.at)),
                (0, _) => self.begin(bytes)?,
                (_, None) => self.announce(bytes)?,
                (_, Some(length)) => self.take_bulk(bytes, length)?,
            };
            if !is_done {
                return Ok(None);
            }
        }
    }

    pub fn count(&self) -> usize {
        self.words.len()
    }

    /// The words of the request, whose bytes are those that it was found in.
    pub fn words<'a>(&'a self, bytes: &'a [u8]) -> impl Iterator<Item = &'a [u8]> + 'a {
        let bytes = if self.is_inline { &self.inline[..] } else { bytes };
        self.words.iter().map(move |word| &bytes[word.start as usize..word.end as usize])
    }

    pub fn reset(&mut self) {
        self.words.clear();
        self.words.shrink_to(KEPT_WORDS);
        self.inline = Vec::new();
        (self.at, self.looked, self.is_inline, self.missing, self.bulk, self.size) = Default::default();
    }

    pub fn held(&self) -> usize {
        self.words.capacity() * mem::size_of::<Range<u32>>() + self.inline.capacity()
    }

    /// The line that begins a request: a number of words, or the request itself.
    fn begin(&mut self, bytes: &[u8]) -> Result<bool, Broken> {
        let is_inline = bytes.first() != Some(&b'*');
        let too_long = if is_inline { "too big inline request" } else { "too big mbulk count string" };
        let Some(line) = self.line(bytes, too_long)? else { return Ok(false) };
        if is_inline {
            self.is_inline = true;
            self.split(line)?;
            return Ok(true);
        }
        let count = integer(&line[1..])
            .filter(|count| *count <= self.limits.words as i64)
            .ok_or(Broken("invalid multibulk length", None))?;
        if self.is_narrow && count > NARROW_WORDS {
            return Err(Broken("unauthenticated multibulk length", None));
        }
        self.missing = count.max(0) as usize;
        Ok(true)
    }

    /// The line that announces a bulk string.
    fn announce(&mut self, bytes: &[u8]) -> Result<bool, Broken> {
        let Some(line) = self.line(bytes, "too big bulk count string")? else { return Ok(false) };
        let Some(length) = line.strip_prefix(b"$") else {
            return Err(Broken("expected '$'", Some(*line.first().unwrap_or(&b' '))));
        };
        let length = integer(length).and_then(|it| usize::try_from(it).ok());
        let length = length.filter(|it| *it <= self.limits.bulk).ok_or(Broken("invalid bulk length", None))?;
        if self.is_narrow && length > NARROW_BULK {
            return Err(Broken("unauthenticated bulk length", None));
        }
        self.size += length + PER_WORD;
        if self.size > self.limits.request {
            return Err(Broken("too big a request", None));
        }
        self.bulk = Some(length);
        Ok(true)
    }

    fn take_bulk(&mut self, bytes: &[u8], length: usize) -> Result<bool, Broken> {
        let end = self.at + length;
        if bytes.len() < end + 2 {
            return Ok(false);
        }
        if &bytes[end..end + 2] != END {
            return Err(Broken("expected the end of a line", None));
        }
        self.words.push(self.at as u32..end as u32);
        self.at = end + 2;
        self.looked = self.at;
        self.bulk = None;
        self.missing -= 1;
        Ok(true)
    }

    /// The next line without its end, where it has come. No line has a zero byte: what has one is of another protocol, as
    /// TLS, and what stands in its later lines isn't meant for this server.
    fn line<'a>(&mut self, bytes: &'a [u8], too_long: &'static str) -> Result<Option<&'a [u8]>, Broken> {
        let begun = self.at;
        let end = bytes[self.looked..].iter().position(|byte| matches!(byte, b'\n' | 0)).map(|more| self.looked + more);
        match end {
            Some(end) if bytes[end] == 0 => Err(Broken("a zero byte in a line", None)),
            None if bytes.len() - begun > self.limits.line => Err(Broken(too_long, None)),
            None => {
                self.looked = bytes.len();
                Ok(None)
            }
            Some(end) => {
                self.at = end + 1;
                self.looked = self.at;
                let line = &bytes[begun..end];
                Ok(Some(line.strip_suffix(b"\r").unwrap_or(line)))
            }
        }
    }

    /// Takes the words of a line: apart by blanks, or in quotes, whose end another blank or the line's end has to
    /// follow.
    fn split(&mut self, line: &[u8]) -> Result<(), Broken> {
        let mut rest = line;
        loop {
            let blanks = rest.iter().take_while(|it| is_blank(**it)).count();
            rest = &rest[blanks..];
            if rest.is_empty() {
                return Ok(());
            }
            let begun = self.inline.len() as u32;
            rest = self.word(rest)?;
            self.words.push(begun..self.inline.len() as u32);
        }
    }

    /// Takes a word, and answers what follows it.
    fn word<'a>(&mut self, mut rest: &'a [u8]) -> Result<&'a [u8], Broken> {
        while let Some((first, others)) = rest.split_first() {
            match first {
                b'"' | b'\'' => {
                    let rest = self.quoted(others, *first)?;
                    let is_end = rest.first().map_or(true, |it| is_blank(*it));
                    return is_end.then_some(rest).ok_or(UNBALANCED);
                }
                blank if is_blank(*blank) => return Ok(rest),
                byte => self.inline.push(*byte),
            }
            rest = others;
        }
        Ok(rest)
    }

    /// Takes what stands in quotes, and answers what follows the closing one.
    fn quoted<'a>(&mut self, mut rest: &'a [u8], quote: u8) -> Result<&'a [u8], Broken> {
        loop {
            let (byte, others) = match (quote, rest) {
                (_, []) => return Err(UNBALANCED),
                (_, [byte, others @ ..]) if *byte == quote => return Ok(others),
                (b'\'', [b'\\', b'\'', others @ ..]) => (b'\'', others),
                (b'"', [b'\\', b'x', high, low, others @ ..])
                    if high.is_ascii_hexdigit() && low.is_ascii_hexdigit() =>
                {
                    (digit(*high) << 4 | digit(*low), others)
                }
                (b'"', [b'\\', byte, others @ ..]) => (escaped(*byte), others),
                (_, [byte, others @ ..]) => (*byte, others),
            };
            self.inline.push(byte);
            rest = others;
        }
    }
}

fn is_blank(byte: u8) -> bool {
    byte.is_ascii_whitespace() || byte == b'\x0b'
}

fn digit(hex: u8) -> u8 {
    (hex as char).to_digit(16).unwrap_or(0) as u8
}

/// What a backslash before a byte makes of it.
fn escaped(byte: u8) -> u8 {
    match byte {
        b'n' => b'\n',
        b'r' => b'\r',
        b't' => b'\t',
        b'b' => b'\x08',
        b'a' => b'\x07',
        other => other,
    }
}

/// A decimal integer as the protocol writes it: no sign but a minus, no zero before other digits.
pub fn integer(text: &[u8]) -> Option<i64> {
    let (digits, sign) = text.strip_prefix(b"-").map_or((text, 1), |digits| (digits, -1));
    match digits {
        [b'1'..=b'9', ..] => {}
        b"0" if sign == 1 => {}
        _ => return None,
    }
    digits.iter().try_fold(0_i64, |number, digit| match digit {
        b'0'..=b'9' => number.checked_mul(10)?.checked_add(sign * i64::from(digit - b'0')),
        _ => None,
    })
}

#[derive(Clone, Copy, Debug, Default, PartialEq, Eq)]
pub enum Protocol {
    #[default]
    Two,
    Three,
}

#[derive(Clone, Debug, PartialEq, Eq)]
pub enum Reply {
    Status(&'static str),
    /// Each character is a byte of that number, as a client sent it.
    Error(String),
    Integer(i64),
    Bulk(Arc<[u8]>),
    /// A text for a person.
    Text(String),
    Nil,
    /// No array, where one would be.
    NilArray,
    Array(Vec<Reply>),
    Map(Vec<(Reply, Reply)>),
    /// An array of so many replies, which follow it.
    Begun(usize),
}

impl Reply {
    pub fn bulk(content: &[u8]) -> Reply {
        Reply::Bulk(content.into())
    }

    pub fn held(&self) -> usize {
        mem::size_of::<Reply>()
            + match self {
                Reply::Bulk(content) => content.len(),
                Reply::Error(text) | Reply::Text(text) => text.len(),
                Reply::Array(replies) => replies.iter().map(Reply::held).sum(),
                Reply::Map(pairs) => pairs.iter().map(|(name, value)| name.held() + value.held()).sum(),
                _ => 0,
            }
    }

    /// Writes it, all but the content of a bulk string that is at least so long, which is answered.
    pub fn write(&self, to: &mut Vec<u8>, protocol: Protocol, long: usize) -> Option<Arc<[u8]>> {
        match self {
            Reply::Status(text) => {
                to.push(b'+');
                to.extend_from_slice(text.as_bytes());
                to.extend_from_slice(END);
            }
            Reply::Error(text) => error(to, text),
            Reply::Integer(number) => line(to, format_args!(":{number}")),
            Reply::Bulk(content) => {
                line(to, format_args!("${}", content.len()));
                if content.len() >= long {
                    return Some(content.clone());
                }
                to.extend_from_slice(content);
                to.extend_from_slice(END);
            }
            Reply::Text(text) if protocol == Protocol::Three => {
                line(to, format_args!("={}\r\ntxt:{text}", text.len() + 4))
            }
            Reply::Text(text) => line(to, format_args!("${}\r\n{text}", text.len())),
            Reply::NilArray if protocol == Protocol::Two => to.extend_from_slice(b"*-1\r\n"),
            Reply::NilArray | Reply::Nil => {
                to.extend_from_slice(if protocol == Protocol::Three { b"_\r\n" } else { b"$-1\r\n" })
            }
            Reply::Begun(count) => line(to, format_args!("*{count}")),
            Reply::Array(replies) => {
                line(to, format_args!("*{}", replies.len()));
                replies.iter().for_each(|it| it.write_whole(to, protocol));
            }
            Reply::Map(pairs) => {
                match protocol {
                    Protocol::Two => line(to, format_args!("*{}", 2 * pairs.len())),
                    Protocol::Three => line(to, format_args!("%{}", pairs.len())),
                }
                for (name, value) in pairs {
                    name.write_whole(to, protocol);
                    value.write_whole(to, protocol);
                }
            }
        }
        None
    }

    pub fn write_whole(&self, to: &mut Vec<u8>, protocol: Protocol) {
        let left = self.write(to, protocol, usize::MAX);
        debug_assert!(left.is_none());
    }
}

/// A line that a client sent within it would end the reply, and begin another.
fn error(to: &mut Vec<u8>, text: &str) {
    to.push(b'-');
    to.extend(text.chars().map(|it| if matches!(it, '\r' | '\n') { b' ' } else { it as u8 }));
    to.extend_from_slice(END);
}

fn line(to: &mut Vec<u8>, text: fmt::Arguments<'_>) {
    write!(to, "{text}\r\n").expect("memory takes what is written to it");
}

#[cfg(test)]
mod tests {
    use super::*;

    /// The requests of these bytes that come in pieces of a size.
    fn requests(sent: &[u8], size: usize) -> Result<Vec<Vec<Vec<u8>>>, Broken> {
        let (mut parser, mut bytes, mut got) = (Parser::default(), Vec::new(), Vec::new());
        for piece in sent.chunks(size) {
            bytes.extend_from_slice(piece);
            while let Some(length) = parser.parse(&bytes)? {
                let words: Vec<_> = parser.words(&bytes).map(<[u8]>::to_vec).collect();
                got.extend(Some(words).filter(|it| !it.is_empty()));
                bytes.drain(..length);
                parser.reset();
            }
        }
        Ok(got)
    }

    #[test]
    fn requests_come_in_pieces_of_any_size() {
        let sent = b"*2\r\n$3\r\nGET\r\n$4\r\na\r\nb\r\n\r\nPING now\r\n*0\r\n*1\r\n$0\r\n\r\nSET 'a b' \"\\x41\\n\"\n";
        let words = |words: &[&str]| words.iter().map(|it| Vec::from(*it)).collect::<Vec<_>>();
        let wanted =
            vec![words(&["GET", "a\r\nb"]), words(&["PING", "now"]), words(&[""]), words(&["SET", "a b", "A\n"])];
        for size in 1..=sent.len() {
            assert_eq!(requests(sent, size).as_ref(), Ok(&wanted), "in pieces of {size}");
        }
    }
}
