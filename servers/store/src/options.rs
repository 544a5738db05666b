//! What the server is told by its command line.

use crate::settings::Settings;
use servers::password::Password;
use std::env;
use std::env::VarError;
use std::fmt::Display;
use std::net::{IpAddr, Ipv4Addr};
use std::ops::RangeInclusive;
use std::str::FromStr;
use std::time::Duration;

pub const HELP: &str = "store [OPTION..]: a server of expiring keys, to which redis-cli talks

  --port N      the port, 6400 where none is given; 0 takes any that is free
  --bind IP     the address, 127.0.0.1 where none is given
  --password-file FILE
                what clients have to tell first is its first line; where none is given STORE_PASSWORD of the environment
  --protected-mode no
                serves an address that isn't the machine's own without a password
  --keys N      room for so many keys that expire, 1000000 where none is given, 4000000 at most
  --memory MIB  room for keys, values and connections, 1024 where none is given: a quarter is for what connections hold
  --most MIB    the most that the process may hold; where none is given twice --memory, 100 bytes for each of --keys,
                and 32 MiB
  --clients N   the most connections at a time, 1000 where none is given
  --timeout N   closes a connection that is silent for so many seconds; 0 is never, and where none is given
  --keepalive N after so many seconds of silence the machine asks a client's host whether it is there, and nine times more,
                after a quarter of them each: then its connection ends. 300 where none is given; 0 asks nobody
  --threads N   the threads that serve them, 4 where none is given
  --help        this text

Keys, values and connections count as what they take: --memory, 100 bytes for each of --keys, and 32 MiB hold them. Where
values of many sizes come and go the process holds holes beside them, but never more than --most: then writes are refused.
A connection counts as what came of its requests, what waits to be sent to it, and 2 KiB. Where the room of connections
is used up, a new one is refused by name, and so is half a request that grows: its connection ends.
Without a password whoever reaches the port reads and changes every key. It keeps nothing on a disk.
A key or value has at most 1 MiB, a request 2 MiB. SIGTERM ends it in order: what has come is answered.";

/// What the process takes for each key that expires, and beside all else.
const PER_DEADLINE: usize = 100;
const BESIDE: usize = 32 << 20;

pub struct Options {
    pub bind: IpAddr,
    pub port: u16,
    pub keys: usize,
    /// In bytes.
    pub memory: usize,
    most: Option<usize>,
    pub clients: usize,
    pub threads: usize,
    is_protected: bool,
    pub settings: Settings,
}

impl Options {
    /// None where help is asked for.
    pub fn of(mut args: impl Iterator<Item = String>) -> Result<Option<Options>, String> {
        // Those of a command line that tells none.
        let mut options = Options {
            bind: Ipv4Addr::LOCALHOST.into(),
            port: 6400,
            keys: 1_000_000,
            memory: 1 << 30,
            most: None,
            clients: 1_000,
            threads: 4,
            is_protected: true,
            settings: Settings::default(),
        };
        while let Some(name) = args.next() {
            if name == "--help" || name == "-h" {
                return Ok(None);
            }
            options.take(&name, args.next())?;
        }
        options.settings.password = options.settings.password.or(password_of_environment()?);
        let bind = options.bind;
        if options.is_protected && !bind.is_loopback() && options.settings.password.is_none() {
            return Err(format!("{bind} is for others too: a --password-file is wanted, or --protected-mode no"));
        }
        options.most()?;
        Ok(Some(options))
    }

    fn take(&mut self, name: &str, value: Option<String>) -> Result<(), String> {
        let value = || value.ok_or(format!("{name} wants a value"));
        match name {
            "--port" => self.port = number(name, &value()?, 0..=u16::MAX)?,
            "--bind" => {
                let value = value()?;
                self.bind = value.parse().map_err(|_| format!("--bind takes an IP address, not {value}"))?;
            }
            "--password-file" => self.settings.password = Some(Password::of_file(&value()?)?),
            "--protected-mode" => match &value()?[..] {
                "no" => self.is_protected = false,
                "yes" => self.is_protected = true,
                other => return Err(format!("--protected-mode takes yes or no, not {other}")),
            },
            "--keys" => self.keys = number(name, &value()?, 0..=4_000_000)?,
            "--memory" => self.memory = number(name, &value()?, 1..=1 << 20)? << 20,
            "--most" => self.most = Some(number(name, &value()?, 1..=1 << 21)? << 20),
            "--clients" => self.clients = number(name, &value()?, 1..=100_000)?,
            "--timeout" => self.settings.timeout = seconds(number(name, &value()?, 0..=1_000_000)?),
            "--keepalive" => self.settings.keepalive = seconds(number(name, &value()?, 0..=30_000)?),
            "--threads" => self.threads = number(name, &value()?, 1..=64)?,
            _ => return Err(format!("there is no option {name}")),
        }
        Ok(())
    }

    /// The most bytes that the process may hold: more than what is counted, so that this goes in whole.
    pub fn most(&self) -> Result<usize, String> {
        let counted = self.memory + self.keys * PER_DEADLINE + BESIDE;
        let least = counted + self.memory / 8;
        match self.most {
            None => Ok(counted + self.memory),
            Some(most) if most >= least => Ok(most),
            Some(_) => Err(format!("--most is {} MiB at least, for what is counted", (least >> 20) + 1)),
        }
    }
}

/// The value of an option, which has to be in a range.
fn number<N: FromStr + PartialOrd + Display>(name: &str, value: &str, range: RangeInclusive<N>) -> Result<N, String> {
    let number = value.parse().ok().filter(|it| range.contains(it));
    number.ok_or_else(|| format!("{name} takes a number from {} to {}, not {value}", range.start(), range.end()))
}

/// None of them is no time.
fn seconds(seconds: u64) -> Option<Duration> {
    Some(Duration::from_secs(seconds)).filter(|it| !it.is_zero())
}

/// It may stand in the environment too.
fn password_of_environment() -> Result<Option<Password>, String> {
    match env::var(PASSWORD) {
        Ok(text) => Password::of(&text).map(Some).ok_or(format!("{PASSWORD} is empty")),
        Err(VarError::NotPresent) => Ok(None),
        Err(VarError::NotUnicode(_)) => Err(format!("{PASSWORD} is no text")),
    }
}

const PASSWORD: &str = "STORE_PASSWORD";
