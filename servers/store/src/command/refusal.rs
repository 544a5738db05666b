//! Why a command isn't done, in the words of Redis.

use crate::keyspace::NoRoom;

#[derive(Debug, PartialEq, Eq)]
pub enum Refusal {
    Plain(&'static str),
    /// It repeats a word of the client's, or tells a number.
    Told(String),
    UnknownPart(&'static str, String),
    /// These are told with the command's name, and one with its part.
    WordCount,
    PartWordCount(&'static str),
    ExpireTime,
    InMulti,
    AbortedExec(Box<Refusal>),
}

/// Those that several commands have, and those of more than a line.
impl Refusal {
    pub const SYNTAX: Refusal = Refusal::Plain("ERR syntax error");
    pub const NOT_AN_INTEGER: Refusal = Refusal::Plain("ERR value is not an integer or out of range");
    pub const PASSWORD: Refusal = Refusal::Plain("WRONGPASS invalid username-password pair or user is disabled.");
    pub const NO_PASSWORD: Refusal = Refusal::Plain(
        "ERR AUTH <password> called without any password configured for the default user. Are \
         you sure your configuration is correct?",
    );
    pub const HELLO_NO_AUTH: Refusal = Refusal::Plain(
        "NOAUTH HELLO must be called with the client already authenticated, otherwise the \
         HELLO AUTH <user> <pass> option can be used to authenticate the client and \
         select the RESP protocol version at the same time",
    );

    /// What the client of a command is told.
    pub fn text(self, command: &str) -> String {
        match self {
            Refusal::Plain(text) => text.into(),
            Refusal::Told(text) => text,
            Refusal::UnknownPart(of, part) => format!("ERR unknown subcommand '{part}'. Try {of} HELP."),
            Refusal::WordCount => format!("ERR wrong number of arguments for '{command}' command"),
            Refusal::PartWordCount(part) => format!("ERR wrong number of arguments for '{command}|{part}' command"),
            Refusal::ExpireTime => format!("ERR invalid expire time in '{command}' command"),
            Refusal::InMulti => format!("ERR {} inside MULTI is not allowed", command.to_ascii_uppercase()),
            Refusal::AbortedExec(why) => {
                let why = why.text(command);
                let why = why.strip_prefix("ERR ").unwrap_or(&why);
                format!("EXECABORT Transaction discarded because of: {why}")
            }
        }
    }
}

impl From<NoRoom> for Refusal {
    fn from(no_room: NoRoom) -> Refusal {
        Refusal::Plain(match no_room {
            NoRoom::Memory => "OOM command not allowed when used memory > 'maxmemory'.",
            NoRoom::Process => "OOM the process holds as much memory as it may",
            NoRoom::Deadlines => "OOM no room for another key that expires",
        })
    }
}
