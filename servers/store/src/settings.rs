//! What connections are served by, as it was told at the start.

use servers::password::Password;
use socket2::TcpKeepalive;
use std::time::Duration;

#[derive(Debug)]
pub struct Settings {
    /// What a client has to tell before all else.
    pub password: Option<Password>,
    /// How long a client may be silent.
    pub timeout: Option<Duration>,
    /// After how long a silence the machine asks a client's host whether it is there.
    pub keepalive: Option<Duration>,
}

impl Default for Settings {
    fn default() -> Settings {
        Settings { password: None, timeout: None, keepalive: Some(Duration::from_secs(300)) }
    }
}

impl Settings {
    /// How a host is asked: again after a quarter of the silence, and it is gone where it leaves so many unanswered.
    pub fn probes(&self) -> Option<TcpKeepalive> {
        const UNANSWERED: u32 = 9;
        let silence = self.keepalive?;
        let interval = (silence / 4).max(Duration::from_secs(1));
        Some(TcpKeepalive::new().with_time(silence).with_interval(interval).with_retries(UNANSWERED))
    }
}
