//! Waiting for what takes long, and telling how far it is.

use crate::tell;
use std::sync::mpsc::{Receiver, RecvTimeoutError};
use std::time::{Duration, Instant};

/// Tells of a call that takes longer than a second, after the first and then every five.
pub struct Progress {
    began: Instant,
    next: Instant,
    is_quiet: bool,
}

impl Progress {
    pub fn new(is_quiet: bool) -> Progress {
        let began = Instant::now();
        Progress { began, next: began + Duration::from_secs(1), is_quiet }
    }

    /// Since the call began.
    pub fn elapsed(&self) -> Duration {
        self.began.elapsed()
    }

    /// What is sent before a moment, if there is one; while it isn't, what is being done is told.
    pub fn awaited<T>(
        &mut self,
        sent: &Receiver<T>,
        until: Option<Instant>,
        doing: &str,
    ) -> Option<T> {
        loop {
            let wake = until.map_or(self.next, |until| until.min(self.next));
            match sent.recv_timeout(wake.saturating_duration_since(Instant::now())) {
                Ok(value) => return Some(value),
                Err(RecvTimeoutError::Disconnected) => return None,
                Err(RecvTimeoutError::Timeout) => {}
            }
            let now = Instant::now();
            if until.is_some_and(|until| until <= now) {
                return None;
            }
            if self.next <= now {
                self.next = now + Duration::from_secs(5);
                if !self.is_quiet {
                    tell(&format!("plumanchor: {doing}, {} s so far\n", self.elapsed().as_secs()));
                }
            }
        }
    }
}
