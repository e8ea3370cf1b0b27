//! How long the work has taken so far, on a terminal.

use std::io::{self, IsTerminal, Write};
use std::sync::mpsc::{self, Receiver, RecvTimeoutError};
use std::thread;
use std::time::{Duration, Instant};

/// Does the work. If standard error is a terminal, a line there counts the
/// seconds and goes when the work is done.
pub fn during<T>(what: &str, work: impl FnOnce() -> T) -> T {
    if !io::stderr().is_terminal() {
        return work();
    }
    let (working, ended) = mpsc::channel();
    thread::scope(|scope| {
        scope.spawn(move || count_seconds(what, &ended));
        let given = work();
        drop(working);
        given
    })
}

/// Counts until the other end of the channel is dropped.
fn count_seconds(what: &str, ended: &Receiver<()>) {
    let start = Instant::now();
    let mut error = io::stderr();
    let second = Duration::from_secs(1);
    while ended.recv_timeout(second) == Err(RecvTimeoutError::Timeout) {
        // The line is a help only: the work goes on without it.
        let _ = write!(error, "\r{what}, {} s", start.elapsed().as_secs());
    }
    if start.elapsed() >= second {
        let _ = write!(error, "\r\x1b[K");
    }
}
