//! Progress of long work: a line on standard error, if that is a terminal. Short work leaves no trace.

use std::io::{self, IsTerminal, Write};
use std::time::{Duration, Instant};

/// Work that takes less is not worth a line.
const PATIENCE: Duration = Duration::from_millis(500);
/// The time from one line to the next.
const PAUSE: Duration = Duration::from_millis(100);
/// Steps from one look at the clock to the next.
const STRIDE: usize = 1024;

/// Counts steps of some work; the line is cleared when it goes.
pub struct Progress {
    work: &'static str,
    steps: usize,
    done: usize,
    due: Option<Instant>,
    shown: bool,
}

impl Progress {
    pub fn new(work: &'static str, steps: usize) -> Progress {
        let due = io::stderr().is_terminal().then(|| Instant::now() + PATIENCE);
        Progress { work, steps, done: 0, due, shown: false }
    }

    /// One more step is done.
    pub fn step(&mut self) {
        self.done += 1;
        if self.done.is_multiple_of(STRIDE) {
            self.look();
        }
    }

    /// So many more steps are done.
    pub fn leap(&mut self, steps: usize) {
        self.done += steps;
        self.look();
    }

    fn look(&mut self) {
        let Some(due) = self.due else { return };
        let now = Instant::now();
        if now >= due {
            let _ = write!(io::stderr(), "\r{}", line(self.work, self.done, self.steps));
            self.shown = true;
            self.due = Some(now + PAUSE);
        }
    }
}

impl Drop for Progress {
    fn drop(&mut self) {
        if self.shown {
            let _ = write!(io::stderr(), "\r\x1b[K");
        }
    }
}

fn line(work: &str, done: usize, steps: usize) -> String {
    let percent = (done * 100).checked_div(steps).unwrap_or(100).min(100);
    format!("kbmap: {work}, {percent} %")
}

#[cfg(test)]
mod tests {
    use super::line;

    #[test]
    fn lines() {
        assert_eq!(line("drawing", 1, 3), "kbmap: drawing, 33 %");
        assert_eq!(line("drawing", 3, 3), "kbmap: drawing, 100 %");
        assert_eq!(line("drawing", 0, 0), "kbmap: drawing, 100 %");
    }
}
