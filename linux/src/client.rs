//! What asks a running router: `viqeshord show` and `viqeshord clear`.
use crate::control;
use crate::show::Topic;
use clap::ValueEnum;
use nix::unistd::isatty;
use std::io::{self, Write};
use std::net::Ipv4Addr;
use std::path::Path;
use std::process::ExitCode;
use std::time::Duration;

/// What a router can begin anew with.
#[derive(Clone, Copy, ValueEnum)]
pub enum Cleared {
    /// Set all counters to 0
    Counters,
    /// Write the kernel's entries again
    Mroute,
    /// Take an interface down and up again, which learns its neighbours and hosts again
    Interface,
}

/// What is shown.
pub struct Shown {
    pub topic: Topic,
    /// The addresses after it.
    pub about: Vec<Ipv4Addr>,
    pub is_json: bool,
}

impl Shown {
    fn line(&self) -> String {
        let about: String = self.about.iter().map(|address| format!(" {address}")).collect();
        format!("show {}{about}{}", self.topic.name(), if self.is_json { " json" } else { "" })
    }
}

/// The answer to a line, or why there is none.
fn answered(socket: &Path, line: &str) -> Result<String, String> {
    match control::ask(socket, line) {
        Ok(answer) if answer.starts_with("error: ") => Err(answer.trim_end().to_string()),
        Ok(answer) => Ok(answer),
        Err(error) => Err(format!("{}: {error}; is the router running?", socket.display())),
    }
}

/// Prints the answer to a line.
fn ask(socket: &Path, line: &str) -> ExitCode {
    let printed = answered(socket, line).map(|answer| io::stdout().write_all(answer.as_bytes()));
    match printed {
        Ok(Ok(())) => ExitCode::SUCCESS,
        Ok(Err(_)) => ExitCode::FAILURE,
        Err(why) => {
            eprintln!("{why}");
            ExitCode::FAILURE
        }
    }
}

pub fn show(shown: &Shown, socket: &Path) -> ExitCode {
    ask(socket, &shown.line())
}

/// Shows it again and again, until nobody reads it any more: on a terminal in place of what stood there, else one
/// answer after the other. A router that doesn't answer may come again.
pub fn watch(shown: &Shown, every: f64, socket: &Path) -> ExitCode {
    const CLEAR_SCREEN: &str = "\x1b[H\x1b[2J";
    if !(0.1..=86_400.0).contains(&every) {
        eprintln!("--watch {every}: the interval has to be 0.1 to 86400 seconds");
        return ExitCode::from(2);
    }
    let is_terminal = isatty(libc::STDOUT_FILENO).unwrap_or(false);
    loop {
        let answer = answered(socket, &shown.line()).unwrap_or_else(|why| why + "\n");
        let (before, after) = if is_terminal { (CLEAR_SCREEN, "") } else { ("", "\n") };
        let mut out = io::stdout().lock();
        if out.write_all([before, &answer, after].concat().as_bytes()).and_then(|()| out.flush()).is_err() {
            return ExitCode::SUCCESS;
        }
        drop(out);
        std::thread::sleep(Duration::from_secs_f64(every));
    }
}

pub fn clear(what: Cleared, name: Option<&str>, socket: &Path) -> ExitCode {
    let line = match (what, name) {
        (Cleared::Counters, None) => "clear counters".to_string(),
        (Cleared::Mroute, None) => "clear mroute".to_string(),
        (Cleared::Interface, Some(name)) => format!("clear interface {name}"),
        (Cleared::Interface, None) => {
            eprintln!("clear interface: the name of the interface is missing");
            return ExitCode::from(2);
        }
        (_, Some(name)) => {
            eprintln!("{name}: only `clear interface` takes a name");
            return ExitCode::from(2);
        }
    };
    ask(socket, &line)
}
