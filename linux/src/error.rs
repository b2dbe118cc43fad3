//! Why the router can't begin, or go on. What else goes wrong costs what it is about, and a line.
use std::io;
use std::path::PathBuf;
use thiserror::Error;

#[derive(Debug, Error)]
pub enum Fatal {
    #[error("netlink: {0}")]
    Netlink(#[source] io::Error),
    #[error("the kernel's multicast routing (is another router at work?): {0}")]
    MulticastRouting(#[source] io::Error),
    #[error("a socket for packets: {0}")]
    Socket(#[source] io::Error),
    #[error("random numbers: {0}")]
    Random(#[from] rand::Error),
    #[error("signals: {0}")]
    Signals(#[source] io::Error),
    #[error("waiting for packets: {0}")]
    Wait(#[from] nix::errno::Errno),
    #[error("{}: {error}", .path.display())]
    Control { path: PathBuf, error: io::Error },
    #[error("the settings: {0}")]
    Settings(#[source] viqeshor::Error),
    /// Memory was refused to the library.
    #[error("the router failed: {0}")]
    Router(#[from] viqeshor::Error),
}

impl From<Fatal> for io::Error {
    fn from(fatal: Fatal) -> io::Error {
        io::Error::new(io::ErrorKind::Other, fatal.to_string())
    }
}
