//! What is told to the service manager: which sockets it is to keep where the router dies (sd_pid_notify_with_fds(3)).
use nix::sys::socket::{sendmsg, socket, AddressFamily, ControlMessage, MsgFlags, SockFlag, SockType, UnixAddr};
use std::ffi::OsString;
use std::io::{self, IoSlice};
use std::os::unix::ffi::OsStrExt;
use std::os::unix::io::{AsRawFd, FromRawFd, OwnedFd, RawFd};
use std::path::Path;

/// The manager's socket, where there is one.
#[derive(Debug, Default)]
pub struct Manager(Option<OsString>);

impl Manager {
    pub fn new() -> Manager {
        Manager(std::env::var_os("NOTIFY_SOCKET").filter(|path| !path.is_empty()))
    }

    pub fn is_there(&self) -> bool {
        self.0.is_some()
    }

    fn say(&self, text: &str, fd: Option<RawFd>) -> io::Result<()> {
        let path = match &self.0 {
            Some(path) => path.as_bytes(),
            None => return Ok(()),
        };
        let address = match path.strip_prefix(b"@") {
            Some(name) => UnixAddr::new_abstract(name)?,
            None => UnixAddr::new(Path::new(std::ffi::OsStr::from_bytes(path)))?,
        };
        let flags = SockFlag::SOCK_CLOEXEC;
        let from = socket(AddressFamily::Unix, SockType::Datagram, flags, None)?;
        // SAFETY: it was opened just so, and is closed at the end.
        let from = unsafe { OwnedFd::from_raw_fd(from) };
        let fds: Vec<_> = fd.into_iter().collect();
        let rights = [ControlMessage::ScmRights(&fds)];
        let rights = if fds.is_empty() { &[][..] } else { &rights[..] };
        sendmsg(from.as_raw_fd(), &[IoSlice::new(text.as_bytes())], rights, MsgFlags::empty(), Some(&address))?;
        Ok(())
    }

    /// Has it keep a socket under a name, in place of the one that it has.
    pub fn keep(&self, name: &str, fd: RawFd) -> io::Result<()> {
        // An error that waits at a socket isn't its end.
        self.say(&format!("FDSTORE=1\nFDNAME={name}\nFDPOLL=0"), Some(fd))
    }

    pub fn forget(&self, name: &str) -> io::Result<()> {
        self.say(&format!("FDSTOREREMOVE=1\nFDNAME={name}"), None)
    }
}
