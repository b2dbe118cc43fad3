//! The sockets that a router has from the one whose place it takes: that one handed them on by exec, or the service
//! manager kept them, as systemd's file descriptor store does.
use crate::left::{Left, Unusable};
use crate::mroute::{Mroute, MROUTE};
use log::debug;
use socket2::Socket;
use std::collections::BTreeMap;
use std::ffi::CString;
use std::fs::File;
use std::io::{self, Read, Seek, Write};
use std::os::unix::io::{AsRawFd, FromRawFd, IntoRawFd, OwnedFd, RawFd};

/// Names what is handed on by exec: `state:3 mroute:4 ..`.
pub const HANDED: &str = "VIQESHORD_HANDED";
pub const STATE: &str = "state";
/// The first that the service manager hands on (sd_listen_fds(3)).
const FIRST_LISTENED: RawFd = 3;

#[derive(Default, Debug)]
pub struct Inherited(BTreeMap<String, OwnedFd>);

/// Whether a descriptor is closed by exec.
pub fn close_on_exec(fd: RawFd, is_closed: bool) -> io::Result<()> {
    // SAFETY: the call takes any number.
    match unsafe { libc::fcntl(fd, libc::F_SETFD, if is_closed { libc::FD_CLOEXEC } else { 0 }) } {
        -1 => Err(io::Error::last_os_error()),
        _ => Ok(()),
    }
}

/// A variable of the environment, which is there for this process alone.
fn told(name: &str) -> Option<String> {
    let value = std::env::var(name).ok();
    std::env::remove_var(name);
    value
}

impl Inherited {
    /// A descriptor that this process got under a name, if it is open.
    fn add(&mut self, name: &str, fd: RawFd) {
        if fd >= FIRST_LISTENED && close_on_exec(fd, true).is_ok() {
            // SAFETY: it is open, and nothing else of this process has it: it was there when the process began.
            self.0.insert(name.to_string(), unsafe { OwnedFd::from_raw_fd(fd) });
        }
    }

    /// What was handed on by exec. It is to be called once, before anything is opened.
    pub fn by_exec() -> Option<Inherited> {
        let handed = told(HANDED)?;
        let mut found = Inherited::default();
        let pairs = handed.split_whitespace().filter_map(|pair| pair.rsplit_once(':'));
        pairs.filter_map(|(name, fd)| Some((name, fd.parse().ok()?))).for_each(|(name, fd)| found.add(name, fd));
        Some(found)
    }

    /// What the service manager kept. It is to be called once, before anything is opened.
    pub fn by_manager() -> Inherited {
        let [process, count, names] = ["LISTEN_PID", "LISTEN_FDS", "LISTEN_FDNAMES"].map(told);
        let mut found = Inherited::default();
        if process != Some(std::process::id().to_string()) {
            return found;
        }
        let count = count.and_then(|count| count.parse::<usize>().ok()).unwrap_or(0);
        for (name, fd) in names.unwrap_or_default().split(':').take(count).zip(FIRST_LISTENED..) {
            found.add(name, fd);
        }
        found
    }

    pub fn take(&mut self, name: &str) -> Option<Socket> {
        // SAFETY: the descriptor is open, and nobody else has it.
        self.0.remove(name).map(|fd| unsafe { Socket::from_raw_fd(fd.into_raw_fd()) })
    }

    pub fn has(&self, name: &str) -> bool {
        self.0.contains_key(name)
    }

    /// The names that begin so, each without that.
    pub fn names(&self, begin: &str) -> Vec<String> {
        self.0.keys().filter_map(|name| name.strip_prefix(begin)).map(str::to_string).collect()
    }

    /// The router begins anew: what came for the one before it isn't for this one, and the kernel forgets its entries.
    pub fn end_routing(&mut self) {
        if let Some(Err(error)) = self.take(MROUTE).map(|socket| Mroute::of(socket).end()) {
            debug!("the kernel's multicast routing was ended: {error}");
        }
        self.0.retain(|name, _| ["control", "metrics"].contains(&name.as_str()));
    }

    /// What was handed on beside the sockets.
    pub fn left(&mut self) -> Result<(Left, Vec<u8>), Unusable> {
        let unreadable = |error: io::Error| Unusable::Unreadable(error.to_string());
        let mut file = File::from(self.0.remove(STATE).ok_or(Unusable::CutShort)?);
        let mut bytes = Vec::new();
        file.rewind().and_then(|()| file.read_to_end(&mut bytes)).map_err(unreadable)?;
        Left::read(&bytes)
    }
}

/// A file of memory with some bytes, which nobody can change.
pub fn sealed(bytes: &[u8]) -> io::Result<File> {
    let name = CString::new("viqeshord-state").unwrap_or_default();
    // SAFETY: the name ends with a zero.
    let fd = unsafe { libc::memfd_create(name.as_ptr(), libc::MFD_CLOEXEC | libc::MFD_ALLOW_SEALING) };
    if fd < 0 {
        return Err(io::Error::last_os_error());
    }
    // SAFETY: it was opened just so.
    let mut file = unsafe { File::from_raw_fd(fd) };
    file.write_all(bytes)?;
    let seals = libc::F_SEAL_SEAL | libc::F_SEAL_SHRINK | libc::F_SEAL_GROW | libc::F_SEAL_WRITE;
    // SAFETY: the descriptor is open.
    match unsafe { libc::fcntl(file.as_raw_fd(), libc::F_ADD_SEALS, seals) } {
        -1 => Err(io::Error::last_os_error()),
        _ => Ok(file),
    }
}

#[cfg(test)]
mod tests {
    use super::*;

    #[test]
    fn a_sealed_file_has_its_bytes_and_keeps_them() {
        let mut file = sealed(b"these").unwrap();
        assert!(file.write_all(b"more").is_err());
        let mut bytes = Vec::new();
        file.rewind().unwrap();
        file.read_to_end(&mut bytes).unwrap();
        assert_eq!(bytes, b"these");
    }

    #[test]
    fn descriptors_are_taken_by_name_once() {
        let mut found = Inherited::default();
        let (one, _other) = std::os::unix::net::UnixStream::pair().unwrap();
        found.add("bfd-7", one.into_raw_fd());
        // What isn't open isn't taken.
        found.add("bfd-8", 987_654);
        assert_eq!(found.names("bfd-"), ["7"]);
        assert!(found.take("bfd-7").is_some() && found.take("bfd-7").is_none() && found.names("").is_empty());
        assert_eq!(found.left(), Err(Unusable::CutShort));
    }
}
