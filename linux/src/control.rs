//! The control socket: a client writes a line, `show WHAT`, `show WHAT json` or `clear WHAT`, and reads the answer. A
//! mark ends it, so that one that was cut off is known.
use crate::server::{Protocol, Server};
use nix::sys::stat::{umask, Mode};
use nix::unistd::{chown, Group};
use socket2::{Domain, SockAddr, Socket, Type};
use std::io::{self, Read, Write};
use std::mem::ManuallyDrop;
use std::ops::{Deref, DerefMut};
use std::os::unix::fs::PermissionsExt;
use std::os::unix::io::{AsRawFd, FromRawFd};
use std::os::unix::net::{UnixListener, UnixStream};
use std::path::{Path, PathBuf};

/// End of transmission: it stands in no answer.
const END: &str = "\x04";
const LINE: Protocol = Protocol { whole: line, longest: 256, end: END };

fn line(written: &[u8]) -> Option<String> {
    let end = written.iter().position(|byte| *byte == b'\n')?;
    Some(String::from_utf8_lossy(&written[..end]).trim().to_string())
}

/// Where the control socket is, and who may ask.
#[derive(Clone, Debug, PartialEq, Eq)]
pub struct Place {
    pub path: PathBuf,
    /// The group whose socket it is; else the router's own.
    pub group: Option<String>,
    /// The permissions; who may write may ask.
    pub mode: u32,
}

impl Place {
    /// Gives the socket to its group, and opens it to those that may ask. Until that is done it is the router's alone.
    fn open_up(&self) -> io::Result<()> {
        if let Some(name) = &self.group {
            let missing = || io::Error::new(io::ErrorKind::NotFound, format!("there is no group {name}"));
            let group = Group::from_name(name)?.ok_or_else(missing)?;
            chown(&self.path, None, Some(group.gid)).map_err(|error| {
                io::Error::new(
                    io::Error::from(error).kind(),
                    format!("it can't be given to the group {name}; the router has to be a member of it: {error}"),
                )
            })?;
        }
        std::fs::set_permissions(&self.path, std::fs::Permissions::from_mode(self.mode))
    }
}

/// Binds to a path, so that nobody but the router's user may ask at first.
fn bound(path: &Path) -> io::Result<Socket> {
    let socket = Socket::new(Domain::UNIX, Type::STREAM, None)?;
    let before = umask(Mode::from_bits_truncate(0o177));
    let bound = socket.bind(&SockAddr::unix(path)?);
    umask(before);
    bound.map(|()| socket)
}

pub struct Control {
    server: Server,
    place: Place,
}

impl Control {
    /// The listener of the router before this one, where that listened there; else it answers the listener.
    pub fn resume(place: &Place, listener: Socket) -> io::Result<Control> {
        // SAFETY: the descriptor is open, and isn't closed here.
        let at = ManuallyDrop::new(unsafe { UnixListener::from_raw_fd(listener.as_raw_fd()) }).local_addr()?;
        if at.as_pathname() != Some(place.path.as_path()) {
            return Err(io::Error::new(
                io::ErrorKind::AddrNotAvailable,
                "the router before this one listened elsewhere",
            ));
        }
        Ok(Control { server: Server::new(listener, LINE)?, place: place.clone() })
    }

    /// Opens the socket to those that may ask.
    pub fn open_up(&self) -> io::Result<()> {
        self.place.open_up()
    }

    /// For the router's user alone. A socket that a router left behind, and that nobody listens on any more, is
    /// replaced.
    pub fn open(place: &Place) -> io::Result<Control> {
        let path = &place.path;
        if UnixStream::connect(path).is_ok() {
            return Err(io::Error::new(io::ErrorKind::AddrInUse, "another router listens there"));
        }
        if let Some(folder) = path.parent() {
            std::fs::create_dir_all(folder)?;
        }
        match std::fs::remove_file(path) {
            Err(error) if error.kind() != io::ErrorKind::NotFound => return Err(error),
            _ => {}
        }
        Ok(Control { server: Server::new(bound(path)?, LINE)?, place: place.clone() })
    }
}

impl Deref for Control {
    type Target = Server;

    fn deref(&self) -> &Server {
        &self.server
    }
}

impl DerefMut for Control {
    fn deref_mut(&mut self) -> &mut Server {
        &mut self.server
    }
}

impl Drop for Control {
    fn drop(&mut self) {
        let _ = std::fs::remove_file(&self.place.path);
    }
}

/// Asks the router that listens on a socket.
pub fn ask(path: &Path, line: &str) -> io::Result<String> {
    let mut stream = UnixStream::connect(path)?;
    stream.write_all(format!("{line}\n").as_bytes())?;
    let mut answer = String::new();
    stream.read_to_string(&mut answer)?;
    let cut =
        || io::Error::new(io::ErrorKind::UnexpectedEof, format!("the answer was cut off after {} bytes", answer.len()));
    answer.strip_suffix(END).map(str::to_string).ok_or_else(cut)
}

#[cfg(test)]
mod tests {
    use super::*;
    use crate::server::{Answers, MOST_CLIENTS};
    use std::time::Duration;

    fn place(name: &str) -> Place {
        let path = std::env::temp_dir().join(format!("viqeshord-{name}-{}", std::process::id()));
        Place { path, group: None, mode: 0o600 }
    }

    /// Answers each line with a text, and counts those that clear.
    #[derive(Default)]
    struct Always<'a> {
        text: &'a str,
        users: Vec<Option<u32>>,
        /// Something goes wrong after the text.
        is_cut: bool,
    }

    impl Answers for Always<'_> {
        fn act(&mut self, line: &str, user: Option<u32>) -> Option<String> {
            line.starts_with("clear").then(|| {
                self.users.push(user);
                "cleared".to_string()
            })
        }

        fn tell(&mut self, line: &str, to: &mut dyn Write) -> io::Result<()> {
            write!(to, "{line}: {}", self.text)?;
            if self.is_cut {
                Err(io::ErrorKind::Other.into())
            } else {
                Ok(())
            }
        }
    }

    fn asked(control: &mut Control, line: &'static str, by: &mut Always) -> String {
        answered(control, line, by).unwrap()
    }

    fn answered(control: &mut Control, line: &'static str, by: &mut Always) -> io::Result<String> {
        let path = control.place.path.clone();
        let asker = std::thread::spawn(move || ask(&path, line));
        while !asker.is_finished() {
            control.serve(by);
            std::thread::sleep(Duration::from_millis(1));
        }
        asker.join().unwrap()
    }

    #[test]
    fn a_line_is_answered() {
        let place = place("line");
        let mut control = Control::open(&place).unwrap();
        assert!(Control::open(&place).is_err());
        let text = "a line of an answer\n".repeat(30_000);
        let mut by = Always { text: &text, ..Always::default() };
        assert_eq!(asked(&mut control, "show rp", &mut by), format!("show rp: {text}"));
        drop(control);
        assert!(!place.path.exists());
    }

    #[test]
    fn an_answer_that_was_cut_off_is_an_error() {
        let mut control = Control::open(&place("cut")).unwrap();
        let text = "a line of an answer\n".repeat(30_000);
        for text in ["", &text] {
            let mut by = Always { text, is_cut: true, ..Always::default() };
            let error = answered(&mut control, "show rp", &mut by).unwrap_err();
            assert_eq!(error.kind(), io::ErrorKind::UnexpectedEof);
        }
    }

    #[test]
    fn what_changes_the_router_is_done_by_itself_and_knows_the_user() {
        let mut control = Control::open(&place("change")).unwrap();
        let mut by = Always::default();
        assert_eq!(asked(&mut control, "clear counters", &mut by), "cleared");
        assert_eq!(by.users, [Some(nix::unistd::getuid().as_raw())]);
    }

    #[test]
    fn silent_clients_lock_no_one_out() {
        let mut control = Control::open(&place("silent")).unwrap();
        let silent: Vec<_> = (0..MOST_CLIENTS).map(|_| UnixStream::connect(&control.place.path).unwrap()).collect();
        let mut by = Always { text: "yes", ..Always::default() };
        control.serve(&mut by);
        assert_eq!(control.clients(), MOST_CLIENTS);
        assert_eq!(asked(&mut control, "show rp", &mut by), "show rp: yes");
        drop(silent);
    }

    #[test]
    fn the_socket_is_for_those_of_its_mode_and_group() {
        let group = Group::from_gid(nix::unistd::getgid()).unwrap().unwrap().name;
        let place = Place { group: Some(group), mode: 0o660, ..place("mode") };
        let mode = || std::fs::metadata(&place.path).unwrap().permissions().mode() & 0o777;
        let control = Control::open(&place).unwrap();
        assert_eq!(mode(), 0o600);
        control.open_up().unwrap();
        assert_eq!(mode(), 0o660);
        drop(control);
        // Without its group it is the router's alone, and answers.
        let nobody = Place { group: Some("viqeshor-no-such-group".to_string()), ..place.clone() };
        let mut control = Control::open(&nobody).unwrap();
        assert!(control.open_up().unwrap_err().to_string().contains("no group"));
        assert_eq!(mode(), 0o600);
        assert_eq!(asked(&mut control, "show rp", &mut Always::default()), "show rp: ");
    }
}
