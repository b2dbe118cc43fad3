//! The program that runs, and the one that is there in its place.
use crate::inherited::{close_on_exec, HANDED};
use signal_hook::consts::{SIGHUP, SIGINT, SIGTERM, SIGUSR1, SIGUSR2};
use std::ffi::{CString, OsString};
use std::io::{self, Read};
use std::os::unix::ffi::OsStrExt;
use std::os::unix::fs::MetadataExt;
use std::os::unix::io::RawFd;
use std::path::{Path, PathBuf};
use std::process::{Child, Command, Stdio};
use std::time::{Duration, Instant};

/// The signals that the router knows.
pub const SIGNALS: [i32; 5] = [SIGTERM, SIGINT, SIGHUP, SIGUSR1, SIGUSR2];
/// So long the other program may take to look at the settings.
const PATIENCE: Duration = Duration::from_secs(10);
/// What Linux puts behind the path of a program that was removed.
const DELETED: &[u8] = b" (deleted)";

/// By which a file is told from another one in its place.
#[derive(Clone, Copy, Debug, PartialEq, Eq)]
struct Stamp {
    device: u64,
    inode: u64,
    changed: (i64, i64),
}

impl Stamp {
    fn of(path: &Path) -> Option<Stamp> {
        let it = std::fs::metadata(path).ok()?;
        Some(Stamp { device: it.dev(), inode: it.ino(), changed: (it.mtime(), it.mtime_nsec()) })
    }
}

/// A program that looks at the settings.
#[derive(Debug)]
pub struct Asking {
    child: Child,
    end: Instant,
    stamp: Option<Stamp>,
}

impl Asking {
    /// Whether it can take over, or why it can't; `None` while it looks.
    pub fn answer(&mut self) -> Option<Result<(), String>> {
        let status = match self.child.try_wait() {
            Ok(Some(status)) => status,
            Ok(None) if Instant::now() <= self.end => return None,
            Ok(None) => {
                let _ = self.child.kill().and_then(|()| self.child.wait());
                return Some(Err("it doesn't answer".to_string()));
            }
            Err(error) => return Some(Err(error.to_string())),
        };
        let mut said = String::new();
        if let Some(mut told) = self.child.stderr.take() {
            let _ = told.read_to_string(&mut said);
        }
        Some(match status.success() {
            true => Ok(()),
            false => Err(if said.is_empty() { status.to_string() } else { said.trim().to_string() }),
        })
    }
}

#[derive(Debug)]
pub struct Program {
    path: PathBuf,
    arguments: Vec<OsString>,
    stamp: Option<Stamp>,
}

impl Program {
    /// The one that runs.
    pub fn running() -> Program {
        let path = std::env::current_exe().unwrap_or_default();
        let bytes = path.as_os_str().as_bytes();
        let path = std::ffi::OsStr::from_bytes(bytes.strip_suffix(DELETED).unwrap_or(bytes)).into();
        let stamp = Stamp::of(Path::new("/proc/self/exe"));
        Program { path, arguments: std::env::args_os().skip(1).collect(), stamp }
    }

    pub fn path(&self) -> &Path {
        &self.path
    }

    /// Another one is in its place.
    pub fn has_changed(&self) -> bool {
        let there = Stamp::of(&self.path);
        there.is_some() && there != self.stamp
    }

    /// Has the one that is there look at the settings, in a process of its own.
    pub fn ask(&self, file: &Path) -> Result<Asking, String> {
        let stamp = Stamp::of(&self.path);
        let mut command = Command::new(&self.path);
        command.args(["run", "--check", "--takes-over"]).arg(file);
        command.stdin(Stdio::null()).stdout(Stdio::null()).stderr(Stdio::piped());
        let child = command.spawn().map_err(|error| error.to_string())?;
        Ok(Asking { child, end: Instant::now() + PATIENCE, stamp })
    }

    /// Whether the one that was asked is still in its place.
    pub fn is_asked(&self, asking: &Asking) -> bool {
        Stamp::of(&self.path) == asking.stamp
    }

    /// Becomes the one that is there, which gets descriptors by names. It returns where that fails, and all is as it
    /// was.
    pub fn become_it(&self, handed: &[(String, RawFd)]) -> io::Error {
        let words = std::iter::once(self.path.as_os_str()).chain(self.arguments.iter().map(OsString::as_os_str));
        let words: Result<Vec<_>, _> = words.map(|word| CString::new(word.as_bytes())).collect();
        let words = match words {
            Ok(words) => words,
            Err(error) => return error.into(),
        };
        let list: Vec<_> = handed.iter().map(|(name, fd)| format!("{name}:{fd}")).collect();
        std::env::set_var(HANDED, list.join(" "));
        // A signal that comes meanwhile waits until the other one knows it.
        hold_signals(true);
        let mut answer = handed.iter().try_for_each(|(_, fd)| close_on_exec(*fd, false));
        if answer.is_ok() {
            let mut places: Vec<_> = words.iter().map(|word| word.as_ptr()).collect();
            places.push(std::ptr::null());
            // SAFETY: the list ends with a null, and each word with a zero.
            unsafe { libc::execv(places[0], places.as_ptr()) };
            answer = Err(io::Error::last_os_error());
        }
        handed.iter().for_each(|(_, fd)| drop(close_on_exec(*fd, true)));
        std::env::remove_var(HANDED);
        hold_signals(false);
        answer.err().unwrap_or_else(|| io::ErrorKind::Other.into())
    }
}

/// Whether the router's signals wait.
pub fn hold_signals(they_wait: bool) {
    let how = if they_wait { libc::SIG_BLOCK } else { libc::SIG_UNBLOCK };
    // SAFETY: the set is filled before it is read.
    unsafe {
        let mut set = std::mem::zeroed();
        libc::sigemptyset(&mut set);
        for signal in SIGNALS {
            libc::sigaddset(&mut set, signal);
        }
        libc::sigprocmask(how, &set, std::ptr::null_mut());
    }
}

#[cfg(test)]
mod tests {
    use super::*;
    use std::os::unix::fs::PermissionsExt;

    fn program(name: &str, text: &str) -> Program {
        let path = std::env::temp_dir().join(format!("viqeshord-program-{name}-{}", std::process::id()));
        std::fs::write(&path, text).unwrap();
        std::fs::set_permissions(&path, std::fs::Permissions::from_mode(0o755)).unwrap();
        Program { stamp: Stamp::of(&path), path, arguments: Vec::new() }
    }

    #[test]
    fn another_program_in_its_place_is_told() {
        let it = program("change", "one");
        assert!(!it.has_changed());
        let other = it.path.with_extension("new");
        std::fs::write(&other, "two").unwrap();
        std::fs::rename(&other, &it.path).unwrap();
        assert!(it.has_changed());
        std::fs::remove_file(&it.path).unwrap();
        // Where none is there, there is nothing to become.
        assert!(!it.has_changed());
        assert!(!Program::running().has_changed());
    }

    fn answered(program: &Program) -> Result<(), String> {
        let mut asking = program.ask(Path::new("the-file"))?;
        loop {
            match asking.answer() {
                Some(answer) => return answer,
                None => std::thread::sleep(Duration::from_millis(1)),
            }
        }
    }

    #[test]
    fn a_program_that_hangs_keeps_nobody_waiting() {
        // The shell may open its file only after the other one is in its place.
        const HANGS: &str = "#!/bin/sh\nexec sleep 60\n";
        let hangs = program("hangs", HANGS);
        let mut asking = hangs.ask(Path::new("the-file")).unwrap();
        assert_eq!(asking.answer(), None);
        assert!(hangs.is_asked(&asking));
        std::fs::write(hangs.path.with_extension("new"), HANGS).unwrap();
        std::fs::rename(hangs.path.with_extension("new"), &hangs.path).unwrap();
        assert!(!hangs.is_asked(&asking));
        asking.end = Instant::now() - Duration::from_millis(1);
        assert_eq!(asking.answer(), Some(Err("it doesn't answer".to_string())));
        std::fs::remove_file(&hangs.path).unwrap();
    }

    #[test]
    fn a_program_that_refuses_the_settings_says_why() {
        let good = program("good", "#!/bin/sh\ntest \"$*\" = \"run --check --takes-over the-file\"\n");
        assert_eq!(answered(&good), Ok(()));
        let bad = program("bad", "#!/bin/sh\necho 'line 3: no' >&2\nexit 2\n");
        assert_eq!(answered(&bad), Err("line 3: no".to_string()));
        let none = program("none", "");
        std::fs::remove_file(&none.path).unwrap();
        assert!(answered(&none).is_err());
        [good, bad].iter().for_each(|it| std::fs::remove_file(&it.path).unwrap());
    }

    #[test]
    fn where_it_cant_become_the_other_all_is_as_it_was() {
        let it = program("nothing", "no program");
        std::fs::set_permissions(&it.path, std::fs::Permissions::from_mode(0o644)).unwrap();
        let (one, _other) = std::os::unix::net::UnixStream::pair().unwrap();
        let fd = std::os::unix::io::AsRawFd::as_raw_fd(&one);
        assert_eq!(it.become_it(&[("one".to_string(), fd)]).kind(), io::ErrorKind::PermissionDenied);
        // SAFETY: the descriptor is open.
        assert_eq!(unsafe { libc::fcntl(fd, libc::F_GETFD) }, libc::FD_CLOEXEC);
        assert!(std::env::var_os(HANDED).is_none());
        std::fs::remove_file(&it.path).unwrap();
    }
}
