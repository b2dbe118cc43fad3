//! An upgrade while the router runs, and what is kept for a router that begins after this one ended.
use super::turns::Servers;
use super::Daemon;
use crate::inherited::{sealed, STATE};
use crate::kernel::Kernel;
use crate::left::{self, Left};
use crate::notify::Manager;
use crate::program::{Asking, Program};
use crate::wire::BFD;
use log::{debug, error, info, warn};
use std::collections::BTreeMap;
use std::io;
use std::os::unix::io::{AsRawFd, RawFd};
use std::path::Path;

/// The state is saved for a part of the time where that takes long, as long as it stays fresh; and then for no more than
/// another part.
const PART_OF_TIME: u64 = 50;
const MOST_OF_TIME: u64 = 3;

/// How long nothing is saved after a save that took so long, so that the last state is fresh until the next one is
/// there; all in ms.
fn pause(took: u64, fresh: u64) -> u64 {
    const MARGIN: u64 = 1_000;
    let stays_fresh = fresh.saturating_sub(2 * took + MARGIN);
    (PART_OF_TIME * took).min(stays_fresh.max((MOST_OF_TIME - 1) * took))
}

/// So often it is looked whether a program has answered, in ms.
const LOOK_FOR_ANSWER: u64 = 10;

/// The program that is to take this one's place, while it is asked whether it can. The router goes on meanwhile.
#[derive(Debug, Default)]
pub struct Successor {
    asking: Option<Asking>,
    /// Where it can't, the settings are read all the same.
    is_reload: bool,
}

impl Successor {
    /// When it may have answered, in ms.
    pub fn due(&self, now: u64) -> Option<u64> {
        self.asking.as_ref().map(|_| now + LOOK_FOR_ANSWER)
    }
}

/// What is kept.
#[derive(Debug, Default)]
pub struct Keeping {
    manager: Manager,
    /// The sockets that the manager has, by names.
    kept: BTreeMap<String, RawFd>,
    /// When the state is saved again, in ms.
    due: u64,
    /// Something changed that is to be saved at once.
    is_changed: bool,
    /// The process that saves.
    saver: Option<(libc::pid_t, u64)>,
}

impl Keeping {
    /// The manager has kept BFD's sockets too for a router that ended in order; some of this one's go on with them.
    pub fn new(kernel: &dyn Kernel) -> Keeping {
        let sockets = kernel.sockets().into_iter();
        let kept = sockets.filter(|(name, _)| name.starts_with(BFD)).collect();
        Keeping { manager: Manager::new(), kept, ..Keeping::default() }
    }

    /// Neighbours or interfaces changed.
    pub fn changed(&mut self) {
        self.is_changed = true;
    }

    /// When something is due, in ms.
    pub fn due(&self, now: u64) -> u64 {
        const SOON: u64 = 50;
        if self.saver.is_some() {
            now + SOON
        } else {
            self.due
        }
    }
}

impl Daemon {
    // ---- an upgrade

    /// Asks the program that is in the place of this one whether it can take over.
    pub(super) fn ask_successor(&mut self, program: &Program, is_reload: bool) {
        self.successor.is_reload |= is_reload;
        if self.successor.asking.is_some() {
            return;
        }
        info!("the router hands over to {}", program.path().display());
        match program.ask(&self.file) {
            Ok(asking) => self.successor.asking = Some(asking),
            Err(why) => self.stays(program, &why),
        }
    }

    /// Becomes the other program, once that has said that it can. It answers whether the settings are to be read, since
    /// it can't.
    pub(super) fn follow_successor(&mut self, program: &Program, servers: &Servers) -> bool {
        if let Some(answer) = self.successor.asking.as_mut().and_then(Asking::answer) {
            let asked = self.successor.asking.take();
            match answer {
                Ok(()) if asked.map_or(false, |asked| program.is_asked(&asked)) => self.upgrade(program, servers),
                // Another one is there by now.
                Ok(()) => self.ask_successor(program, false),
                Err(why) => self.stays(program, &why),
            }
        }
        self.successor.asking.is_none() && std::mem::take(&mut self.successor.is_reload)
    }

    fn stays(&self, program: &Program, why: &str) {
        error!("{} can't take over: {why}", program.path().display());
        error!("the router stays as it was");
    }

    /// Becomes the program that is in the place of this one. It returns where that can't be.
    fn upgrade(&mut self, program: &Program, servers: &Servers) {
        let error = match self.handed(servers) {
            Ok((_state, handed)) => program.become_it(&handed),
            Err(error) => error,
        };
        self.stays(program, &error.to_string());
    }

    /// What another program gets: the state, and the sockets by names.
    fn handed(&mut self, servers: &Servers) -> io::Result<(std::fs::File, Vec<(String, RawFd)>)> {
        self.core.flush_record();
        let saved = self.core.save().map_err(|error| io::Error::new(io::ErrorKind::Other, error))?;
        let mut left = self.left();
        left.answers = servers.answers();
        left.answers.extend(self.keeping.saver.map(|(child, _)| child));
        let state = sealed(&left.bytes(&saved))?;
        let mut handed = self.kernel.sockets();
        handed.extend(servers.sockets());
        handed.push((STATE.to_string(), state.as_raw_fd()));
        Ok((state, handed))
    }

    // ---- a death

    /// Has the manager keep the sockets, and saves the state where that is due.
    pub(super) fn keep(&mut self) {
        self.keep_sockets();
        let now = self.now();
        if self.keeping.saver.map_or(false, |(child, began)| !self.has_saved(child, began)) {
            return;
        }
        if self.settings.restart.saves && (self.keeping.is_changed || self.keeping.due <= now) {
            self.keeping.is_changed = false;
            self.keeping.due = now + self.settings.restart.save_every;
            let path = self.settings.state_file();
            match self.save_elsewhere(&path) {
                Ok(child) => self.keeping.saver = Some((child, now)),
                Err(error) => warn!("the state can't be saved: {error}"),
            }
        }
    }

    /// Whether the process that saves has ended.
    fn has_saved(&mut self, child: libc::pid_t, began: u64) -> bool {
        let mut status = 0;
        // SAFETY: the place is one number, and the child wasn't waited for yet.
        if unsafe { libc::waitpid(child, &mut status, libc::WNOHANG) } == 0 {
            return false;
        }
        self.keeping.saver = None;
        let now = self.now();
        self.keeping.due = self.keeping.due.max(now + pause(now - began, self.settings.restart.fresh));
        if status != 0 {
            warn!("the state couldn't be saved in {}", self.settings.state_file().display());
        }
        true
    }

    /// Saves in a process of its own, which answers its number: the router goes on meanwhile.
    fn save_elsewhere(&self, path: &Path) -> io::Result<libc::pid_t> {
        // SAFETY: the router has one thread, so the child has all of its memory in order. It calls nothing but what
        // saves, and ends without running what its parent is to run at its end.
        match unsafe { libc::fork() } {
            -1 => Err(io::Error::last_os_error()),
            0 => {
                // A router that begins meanwhile is to have them alone.
                for (_, fd) in self.kernel.sockets() {
                    unsafe { libc::close(fd) };
                }
                let saved = self.save(path);
                unsafe { libc::_exit(i32::from(saved.is_err())) }
            }
            child => Ok(child),
        }
    }

    /// Saves the state in a file.
    pub(super) fn save(&self, path: &Path) -> io::Result<()> {
        self.save_as(path, false)
    }

    fn save_as(&self, path: &Path, is_in_order: bool) -> io::Result<()> {
        let saved = self.core.save().map_err(|error| io::Error::new(io::ErrorKind::Other, error))?;
        let left = Left { is_in_order, ..self.left() };
        left::write(path, &left.bytes(&saved))
    }

    fn keep_sockets(&mut self) {
        // After a death those of BFD begin anew with their sessions.
        self.keep_those(|name| !name.starts_with(BFD));
    }

    /// Has the manager keep the sockets of some names.
    fn keep_those(&mut self, are_kept: impl Fn(&str) -> bool) {
        if !self.keeping.manager.is_there() {
            return;
        }
        let sockets: BTreeMap<_, _> = self.kernel.sockets().into_iter().filter(|(name, _)| are_kept(name)).collect();
        if sockets == self.keeping.kept {
            return;
        }
        let Keeping { manager, kept, .. } = &self.keeping;
        let gone = kept.keys().filter(|name| !sockets.contains_key(*name)).map(|name| manager.forget(name));
        let new = sockets.iter().filter(|(name, fd)| kept.get(*name) != Some(fd));
        let told = gone.chain(new.map(|(name, fd)| manager.keep(name, *fd)));
        // All are told, whatever becomes of one.
        let errors: Vec<_> = told.filter_map(Result::err).collect();
        if let Some(error) = errors.last() {
            warn!("the service manager can't be told which sockets it is to keep: {error}");
        }
        self.keeping.kept = sockets;
    }

    /// The one that saves has ended.
    fn await_saver(&mut self) {
        if let Some((child, _)) = self.keeping.saver.take() {
            // SAFETY: no place for the status is passed.
            unsafe { libc::waitpid(child, std::ptr::null_mut(), 0) };
        }
    }

    // ---- a restart

    /// The router ends, and one that begins soon goes on where it was: the state is saved, and the sockets and what the
    /// kernel has are kept. It answers whether that is so.
    pub(super) fn keep_for_next(&mut self) -> bool {
        if !self.settings.restart.saves {
            warn!("the state isn't to be saved ([restart] has save = false): the next router begins anew");
            return false;
        }
        self.core.flush_record();
        self.await_saver();
        self.keep_those(|_| true);
        match self.save_as(&self.settings.state_file(), true) {
            Ok(()) => {
                self.kernel.stay();
                info!("the router ends, and the next one goes on where it was");
                true
            }
            Err(error) => {
                warn!("the state can't be saved: {error}; the next router begins anew");
                false
            }
        }
    }

    /// The router ends in order: nobody is to go on where it was.
    pub(super) fn keep_no_more(&mut self) {
        self.await_saver();
        for name in self.keeping.kept.keys() {
            if let Err(error) = self.keeping.manager.forget(name) {
                debug!("the service manager can't be told to forget {name}: {error}");
            }
        }
        let _ = std::fs::remove_file(self.settings.state_file());
        self.kernel.end();
    }
}

#[cfg(test)]
mod tests {
    use super::pause;

    #[test]
    fn a_state_stays_fresh_until_the_next_one_is_saved() {
        assert_eq!([pause(0, 10_000), pause(20, 10_000), pause(100, 10_000)], [0, 1_000, 5_000]);
        for took in [250, 1_000, 2_000] {
            // From the begin of a save to the end of the next one.
            assert!(took + pause(took, 10_000) + took <= 10_000, "{took}");
        }
        assert_eq!(pause(4_000, 10_000), 8_000);
    }
}
