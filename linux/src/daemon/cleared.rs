//! What an operator has begun anew: counters, the kernel's forwarding cache, interfaces.
use super::{Counters, Daemon, Fatal};
use crate::ports::{Passed, Port, Standing};
use crate::server::Answers;
use crate::show;
use log::{error, info};
use std::io;

/// Answers lines of the control socket.
pub(super) struct Lines<'a>(pub &'a mut Daemon);

/// Whether a client may change the router: root, and the router's own user.
fn may_change(user: Option<u32>) -> bool {
    user.map_or(false, |user| user == 0 || user == nix::unistd::geteuid().as_raw())
}

impl Answers for Lines<'_> {
    fn act(&mut self, line: &str, user: Option<u32>) -> Option<String> {
        let mut words = line.split_whitespace();
        let cleared = words.next().filter(|word| *word == "clear").map(|_| words.collect::<Vec<_>>())?;
        Some(match may_change(user) {
            true => self.0.clear(&cleared),
            false => "error: clear is for root and the router's own user\n".to_string(),
        })
    }

    fn tell(&mut self, line: &str, to: &mut dyn io::Write) -> io::Result<()> {
        show::answer(self.0, line, to)
    }
}

impl Daemon {
    fn clear(&mut self, words: &[&str]) -> String {
        match words {
            ["counters"] => self.clear_counters(),
            ["mroute"] => self.clear_entries(),
            ["interface", name] => match self.clear_interface(name) {
                Ok(true) => {}
                Ok(false) => return format!("error: no interface {name} is up\n"),
                // The router says so at its next event too, and ends.
                Err(error) => {
                    error!("{error}");
                    return format!("error: {error}\n");
                }
            },
            _ => return "error: clear takes counters, mroute, or interface NAME\n".to_string(),
        }
        String::new()
    }

    /// All counters begin at 0.
    fn clear_counters(&mut self) {
        self.counters = Counters::default();
        self.policy.refusals.clear();
        self.ports.iter_mut().for_each(|port| port.passed = Passed::default());
        info!("the counters are cleared");
    }

    /// The kernel's entries are made anew by the rows that the library told, and those of sources without a fact go: the
    /// next packet of one asks again. The library hears nothing of it.
    fn clear_entries(&mut self) {
        self.plane.unknown().into_iter().for_each(|key| self.withdraw(key));
        if let Err(error) = self.plane.write_anew(self.kernel.as_ref()) {
            self.is_unset(&error);
        }
        info!("the kernel's entries are written again");
    }

    /// An interface goes down and comes up again, for the library and its neighbours: they have another generation of
    /// it, and say anew what they want, as its hosts do. It answers whether there is such an interface that is up.
    fn clear_interface(&mut self, name: &str) -> Result<bool, Fatal> {
        let is_it = |port: &&Port| port.settings.name == name && port.standing.is_up();
        let number = match self.ports.iter().find(is_it) {
            Some(port) => port.number as usize,
            None => return Ok(false),
        };
        info!("{name} is taken down and up again");
        self.goes_down(number, "it is cleared".to_string())?;
        // It stands as the kernel has it.
        self.settle_ports()?;
        Ok(self.ports[number].standing == Standing::Up)
    }
}
