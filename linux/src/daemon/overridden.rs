//! What overrides the Prunes(S,G,rpt) of other routers leaves a second time, where the settings say so.
use super::{send_on, Daemon};
use crate::packet::Packet;
use viqeshor::Target;

impl Daemon {
    /// A message came on an interface.
    pub(super) fn watch_prunes(&mut self, number: u32, bytes: &[u8]) {
        let after = self.ports[number as usize].settings.overrides_again();
        if let Some((after, packet)) = after.zip(Packet::read(bytes)) {
            self.overrides.heard(number, packet, self.kernel.now() + after);
        }
    }

    /// Packets are about to leave.
    pub(super) fn watch_overrides(&mut self) {
        if self.overrides.is_empty() {
            return;
        }
        for (target, bytes) in self.core.packets() {
            if let (Target::Frame(iface), Some(packet)) = (target, Packet::read(bytes)) {
                self.overrides.leaves(iface, packet);
            }
        }
    }

    pub(super) fn override_again(&mut self) {
        let again = self.overrides.again(self.now());
        let Daemon { kernel, ports, policy, .. } = self;
        for (iface, join) in again {
            let port = ports.get_mut(iface as usize).filter(|port| port.standing.is_up());
            send_on(kernel.as_mut(), port, policy.is_passive(iface), &join);
        }
    }
}
