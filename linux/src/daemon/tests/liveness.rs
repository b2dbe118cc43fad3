//! BFD with neighbours.
use super::*;
use crate::bfd::{Control, Session, State, Times};

const TIMES: Times = Times { interval: 300, multiplier: 3 };
const OTHER: Ipv4Addr = Ipv4Addr::new(10, 1, 0, 2);

fn settings_with_bfd() -> String {
    TWO.replace("name = \"eth0\"\n", "name = \"eth0\"\nbfd = true\n")
}

/// Time passes, and the neighbour has a session with the router.
fn passes_with(daemon: &mut Daemon, fake: &Fake, other: &mut Session, milliseconds: u64) {
    for _ in 0..milliseconds / 20 {
        fake.now.set(fake.now.get() + 20);
        daemon.house_keeping().expect("it goes on");
        let sent: Vec<_> = fake.bfd.borrow_mut().drain(..).collect();
        let heard = sent.iter().filter(|(to, _)| *to == OTHER).filter_map(|(_, packet)| Control::read(packet));
        let answers: Vec<_> = heard.filter_map(|control| other.heard(&control, fake.now.get()).packet).collect();
        for packet in answers.into_iter().chain(other.passes(fake.now.get()).packet) {
            happens(daemon, fake, (Source::Bfd, kernel::Event::Bfd { index: ETH0, from: OTHER, packet }));
        }
    }
}

#[test]
fn a_neighbour_that_falls_silent_is_gone_within_a_second() {
    let (mut daemon, fake) = begun(&settings_with_bfd(), &both());
    let mut other = Session::new(TIMES, 77, 0);
    passes_with(&mut daemon, &fake, &mut other, 5_000);
    assert_eq!((daemon.bfd_state(&(0, OTHER)), other.state), (Some(State::Up), State::Up));
    assert_eq!(daemon.core.neighbours().expect("it tells"), [(0, OTHER)]);
    // Its last packet came at most 300 ms ago, and 900 ms later it is missed.
    passes(&mut daemon, &fake, 500);
    assert_eq!(daemon.core.neighbours().expect("it tells"), [(0, OTHER)]);
    passes(&mut daemon, &fake, 500);
    assert!(daemon.core.neighbours().expect("it tells").is_empty() && daemon.bfd_state(&(0, OTHER)).is_none());
    // Its next Hello has it known again, with a session anew.
    happens(&mut daemon, &fake, hello());
    assert_eq!(daemon.bfd_state(&(0, OTHER)), Some(State::Down));
}

#[test]
fn a_neighbour_without_bfd_stays_and_so_does_one_that_ends_its_session() {
    let (mut daemon, fake) = begun(&settings_with_bfd(), &both());
    passes(&mut daemon, &fake, 10_000);
    assert_eq!(daemon.bfd_state(&(0, OTHER)), Some(State::Down));
    let mut other = Session::new(TIMES, 77, fake.now.get());
    passes_with(&mut daemon, &fake, &mut other, 5_000);
    assert_eq!(daemon.bfd_state(&(0, OTHER)), Some(State::Up));
    let packet = other.ended();
    happens(&mut daemon, &fake, (Source::Bfd, kernel::Event::Bfd { index: ETH0, from: OTHER, packet }));
    passes(&mut daemon, &fake, 5_000);
    assert_eq!(daemon.core.neighbours().expect("it tells"), [(0, OTHER)]);
}

#[test]
fn a_stranger_has_no_session_and_settings_without_bfd_end_it() {
    let (mut daemon, fake) = begun(&settings_with_bfd(), &both());
    let mut other = Session::new(TIMES, 77, 0);
    passes_with(&mut daemon, &fake, &mut other, 5_000);
    let forged = Session::new(TIMES, 78, 0).ended();
    let stranger = Ipv4Addr::new(10, 1, 0, 9);
    for (index, from) in [(ETH0, stranger), (ETH1, OTHER)] {
        let packet = forged.clone();
        happens(&mut daemon, &fake, (Source::Bfd, kernel::Event::Bfd { index, from, packet }));
    }
    assert_eq!(daemon.bfd_state(&(0, OTHER)), Some(State::Up));
    fake.bfd.borrow_mut().clear();
    daemon.take_settings(settings::read(TWO).expect("they are in order")).expect("it goes on");
    daemon.house_keeping().expect("it goes on");
    assert_eq!(daemon.bfd_state(&(0, OTHER)), None);
    let said = fake.bfd.borrow().last().and_then(|(_, packet)| Control::read(packet)).expect("it says so");
    assert_eq!(said.state, State::AdminDown);
    assert_eq!(daemon.core.neighbours().expect("it tells"), [(0, OTHER)]);
}
