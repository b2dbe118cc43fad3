//! A socket at which clients ask, a request each, and read the answer to its end.
//!
//! An answer is worked out and written by a process of its own, which has the router's memory as it was when it was
//! asked: the router goes on meanwhile, however long the answer is, and however slowly it is read.
use log::debug;
use nix::sys::socket::{getsockopt, sockopt::PeerCredentials};
use socket2::Socket;
use std::io::{self, BufWriter, Read, Write};
use std::os::unix::io::{AsRawFd, RawFd};
use std::time::{Duration, Instant};

/// So many clients may be about to ask; for another one the one goes that has said nothing for the longest time.
pub const MOST_CLIENTS: usize = 32;
/// So many answers are written at a time.
const MOST_ANSWERS: usize = 4;
/// A client that hasn't asked after so long is let go.
const PATIENCE: Duration = Duration::from_secs(5);
/// An answer is written in blocks of so many bytes.
const BLOCK: usize = 65_536;
/// One of which no block is worked out and read in so long is let go, in seconds.
const LONGEST_BLOCK: u32 = 30;

/// How a request looks, and how an answer ends.
#[derive(Clone, Copy)]
pub struct Protocol {
    /// The request in what a client has written, once it is whole.
    pub whole: fn(&[u8]) -> Option<String>,
    /// The most bytes of one.
    pub longest: usize,
    /// What stands behind an answer that is whole.
    pub end: &'static str,
}

/// Who answers.
pub trait Answers {
    /// What a request changes is done here, and answered; `None` for one that only asks. `user` is the client's, where
    /// the socket tells it.
    fn act(&mut self, request: &str, user: Option<u32>) -> Option<String>;
    /// Writes the answer to one that only asks, as it is worked out.
    fn tell(&mut self, request: &str, to: &mut dyn Write) -> io::Result<()>;
}

struct Client {
    stream: Socket,
    asked: Vec<u8>,
    came: Instant,
}

/// What a client's turn came to.
enum Turn {
    Asked(String),
    Waits,
    Over,
}

impl Client {
    fn read(&mut self, protocol: Protocol) -> Turn {
        let mut room = [0; 512];
        match self.stream.read(&mut room) {
            Ok(0) => Turn::Over,
            Ok(length) => {
                self.asked.extend(&room[..length]);
                self.request(protocol)
            }
            Err(error) if error.kind() == io::ErrorKind::WouldBlock => self.request(protocol),
            Err(_) => Turn::Over,
        }
    }

    fn request(&self, protocol: Protocol) -> Turn {
        match (protocol.whole)(&self.asked) {
            Some(request) => Turn::Asked(request),
            None if self.asked.len() > protocol.longest || self.came.elapsed() > PATIENCE => Turn::Over,
            None => Turn::Waits,
        }
    }

    fn user(&self) -> Option<u32> {
        getsockopt(self.stream.as_raw_fd(), PeerCredentials).ok().map(|peer| peer.uid())
    }
}

/// A client, as an answer is written to it: each block has its time.
struct Reader(Socket);

impl Write for Reader {
    fn write(&mut self, block: &[u8]) -> io::Result<usize> {
        // SAFETY: it touches no memory.
        unsafe { libc::alarm(LONGEST_BLOCK) };
        self.0.write(block)
    }

    fn flush(&mut self) -> io::Result<()> {
        Ok(())
    }
}

/// Writes an answer to its end.
fn write(stream: Socket, answer: impl FnOnce(&mut dyn Write) -> io::Result<()>, end: &str) -> io::Result<()> {
    stream.set_nonblocking(false)?;
    let mut to = BufWriter::with_capacity(BLOCK, Reader(stream));
    answer(&mut to)?;
    to.write_all(end.as_bytes())?;
    to.flush()
}

/// Writes an answer in a process of its own, which answers its number.
fn write_elsewhere(
    stream: Socket,
    answer: impl FnOnce(&mut dyn Write) -> io::Result<()>,
    end: &str,
) -> io::Result<libc::pid_t> {
    // SAFETY: the router has one thread, so the child has all of its memory in order. It calls nothing but what works
    // the answer out and writes it, and ends without running what its parent is to run at its end.
    match unsafe { libc::fork() } {
        -1 => Err(io::Error::last_os_error()),
        0 => {
            unsafe {
                libc::signal(libc::SIGTERM, libc::SIG_DFL);
                libc::signal(libc::SIGALRM, libc::SIG_DFL);
                libc::alarm(LONGEST_BLOCK);
            }
            let written = write(stream, answer, end);
            unsafe { libc::_exit(i32::from(written.is_err())) }
        }
        child => Ok(child),
    }
}

pub struct Server {
    listener: Socket,
    protocol: Protocol,
    clients: Vec<Client>,
    /// The processes that write answers.
    answers: Vec<libc::pid_t>,
}

impl Server {
    /// Of a socket that is bound.
    pub fn new(listener: Socket, protocol: Protocol) -> io::Result<Server> {
        listener.listen(MOST_CLIENTS as i32)?;
        listener.set_nonblocking(true)?;
        Ok(Server { listener, protocol, clients: Vec::new(), answers: Vec::new() })
    }

    /// Where clients come, for another router to go on with.
    pub fn listener(&self) -> RawFd {
        self.listener.as_raw_fd()
    }

    /// The processes that write answers.
    pub fn answers(&self) -> &[libc::pid_t] {
        &self.answers
    }

    /// Those of the router before this one.
    pub fn take_answers(&mut self, answers: Vec<libc::pid_t>) {
        self.answers.extend(answers);
    }

    /// What is to be waited for.
    pub fn waits(&self) -> Vec<RawFd> {
        let is_free = self.answers.len() < MOST_ANSWERS;
        let clients = self.clients.iter().filter(|_| is_free).map(|client| client.stream.as_raw_fd());
        std::iter::once(self.listener.as_raw_fd()).chain(clients).collect()
    }

    /// In how many ms there is something to do at the latest, where a client or an answer is under way.
    pub fn due(&self) -> Option<u64> {
        const SOON: u64 = 200;
        (!self.clients.is_empty() || !self.answers.is_empty()).then_some(SOON)
    }

    #[cfg(test)]
    pub fn clients(&self) -> usize {
        self.clients.len()
    }

    fn welcome(&mut self) {
        while let Ok((stream, _)) = self.listener.accept() {
            if self.clients.len() >= MOST_CLIENTS {
                self.clients.remove(0);
            }
            if stream.set_nonblocking(true).is_ok() {
                self.clients.push(Client { stream, asked: Vec::new(), came: Instant::now() });
            }
        }
    }

    /// Takes clients that came, and has requests answered.
    pub fn serve(&mut self, by: &mut dyn Answers) {
        self.answers.retain(|child| is_alive(*child));
        self.welcome();
        for mut client in std::mem::take(&mut self.clients) {
            match client.read(self.protocol) {
                Turn::Asked(request) if self.answers.len() < MOST_ANSWERS => {
                    let done = by.act(&request, client.user());
                    let answer = |to: &mut dyn Write| match &done {
                        Some(done) => to.write_all(done.as_bytes()),
                        None => by.tell(&request, to),
                    };
                    match write_elsewhere(client.stream, answer, self.protocol.end) {
                        Ok(child) => self.answers.push(child),
                        Err(error) => debug!("\"{request}\" can't be answered: {error}"),
                    }
                }
                Turn::Over => {}
                Turn::Asked(_) | Turn::Waits => self.clients.push(client),
            }
        }
    }
}

/// Whether a child runs; one that ended is forgotten by the kernel.
fn is_alive(child: libc::pid_t) -> bool {
    // SAFETY: no place for the status is passed.
    unsafe { libc::waitpid(child, std::ptr::null_mut(), libc::WNOHANG) == 0 }
}

impl Drop for Server {
    fn drop(&mut self) {
        // They hold the router's sockets too, which the next router wants.
        for child in &self.answers {
            // SAFETY: it is a child that was not waited for yet.
            unsafe { libc::kill(*child, libc::SIGKILL) };
        }
    }
}
