//! A multicast router for Linux: PIM Sparse Mode and IGMPv3, with the kernel's forwarding cache as its data plane.
mod bfd;
mod check;
mod client;
mod control;
mod core;
mod counters;
mod daemon;
mod error;
mod import;
mod inherited;
mod kernel;
mod left;
mod log;
mod metrics;
mod mroute;
mod msdp;
mod netlink;
mod notify;
mod older;
mod outgoing;
mod overrides;
mod packed;
mod packet;
mod plane;
mod policy;
mod ports;
mod program;
mod recorder;
mod routes;
mod said;
#[cfg(test)]
mod schemas;
mod server;
mod settings;
mod show;
mod split;
mod stand_in;
mod tables;
mod waiting;
mod wire;
mod words;

use clap::{Args, Parser, Subcommand};
use client::{Cleared, Shown};
use daemon::Way;
use error::Fatal;
use inherited::Inherited;
use left::Left;
use netlink::Netlink;
use settings::{usual_socket, Settings};
use show::Topic;
use std::io::{self, Write};
use std::net::Ipv4Addr;
use std::path::{Path, PathBuf};
use std::process::ExitCode;
use std::time::Duration;
use tables::{Domain, Tables};

const USUAL_FILE: &str = "/etc/viqeshord.toml";
const FRR_FILE: &str = "/etc/frr/frr.conf";

#[derive(Parser)]
#[command(version = version(), about)]
struct Asked {
    #[command(subcommand)]
    what: What,
}

#[derive(Subcommand)]
enum What {
    /// Run the router until SIGTERM; SIGHUP reads the settings again
    Run {
        /// The settings
        #[arg(default_value = USUAL_FILE)]
        file: PathBuf,
        /// Only check the settings: print each problem with its line
        #[arg(long)]
        check: bool,
        /// Answers whether this program can go on with what a router hands over
        #[arg(long, hide = true, requires = "check")]
        takes_over: bool,
    },
    /// Print what a running router knows
    Show {
        topic: Topic,
        /// The address whose route `rpf` prints, the group whose RP `rp` prints; of others a group, and a source of it
        #[arg(num_args = 0..=2)]
        about: Vec<Ipv4Addr>,
        /// Print JSON
        #[arg(long)]
        json: bool,
        /// Print it again at this interval (by default 2 s)
        #[arg(long, value_name = "SECONDS", num_args = 0..=1, default_missing_value = "2")]
        watch: Option<f64>,
        #[command(flatten)]
        at: At,
    },
    /// Print settings made from FRR's configuration; standard error has the lines that they leave out
    Import {
        /// FRR's configuration
        #[arg(default_value = FRR_FILE)]
        file: PathBuf,
        /// Read the part of this VRF
        #[arg(long, value_name = "NAME")]
        vrf: Option<String>,
        /// Print what was read as JSON, in the place of settings
        #[arg(long)]
        json: bool,
    },
    /// Start counters, the kernel's entries or an interface of a running router again
    Clear {
        what: Cleared,
        /// The interface
        name: Option<String>,
        #[command(flatten)]
        at: At,
    },
}

/// Of the router, and of the library in it, which says whether it is proved.
fn version() -> &'static str {
    Box::leak(format!("{} (library {})", env!("CARGO_PKG_VERSION"), viqeshor::version()).into_boxed_str())
}

/// Which router is asked.
#[derive(Args)]
struct At {
    /// The router's table or VRF, where the settings name one
    #[arg(long, value_name = "TABLE_OR_VRF")]
    instance: Option<String>,
    /// The router's control socket, where the settings name one
    #[arg(long, conflicts_with = "instance")]
    socket: Option<PathBuf>,
}

impl At {
    fn path(self) -> PathBuf {
        self.socket.unwrap_or_else(|| usual_socket(self.instance.as_deref()))
    }
}

fn read(file: &Path) -> Option<Settings> {
    let name = file.display();
    match std::fs::read_to_string(file).map(|text| settings::read(&text)) {
        Ok(Ok(settings)) => return Some(settings),
        Ok(Err(problems)) => problems.iter().for_each(|problem| eprintln!("{name}: {problem}")),
        Err(error) => eprintln!("{name}: {error}"),
    }
    None
}

/// Says that the file is in order, and what an operator may want to know of it.
fn check(file: &Path, settings: &Settings) -> ExitCode {
    let name = file.display();
    let (count, ranges) = (settings.interfaces.len(), settings.rps.len());
    println!("{name}: {count} interfaces, {ranges} RP ranges; nothing is wrong");
    check::notes(settings).iter().for_each(|note| println!("{name}: {note}"));
    ExitCode::SUCCESS
}

/// What a router before this one left, and how; its sockets too.
fn left(settings: &Settings) -> (Option<(Left, Vec<u8>, Way)>, Inherited) {
    let (read, mut inherited, fresh, way) = match Inherited::by_exec() {
        Some(mut inherited) => (Ok(inherited.left()), inherited, u64::MAX, Way::Whole),
        None => {
            let path = settings.state_file();
            let read = std::fs::read(&path).map(|bytes| Left::read(&bytes));
            // One that dies of it isn't to be followed by another one.
            let _ = std::fs::remove_file(path);
            (read, Inherited::by_manager(), settings.restart.fresh, Way::Death)
        }
    };
    let domain = settings.domain.name();
    let usable =
        read.map(|read| read.and_then(|(left, saved)| left.check(domain.as_deref(), fresh).map(|()| (left, saved))));
    match usable {
        Ok(Ok((left, saved))) => {
            let is_whole = left.is_in_order && inherited.has(mroute::MROUTE);
            return (Some((left, saved, if is_whole { Way::Whole } else { way })), inherited);
        }
        Ok(Err(why)) => {
            ::log::warn!("the router begins anew, since what is left of the one before it can't be taken: {why}")
        }
        Err(_) => {}
    }
    inherited.end_routing();
    (None, inherited)
}

/// Waits until the machine has the VRF of the settings.
fn wait_for(domain: &Domain) -> Result<(), Fatal> {
    const EVERY: Duration = Duration::from_secs(1);
    let tables = || Netlink::open().and_then(|mut netlink| Tables::of(domain, &mut netlink).map(drop));
    let mut is_said = false;
    loop {
        match tables() {
            Ok(()) => return Ok(()),
            Err(error) if error.kind() != io::ErrorKind::NotFound => return Err(Fatal::Netlink(error)),
            Err(error) if !is_said => ::log::warn!("{error}: the router waits for it"),
            Err(_) => {}
        }
        is_said = true;
        std::thread::sleep(EVERY);
    }
}

fn route(file: &Path, settings: Settings) -> Result<(), Fatal> {
    wait_for(&settings.domain)?;
    let (left, mut inherited) = left(&settings);
    let began = left.as_ref().map(|(left, ..)| left.began);
    let kernel = Box::new(kernel::Linux::open(&settings.domain, began, &mut inherited)?);
    match left {
        Some((mut left, saved, way)) => {
            let answers = std::mem::take(&mut left.answers);
            daemon::Daemon::resume(file, settings, kernel, (left, &saved), way)?.run(&mut inherited, answers)
        }
        None => daemon::Daemon::new(file, settings, kernel)?.run(&mut inherited, Vec::new()),
    }
}

fn run(file: &Path, only_check: bool) -> ExitCode {
    let settings = match read(file) {
        Some(settings) => settings,
        None => return ExitCode::from(2),
    };
    if only_check {
        return check(file, &settings);
    }
    log::begin(settings.level);
    match route(file, settings) {
        Ok(()) => ExitCode::SUCCESS,
        Err(fatal) => {
            ::log::error!("{fatal}");
            ExitCode::FAILURE
        }
    }
}

/// Prints settings made from FRR's configuration, or as JSON what was read.
fn import(file: &Path, vrf: Option<&str>, is_json: bool) -> ExitCode {
    let name = file.display();
    let text = match std::fs::read_to_string(file) {
        Ok(text) => text,
        Err(error) => {
            eprintln!("{name}: {error}");
            return ExitCode::from(2);
        }
    };
    if is_json {
        let told = serde_json::to_string_pretty(&import::read(&text, vrf)).map_err(io::Error::from);
        let is_told = told.and_then(|told| writeln!(io::stdout(), "{told}"));
        return if is_told.is_ok() { ExitCode::SUCCESS } else { ExitCode::FAILURE };
    }
    let imported = import::of(&text, vrf);
    imported.left.iter().for_each(|left| eprintln!("{name}: {left}"));
    let problems = settings::read(&imported.settings).err().unwrap_or_default();
    problems.iter().for_each(|problem| eprintln!("{name}: the settings that were made of it: {problem}"));
    match io::stdout().write_all(imported.settings.as_bytes()) {
        Ok(()) if problems.is_empty() => ExitCode::SUCCESS,
        _ => ExitCode::FAILURE,
    }
}

fn main() -> ExitCode {
    match Asked::parse().what {
        What::Run { file, check, .. } => run(&file, check),
        What::Show { topic, about, json, watch, at } => {
            let shown = Shown { topic, about, is_json: json };
            match watch {
                Some(every) => client::watch(&shown, every, &at.path()),
                None => client::show(&shown, &at.path()),
            }
        }
        What::Import { file, vrf, json } => import(&file, vrf.as_deref(), json),
        What::Clear { what, name, at } => client::clear(what, name.as_deref(), &at.path()),
    }
}
