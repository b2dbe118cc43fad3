//! Lines on standard error, with the wall time and a level. Where that is systemd's journal, each begins with its
//! priority, as sd-daemon(3) has it.
use log::{Level, LevelFilter, Log, Metadata, Record};
use nix::sys::stat::fstat;
use std::io::Write;
use std::sync::atomic::{AtomicBool, Ordering};
use time::format_description::FormatItem;
use time::macros::format_description;
use time::OffsetDateTime;

/// Levels by the words of the settings, the usual one first.
pub const LEVELS: [(&str, LevelFilter); 4] = [
    ("info", LevelFilter::Info),
    ("error", LevelFilter::Error),
    ("warn", LevelFilter::Warn),
    ("debug", LevelFilter::Debug),
];

/// In UTC, with milliseconds.
const WALL_TIME: &[FormatItem] =
    format_description!("[year]-[month]-[day]T[hour]:[minute]:[second].[subsecond digits:3]Z");

/// Whether standard error is the journal.
static IS_JOURNAL: AtomicBool = AtomicBool::new(false);

struct StandardError;

impl Log for StandardError {
    fn enabled(&self, _: &Metadata) -> bool {
        true
    }

    fn log(&self, record: &Record) {
        let prefix = if IS_JOURNAL.load(Ordering::Relaxed) { priority(record.level()) } else { "" };
        let (now, level) = (wall_time(OffsetDateTime::now_utc()), record.level().as_str().to_lowercase());
        // Where standard error is gone there is nobody to tell.
        let _ = writeln!(std::io::stderr().lock(), "{prefix}{now} {level:5} {}", record.args());
    }

    fn flush(&self) {}
}

/// The priority of a level among those of syslog.
fn priority(level: Level) -> &'static str {
    match level {
        Level::Error => "<3>",
        Level::Warn => "<4>",
        Level::Info => "<6>",
        Level::Debug | Level::Trace => "<7>",
    }
}

/// Whether a file of a device and a number is the journal, by the value of JOURNAL_STREAM (systemd.exec(5)).
fn is_journal(stream: &str, (device, number): (u64, u64)) -> bool {
    let told = stream.split_once(':').and_then(|(left, right)| Some((left.parse().ok()?, right.parse().ok()?)));
    told == Some((device, number))
}

/// The lines go to standard error from here on.
pub fn begin(level: LevelFilter) {
    let file = fstat(libc::STDERR_FILENO).map(|stat| (stat.st_dev, stat.st_ino));
    let stream = std::env::var("JOURNAL_STREAM").unwrap_or_default();
    IS_JOURNAL.store(file.map_or(false, |file| is_journal(&stream, file)), Ordering::Relaxed);
    // A second call, as tests make it, changes the level alone.
    let _ = log::set_logger(&StandardError);
    log::set_max_level(level);
}

pub fn wall_time(moment: OffsetDateTime) -> String {
    moment.format(WALL_TIME).unwrap_or_default()
}

#[cfg(test)]
mod tests {
    use super::*;

    #[test]
    fn the_journal_is_told_priorities() {
        let prefixes = [Level::Error, Level::Warn, Level::Info, Level::Debug].map(priority);
        assert_eq!(prefixes, ["<3>", "<4>", "<6>", "<7>"]);
        assert!(is_journal("8:1234", (8, 1234)));
        assert!(!is_journal("8:1235", (8, 1234)) && !is_journal("", (8, 1234)) && !is_journal("8", (8, 0)));
    }

    #[test]
    fn moments_are_dates() {
        let said = |milliseconds: i128| {
            wall_time(OffsetDateTime::from_unix_timestamp_nanos(milliseconds * 1_000_000).expect("it is a date"))
        };
        assert_eq!(said(0), "1970-01-01T00:00:00.000Z");
        assert_eq!(said(951_782_400_007), "2000-02-29T00:00:00.007Z");
        assert_eq!(said(1_795_739_999_123), "2026-11-27T00:39:59.123Z");
    }
}
