//! What FRR says of candidate BSRs and candidate RPs (RFC 5059), as settings.
use super::configuration::{Candidate, Configuration, Interface, Place, Said, Source};
use super::lists::groups_within;
use crate::settings::{without_rp, LOOPBACK};
use std::fmt::Write;
use std::net::Ipv4Addr;

/// What FRR has where nothing is said.
const BSR_PRIORITY: u32 = 64;
const RP_PRIORITY: u32 = 192;
/// In seconds.
const INTERVAL: u32 = 60;

/// Of the words behind `candidate-bsr` or `candidate-rp`.
pub fn read(mut words: &[&str]) -> Option<Candidate> {
    let mut it = Candidate { priority: None, interval: None, source: Source::Loopback };
    while !words.is_empty() {
        words = match words {
            ["priority", number, rest @ ..] => {
                it.priority = Some(number.parse().ok()?);
                rest
            }
            ["interval", number, rest @ ..] => {
                it.interval = Some(number.parse().ok()?);
                rest
            }
            ["source", "address", address, rest @ ..] => {
                it.source = Source::Address(address.parse().ok()?);
                rest
            }
            ["source", "interface", name, rest @ ..] => {
                it.source = Source::Interface(name.to_string());
                rest
            }
            ["source", "loopback", rest @ ..] => {
                it.source = Source::Loopback;
                rest
            }
            ["source", "any", rest @ ..] => {
                it.source = Source::Any;
                rest
            }
            _ => return None,
        };
    }
    Some(it)
}

/// The address that FRR takes: the highest of those of which it may be.
fn address(source: &Source, interfaces: &[Interface]) -> Option<Ipv4Addr> {
    let is_of = |it: &&Interface| match source {
        Source::Address(_) | Source::Any => true,
        Source::Interface(name) => it.name == *name,
        Source::Loopback => it.name == LOOPBACK,
    };
    // Each has its first address here.
    let own = interfaces.iter().filter(is_of).filter_map(|it| it.addresses.first()).map(|said| said.value.address);
    let fits = |address: &Ipv4Addr| match source {
        Source::Address(wanted) => address == wanted,
        _ => !address.is_loopback(),
    };
    own.filter(fits).max()
}

/// The address and the priority of a candidate; a line of which no address comes is left.
fn standing(found: &mut Configuration, it: &Said<Candidate>, interfaces: &[Interface]) -> Option<Ipv4Addr> {
    let address = address(&it.value.source, interfaces);
    if address.is_none() {
        found.leave(&it.place, "its address isn't the first one of an interface with `ip pim` or `ip igmp`");
    }
    address
}

/// The settings of `[bsr] candidate`, as a line of TOML; and of `[rp_candidate]`. The interfaces are those of the router.
pub fn written(found: &mut Configuration, interfaces: &[Interface]) -> (Option<String>, Option<String>) {
    let bsr = found.candidate_bsr.take().and_then(|it| {
        let address = standing(found, &it, interfaces)?;
        Some(format!(
            "candidate = {{ address = \"{address}\", priority = {} }}\n",
            it.value.priority.unwrap_or(BSR_PRIORITY)
        ))
    });
    let rp = found.candidate_rp.take().and_then(|it| rp(found, &it, interfaces));
    if rp.is_none() {
        std::mem::take(&mut found.candidate_groups)
            .iter()
            .for_each(|groups| found.leave(&groups.place, "the router is no candidate RP"));
    }
    (bsr, rp)
}

fn rp(found: &mut Configuration, it: &Said<Candidate>, interfaces: &[Interface]) -> Option<String> {
    let address = standing(found, it, interfaces)?;
    let mut ranges: Vec<String> = Vec::new();
    for groups in std::mem::take(&mut found.candidate_groups) {
        let within = groups_within(groups.value);
        match within.ok_or("no group is within its prefix").and_then(|it| without_rp(it).map_or(Ok(it), Err)) {
            Ok(range) => ranges.extend(Some(format!("\"{range}\"")).filter(|range| !ranges.contains(range))),
            Err(reason) => found.leave(&groups.place, &format!("these groups: {reason}")),
        }
    }
    if ranges.is_empty() {
        found.leave(&it.place, "no `candidate-rp group` names groups");
        return None;
    }
    if it.value.interval.map_or(false, |interval| interval != INTERVAL) {
        found.leave(&it.place, "the candidate RP is taken, and its advertisements leave every 60 s");
    }
    let priority = it.value.priority.unwrap_or(RP_PRIORITY);
    let mut text = String::from("\n[rp_candidate]\n");
    let _ = writeln!(text, "address = \"{address}\"\npriority = {priority}\nranges = [{}]", ranges.join(", "));
    Some(text)
}

/// A line of either, or of the groups of an RP: whether it is one that is read.
pub fn taken(found: &mut Configuration, place: &Place, words: &[&str]) -> bool {
    let said = |value| Said { place: place.clone(), value };
    match words {
        ["candidate-rp", "group", prefix] => {
            let read = super::lists::subnet(prefix);
            found.candidate_groups.extend(read.map(|value| Said { place: place.clone(), value }));
            read.is_some()
        }
        ["candidate-bsr", rest @ ..] => match read(rest).filter(|it| it.interval.is_none()) {
            Some(it) => {
                found.candidate_bsr = Some(said(it));
                true
            }
            None => false,
        },
        ["candidate-rp", rest @ ..] => match read(rest) {
            Some(it) => {
                found.candidate_rp = Some(said(it));
                true
            }
            None => false,
        },
        _ => false,
    }
}
