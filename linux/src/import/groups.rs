//! What prefix lists say of RPs and of SSM.
use super::configuration::{Configuration, Range, Said};
use super::lines::{Groups, Reader};
use super::lists::groups_within;
use super::Left;
use crate::settings::{without_rp, Subnet};
use std::collections::BTreeSet;

/// The configuration, once each list is known.
pub fn resolved(reader: Reader) -> Configuration {
    let Reader { mut found, rps, ssm, .. } = reader;
    let mut named: BTreeSet<_> = ssm.iter().map(|list| list.value.clone()).collect();
    for (place, address, groups) in rps {
        let prefixes = match groups {
            Groups::Prefix(value) => vec![Said { place, value }],
            Groups::List(value) => {
                named.insert(value.clone());
                permitted(&mut found, &Said { place, value })
            }
        };
        for prefix in prefixes {
            match range(prefix.value) {
                Ok(groups) => found.rps.push(Said { place: prefix.place, value: Range { groups, address } }),
                Err(reason) => found.leave(&prefix.place, &reason),
            }
        }
    }
    if let Some(list) = ssm {
        usual_ssm(&mut found, &list);
    }
    leave_unnamed(&mut found, named);
    found.left.sort_by_key(|left| left.line);
    found.others.sort_by_key(|left| left.line);
    found
}

/// The groups of a prefix that can have an RP, or why they can't.
fn range(prefix: Subnet) -> Result<Subnet, String> {
    let groups = groups_within(prefix).ok_or("no group is within its prefix")?;
    without_rp(groups).map_or(Ok(groups), |reason| Err(format!("these groups {reason}")))
}

/// What a list permits.
fn permitted(found: &mut Configuration, list: &Said<String>) -> Vec<Said<Subnet>> {
    let (permitted, denied): (Vec<_>, Vec<_>) =
        found.rules(list).unwrap_or_default().into_iter().partition(|entry| entry.permits);
    let advice = Some("give these groups an RP of their own");
    let left = denied.iter().map(|entry| Left::new(&entry.place, "a range of an RP has no exceptions", advice));
    found.left.extend(left);
    permitted.iter().map(|entry| Said { place: entry.place.clone(), value: entry.prefix }).collect()
}

/// SSM is 232.0.0.0/8 here (RFC 4607), as it is in FRR without a list.
fn usual_ssm(found: &mut Configuration, list: &Said<String>) {
    if let Some(rules) = found.rules(list) {
        let rules: Vec<_> = rules.iter().map(|entry| (entry.prefix.to_string(), entry.permits)).collect();
        if rules != [("232.0.0.0/8".to_string(), true)] {
            found.leave(&list.place, "SSM is always 232.0.0.0/8 here");
        }
    }
}

/// Tells of the rules of lists that nothing else names.
fn leave_unnamed(found: &mut Configuration, mut named: BTreeSet<String>) {
    let of_interfaces = found.interfaces.iter().flat_map(|it| [&it.boundary, &it.neighbours]);
    named.extend(of_interfaces.chain([&found.register]).flatten().map(|list| list.value.clone()));
    let unnamed = found.prefix_lists.iter().filter(|list| !named.contains(&list.name)).flat_map(|list| &list.rules);
    let left = unnamed.map(|rule| Left::new(&rule.place, "no line about multicast names this prefix list", None));
    found.others.extend(left);
}
