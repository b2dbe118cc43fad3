//! Routes that wait for a neighbour: make before break.
//!
//! A route that moves to a next hop that isn't a neighbour yet would cut its trees off until the Hello of that one comes.
//! So its addresses keep the way that they had, while the next hop of that one is a neighbour, for as long as a Hello may
//! take. Then the route moves, whoever is there.
use crate::settings::mask;
use std::collections::BTreeMap;
use viqeshor::Route;

/// Hello_Period and Triggered_Hello_Delay (RFC 7761, 4.11), in ms.
const HELLO_TAKES: u64 = 35_000;

/// A prefix and its length.
type Place = (u32, u32);

fn place(route: &Route) -> Place {
    (route.prefix.into(), route.length)
}

fn covers(route: &Route, (prefix, length): Place) -> bool {
    route.length <= length && prefix & mask(route.length as u8) == u32::from(route.prefix)
}

fn way(route: &Route) -> (u32, u32) {
    (route.iface, route.next_hop.into())
}

/// Ascending routes, walked by ascending prefixes.
struct Walk<'a> {
    rest: &'a [Route],
    /// Those that cover where the walk is, the longest last.
    covering: Vec<Route>,
}

impl<'a> Walk<'a> {
    fn of(routes: &'a [Route]) -> Walk<'a> {
        Walk { rest: routes, covering: Vec::new() }
    }

    fn next(&self) -> Option<Place> {
        self.rest.first().map(place)
    }

    /// The route of a prefix, of those that the walk has passed and of that prefix itself.
    fn to(&mut self, at: Place) -> Option<Route> {
        while self.covering.last().map_or(false, |route| !covers(route, at)) {
            self.covering.pop();
        }
        if self.next() == Some(at) {
            self.covering.push(self.rest[0]);
            self.rest = &self.rest[1..];
        }
        self.covering.last().copied()
    }
}

#[derive(Debug, Default)]
pub struct Waiting {
    /// The prefixes that wait, and since when, in ms.
    since: BTreeMap<Place, u64>,
}

impl Waiting {
    /// The routes that are to be told in place of new ones, where the router has been told others. `is_neighbour` says
    /// whether a route's next hop is there.
    pub fn held(
        &mut self,
        told: &[Route],
        new: &[Route],
        now: u64,
        is_neighbour: impl Fn(&Route) -> bool,
    ) -> Vec<Route> {
        let before = std::mem::take(&mut self.since);
        let (mut old, mut wanted) = (Walk::of(told), Walk::of(new));
        let mut held: Vec<Route> = Vec::with_capacity(new.len());
        // Which of those that are held cover where the walk is.
        let mut covering: Vec<Route> = Vec::new();
        while let Some(at) = [old.next(), wanted.next()].into_iter().flatten().min() {
            let is_new = wanted.next() == Some(at);
            let (had, mut goes) = match (old.to(at), wanted.to(at)) {
                (had, Some(goes)) => (had, goes),
                (_, None) => continue,
            };
            let since = before.get(&at).copied().unwrap_or(now);
            let moves = |had: &Route| way(had) != way(&goes) && is_neighbour(had) && !is_neighbour(&goes);
            if let Some(had) = had.filter(|had| moves(had) && now < since + HELLO_TAKES) {
                self.since.insert(at, since);
                goes = had;
            }
            covering.retain(|route| covers(route, at));
            // A prefix of old routes alone is told only where its way is another one than that of what covers it.
            if is_new || covering.last().map(way) != Some(way(&goes)) {
                let route = Route { prefix: at.0.into(), length: at.1, ..goes };
                covering.push(route);
                held.push(route);
            }
        }
        held
    }

    /// When the first of them waits no more, in ms.
    pub fn due(&self) -> Option<u64> {
        self.since.values().min().map(|since| since + HELLO_TAKES)
    }
}

#[cfg(test)]
mod tests {
    use super::*;
    use crate::routes::longest;
    use std::net::Ipv4Addr;

    fn route(prefix: &str, next_hop: u8) -> Route {
        let (prefix, length) = prefix.split_once('/').unwrap();
        let prefix: Ipv4Addr = prefix.parse().unwrap();
        let next_hop = Ipv4Addr::new(10, 0, next_hop / 10, next_hop % 10);
        Route {
            prefix,
            length: length.parse().unwrap(),
            next_hop,
            iface: u32::from(next_hop.octets()[2]),
            preference: 1,
            metric: 2,
        }
    }

    /// With next hops below 20 as neighbours.
    fn held(waiting: &mut Waiting, told: &[Route], new: &[Route], now: u64) -> Vec<Route> {
        waiting.held(told, new, now, |route| route.iface < 2)
    }

    #[test]
    fn a_route_waits_for_its_next_hop_as_long_as_a_hello_takes() {
        let (old, new) = ([route("10.9.0.0/16", 12)], [route("10.9.0.0/16", 22)]);
        let mut waiting = Waiting::default();
        assert_eq!(held(&mut waiting, &old, &new, 1_000), old);
        assert_eq!(waiting.due(), Some(36_000));
        assert_eq!(held(&mut waiting, &old, &new, 35_999), old);
        assert_eq!(held(&mut waiting, &old, &new, 36_000), new);
        assert_eq!(waiting.due(), None);
    }

    #[test]
    fn it_waits_no_more_once_one_is_there_or_the_other_is_gone() {
        let (old, new) = ([route("10.9.0.0/16", 12)], [route("10.9.0.0/16", 22)]);
        let mut waiting = Waiting::default();
        assert_eq!(held(&mut waiting, &old, &new, 1_000), old);
        assert_eq!(waiting.held(&old, &new, 2_000, |_| true), new);
        assert_eq!(waiting.due(), None);
        assert_eq!(held(&mut waiting, &old, &new, 3_000), old);
        assert_eq!((waiting.due(), waiting.held(&old, &new, 4_000, |_| false)), (Some(38_000), new.to_vec()));
        // A route that is new has had no way, and one that moves among neighbours doesn't wait.
        assert_eq!(held(&mut waiting, &[], &new, 5_000), new);
        assert_eq!(held(&mut waiting, &old, &[route("10.9.0.0/16", 15)], 5_000), [route("10.9.0.0/16", 15)]);
        // Nor does one that ends.
        assert!(held(&mut waiting, &old, &[], 5_000).is_empty());
    }

    #[test]
    fn a_longer_and_a_shorter_prefix_keep_the_way_of_their_addresses() {
        let (wide, narrow) = (route("10.8.0.0/15", 12), route("10.9.0.0/16", 13));
        let mut waiting = Waiting::default();
        let longer = [wide, route("10.9.1.0/24", 22)];
        assert_eq!(held(&mut waiting, &[wide], &longer, 0), [wide, route("10.9.1.0/24", 12)]);
        // The prefix that had another way has it still.
        assert_eq!(held(&mut waiting, &[wide, narrow], &[route("10.8.0.0/15", 22)], 0), [wide, narrow]);
        assert_eq!(held(&mut waiting, &[wide, narrow], &[wide], 0), [wide]);
    }

    /// Each address has the way that it had where the new one leads to nobody and the old one to a neighbour.
    #[test]
    fn every_address_goes_as_it_should() {
        let mut seed = 5u64;
        let mut draw = move |below: u64| {
            seed = seed.wrapping_mul(6_364_136_223_846_793_005).wrapping_add(1_442_695_040_888_963_407);
            (seed >> 33) % below
        };
        for _ in 0..500 {
            let mut table = || {
                let mut found = BTreeMap::new();
                for _ in 0..draw(12) {
                    let length = draw(9) as u8;
                    let prefix = (draw(256) as u32) << 24 & mask(length);
                    let text = format!("{}/{length}", Ipv4Addr::from(prefix));
                    found.insert((prefix, length), route(&text, 10 + draw(15) as u8));
                }
                found.into_values().collect::<Vec<_>>()
            };
            let (old, new) = (table(), table());
            let told = held(&mut Waiting::default(), &old, &new, 0);
            assert!(told.windows(2).all(|pair| place(&pair[0]) < place(&pair[1])));
            for address in (0..256u32).map(|top| top << 24) {
                let (had, goes) = (longest(&old, address), longest(&new, address));
                let is_kept = goes.map_or(false, |goes| goes.1 == 2) && had.map_or(false, |had| had.1 < 2);
                assert_eq!(longest(&told, address), if is_kept { had } else { goes });
            }
        }
    }
}
