"""What hosts and sources do so that a stream doesn't come: how they ask, whom their reports reach, and what they
send."""
from __future__ import annotations

from collections.abc import Callable, Container, Hashable, Iterator
from typing import TYPE_CHECKING

from pimtext.ways import streams
from viqeshor.lab import asked, packets, printed, wishes, words
from viqeshor.lab.addresses import ip_address, is_source_specific
from viqeshor.lab.facts import USUAL
from pimtext.causes.cause import Cause
from viqeshor.lab.printed import ANY
from pimtext.causes.run import gathered, is_local, some, times

if TYPE_CHECKING:
    from ipaddress import IPv4Network
    from pimtext.causes.cause import Symptom
    from pimtext.causes.run import Run
    from viqeshor.lab.spoken import Said
    from viqeshor.lab.story import Sent, Step
    from viqeshor.lab.wishes import Heard

OLD_QUERY_SIZE = 8
# A host that has no address yet reports with this one.
NO_ADDRESS = "0.0.0.0"
# Which versions of older hosts a router hears, by `older_hosts` of its table.
HEARD = {"none": (), "v2": (2,), "all": (1, 2)}


class Askers:
    def __init__(self, run: Run) -> None:
        self.run, self.world, self.known, self.hosts = run, run.world, run.known, run.hosts

    # ---- how hosts ask

    def older_refused(self, is_heard: bool) -> Iterator[Heard]:
        """Messages of IGMPv1 and IGMPv2 that routers refused, where they hear the version or where they don't."""
        for each in self.hosts.heard:
            setting = self.known[each.step.router].router.table.get("older_hosts", "none")
            if each.step.verdict == "refused" and each.version < 3 and (each.version in HEARD[setting]) == is_heard:
                yield each

    def older_hosts(self) -> Iterator[Cause]:
        """The routers of a link hear the version that its hosts speak."""
        for host, reports in gathered((each.host, each) for each in self.older_refused(False)).items():
            first, groups = reports[0], {group for each in reports for group, _ in each.wishes}
            routers = some(list(dict.fromkeys(each.step.router for each in reports)))
            told = f"{host} on {first.link} speaks IGMPv{first.version}, which `older_hosts` of {routers} doesn't hear"
            told = f"{told}: refused {times(len(reports), 'report')} of it for {some(sorted(groups))}"
            yield Cause(*self.run.at_move(first.step, told), self.of_host(host, groups, "7"))

    def older_leaves(self) -> Iterator[Cause]:
        """No host of a group that one leaves speaks IGMPv1 (RFC 3376, 7.3.2)."""
        for each in self.older_refused(True):
            group, wish = each.wishes[0]
            if wish == wishes.NOTHING and not is_local(group) and not is_source_specific(group):
                told = f"the Leave of {each.host} for {group} isn't heard: a host of IGMPv1 wants the group"
                yield Cause(*self.run.at_move(each.step, told), self.of_host(each.host, {group}, "7"))

    @staticmethod
    def of_host(host: str, groups: Container[str], cause: str | None = None) -> Callable[[Symptom], bool]:
        return lambda each: each.host == host and (
            (each.kind == "unwanted" and each.group in groups) or (each.kind == "odd" and each.cause == cause))

    def old_queriers(self) -> Iterator[Cause]:
        """The querier of a link speaks IGMPv3."""
        refused = [step for step in self.run.steps if step.verdict == "refused" and is_old_query(step)]
        for address, steps in gathered((packets.dotted(step.taken()[12:16]), step) for step in refused).items():
            told = f"{address} asks hosts by IGMPv2 or IGMPv1, which was refused {times(len(steps), 'time')}: hosts"
            line, told = self.run.at_move(steps[0], f"{told} that hear it answer by the same, which routers refuse too")
            yield Cause(line, told, self.of_host(address, (), "7"))

    def sourceless(self) -> Iterator[Cause]:
        """A group of the SSM range is asked for with its source."""
        for (host, group, _), told in self.hosts.told.items():
            first = next((at for at, wish in told if wish.is_exclude), None)
            if is_source_specific(group) and first is not None:
                why = "and an SSM group has no tree but those of its sources: name one, by ALLOW or TO_IN"
                text = f"{host} asks for {group} without a source, {why}"
                yield Cause(*self.run.at_move(self.run.steps[first], text), self.of_host(host, {group}, "7"))

    def other_sources(self) -> Iterator[Cause]:
        """A source that is asked for by name is one that sends."""
        senders = gathered((packet.group, packet.source) for packet in self.run.packets)
        named = [(key, source) for key in self.hosts.told for source in self.hosts.named(key)]
        for key, source in named:
            host, group, _ = key
            if senders.get(group) and source not in senders[group]:
                sent = some(dict.fromkeys(senders[group]))
                told = f"{host} asks for {group} of {source}, which has sent nothing in this run: what was sent to it"
                step = self.run.steps[self.hosts.joined(key, source)]
                yield Cause(*self.run.at_move(step, f"{told} is of {sent}"), self.of_source(group, source))

    @staticmethod
    def of_source(group: str, source: str) -> Callable[[Symptom], bool]:
        kinds = ("no owner", "no route", "stranger", "interface down", "no neighbour", "silent")
        return lambda each: each.group == group and each.source == source and each.kind in kinds

    def local(self) -> Iterator[Cause]:
        """A group of 224.0.0.0/24 never leaves its link."""
        for (host, group, _), told in self.hosts.told.items():
            if is_local(group):
                text = f"{host} asks for {group}, and no router forwards groups of 224.0.0.0/24"
                yield Cause(*self.run.at_move(self.run.steps[told[0][0]], text), self.of_local(group))

    @staticmethod
    def of_local(group: str) -> Callable[[Symptom], bool]:
        return lambda each: each.group == group or (each.kind == "odd" and each.cause == "LinkLocal")

    def excluding(self) -> Iterator[Cause]:
        """A host that asks for all sources but some gets nothing of these."""
        for key, told in self.hosts.told.items():
            host, group, link = key
            for source in sorted({source for _, wish in told if wish.is_exclude for source in wish.sources}):
                missed = [packet for packet in self.run.packets if (packet.source, packet.group) == (source, group)
                          and self.hosts.wish(key, packet.at).is_exclude
                          and not self.hosts.wish(key, packet.at).has(source)]
                if missed:
                    at = next(at for at, wish in told if wish.is_exclude and source in wish.sources)
                    text = f"{host} on {link} asks for all sources of {group} but {source}, and is sent none of the"
                    text = f"{text} {times(len(missed), 'packet')} that this one sent since"
                    yield Cause(*self.run.at_move(self.run.steps[at], text), self.of_source(group, source))

    def outside(self) -> Iterator[Cause]:
        """A host asks on the link of its subnet."""
        for host, links in self.hosts.links.items():
            for link in links:
                networks = [each.own.network for _, each in self.run.ports().get(link, [])]
                if networks and host != NO_ADDRESS and not any(ip_address(host) in each for each in networks):
                    yield self.asked_outside(host, link, networks[0], [each for each in links if each != link])

    def asked_outside(self, host: str, link: str, network: IPv4Network, others: list[str]) -> Cause:
        first = next(each for each in self.hosts.heard if (each.host, each.link) == (host, link))
        groups = some(dict.fromkeys(group for whose, group, where in self.hosts.told if (whose, where) == (host, link)))
        told = f"{host} asks for {groups} on {link}, and isn't in {network}, the subnet of that link"
        home = self.world.link_of(host)
        told += f": its address is one of {home}" if home else ": its address is one of no link here"
        if home in others:
            still = any(self.hosts.wish(key, len(self.run.steps)) != wishes.NOTHING for key in self.hosts.keys(host)
                        if key[2] == home)
            last = max(each.step.moment for each in self.hosts.heard if (each.host, each.link) == (host, home))
            told += f", where it asks too: does its report leak from there to {link}?" if still else \
                f", where it asked until {words.seconds(last)}: has it moved?"
        return Cause(*self.run.at_move(first.step, told))

    # ---- whom their reports reach

    def unheard(self) -> Iterator[Cause]:
        """A report comes to the DR of its link."""
        asking = [each for each in self.hosts.heard if any(wish != wishes.NOTHING for _, wish in each.wishes)]
        for (host, link), reports in gathered(((each.host, each.link), each) for each in asking).items():
            dr = self.dr_of(link)
            is_kept = dr is not None and all(each.step.router != dr for each in reports)
            if is_kept and self.was_there(dr, link, reports[-1]):
                yield self.kept_off(host, link, dr, reports)

    def was_there(self, name: str, link: str, report: Heard) -> bool:
        """Whether a router's interface on a link was up when a report came."""
        up = self.run.past.known(report.at)[name].up
        return any(each.number in up for each in self.known[name].router.on(link))

    def dr_of(self, link: str) -> str | None:
        """The router that is a link's DR at the end, None where none there takes itself for it."""
        return next((state.router.name for state, number in self.world.ports[link] if asked.is_dr(state, number)), None)

    def kept_off(self, host: str, link: str, dr: str, reports: list[Heard]) -> Cause:
        names = " and ".join(dict.fromkeys(each.step.router for each in reports))
        told = f"the reports of {host} came to {names} and not to {dr}, the DR of {link}: what a host sends comes to"
        told = f"{told} every router of its link, but where a switch keeps it (IGMP snooping)"
        covers = lambda each: each.kind == "unwanted" and each.host == host and each.link == link
        return Cause(*self.run.at_move(reports[0].step, told), covers)

    def forgotten(self) -> Iterator[Cause]:
        """A host answers queries for as long as it wants something."""
        for (host, group, link), told in self.hosts.told.items():
            report = self.last_report(host, group, link)
            is_never_kept = is_local(group) or (is_source_specific(group) and told[-1][1].is_exclude)
            if report is None or is_never_kept or told[-1][1] == wishes.NOTHING:
                continue
            if not self.is_known(report.step.router, link, group) and self.is_over(report):
                yield from self.gone(group, report)

    def last_report(self, host: str, group: str, link: str) -> Heard | None:
        """A host's last report of a group that came to a link's DR, None where that refused it, or there is none."""
        here, dr = [each for each in self.hosts.heard if (each.host, each.link) == (host, link)], self.dr_of(link)
        mine = [each for each in here if each.step.router == dr]
        taken = [each for each in mine if group in dict(each.wishes)]
        return taken[-1] if taken and taken[-1].step.verdict == "done" else None

    def is_over(self, report: Heard) -> bool:
        """Whether the router that took a report keeps a wish no longer than since then (RFC 3376, 8.4)."""
        state = self.known[report.step.router]
        table = USUAL | state.router.table
        kept = 1000 * table["rv"] * table["qi"] + 100 * table["qri"]
        return state.moment - report.step.moment >= kept

    def is_known(self, dr: str, link: str, group: str) -> bool:
        """Whether a router knows of hosts on a link that want a group."""
        state = self.known[dr]
        numbers = {each.number for each in state.router.on(link)}
        named = {row.iface for row in state.of(printed.SourceRecord, group=group) if row.end is not None}
        return bool(numbers & (state.tree(group).local_receiver_include | named))

    def gone(self, group: str, report: Heard) -> Iterator[Cause]:
        """The cause where a host answered none of the queries that came after its report."""
        host, link, dr, steps = report.host, report.link, report.step.router, self.run.steps
        later = range(report.at + 1, len(steps))
        asked = [at for at in later if any(is_query(sent, dr, link) for sent in steps[at].sent)]
        answers = [each for each in self.hosts.heard if each.host == host and each.step.router == dr]
        if asked and all(each.at <= asked[0] for each in answers):
            told = f"{host} asked for {group} at {words.seconds(report.step.moment)} for the last time, and answered no"
            told = f"{told} query since, though {dr} sent {len(asked)} on {link}: {dr} has forgotten its wish"
            whole = self.of_host(host, {group})
            covers = lambda each: whole(each) and each.place in (None, link)
            yield Cause(*self.run.at_move(report.step, told), covers, is_hint=True)

    # ---- what sources send

    def cloned(self) -> Iterator[Cause]:
        """A source's address is that of one sender."""
        sent = gathered((packet.source, packet) for packet in self.run.packets)
        for source, found in sent.items():
            links = next((links for group in dict.fromkeys(packet.group for packet in found)
                          if len(links := streams.origins(found, group, source)) > 1), [])
            if links:
                first = {packet.link: packet for packet in reversed(found)}
                shown = some((f"{link} (since {words.seconds(first[link].moment)})" for link in links), 4)
                told = f"several senders have the address {source}: packets of it come from {shown} by turns"
                step = self.run.steps[max(first[link].at for link in links)]
                yield Cause(*self.run.at_move(step, told), self.of_stranger(source))

    def strangers(self) -> Iterator[Cause]:
        """A source is on a link of its first router, or behind another router."""
        places = {id(step): at for at, step in enumerate(self.run.steps)}
        data = (each for each in self.run.said if each.is_data())
        keyed = (((each.router, each.iface, each.packet.source), each) for each in data)
        for (_, _, source), said in gathered(keyed).items():
            outside = next((each for each in said if self.is_outside(each, places[id(each.step)])), None)
            if outside is not None:
                yield self.stranger(outside, source, places[id(outside.step)])

    def is_outside(self, each: Said, at: int) -> bool:
        """Whether a packet came from a source that was then on no link of its router."""
        source = each.packet.source
        own = self.run.settings.at(each.router, at).router.interfaces[each.iface].own
        return ip_address(source) not in own.network and \
            asked.rpf_interface(self.run.past.known(at)[each.router], source) != each.iface

    def stranger(self, each: Said, source: str, at: int) -> Cause:
        settings, value = self.run.settings, lambda told: told.interface(each.iface)
        own, since = settings.at(each.router, at).router.interfaces[each.iface], settings.since(each.router, value, at)
        where = f"isn't in {own.own.network}, the subnet of {own.link}, and no route leads to it there"
        line, told = self.run.at_move(each.step, f"the source {source} {where}: it counts as no source of this link")
        if since.began:
            line, told = settings.line(each.router, since), f"{told}: {settings.words(since)}"
        return Cause(line, told, self.of_stranger(source))

    @staticmethod
    def of_stranger(source: str) -> Callable[[Symptom], bool]:
        kinds = ("stranger", "no owner", "no route", "silent")
        return lambda each: each.kind in kinds and source in (each.address, each.source)

    def unasked(self) -> Iterator[Cause]:
        """Data go where somebody asks for them."""
        wanted = self.run.wished()
        sources = gathered(wanted)
        others = some(sorted(sources, key=ip_address))
        first = self.first(lambda each: (each.packet.source, each.packet.destination))
        nobody = [each for each in first if each.packet.destination not in sources]
        for source, said in gathered((each.packet.source, each) for each in nobody).items():
            groups = some(each.packet.destination for each in said)
            told = f"nobody asks for {groups} in this run" + (f"; asked for is {others}" if others else "")
            covers = lambda each: each.kind == "silent" and each.source is None
            yield Cause(*self.run.at_move(said[0].step, told), covers)
        yield from self.of_others(first, sources)

    def of_others(self, first: list[Said], sources: dict[str, list[str]]) -> Iterator[Cause]:
        """Data of a source that nobody asks for, to a group that is asked for of other sources."""
        for each in first:
            group, source = each.packet.destination, each.packet.source
            asked = sources.get(group, [])
            if asked and not {ANY, source} & set(asked) and not is_source_specific(group):
                named = some(sorted(asked, key=ip_address))
                told = f"{group} is asked for of {named} alone, and this is data of {source}"
                yield Cause(*self.run.at_move(each.step, told))

    def first(self, key: Callable[[Said], Hashable]) -> list[Said]:
        """The data that hosts sent, one of each key, in the order of the run."""
        data = [each for each in self.run.said if each.is_data()]
        return list({key(each): each for each in reversed(data)}.values())[::-1]

    def causes(self) -> Iterator[Cause]:
        asking = (self.older_hosts, self.older_leaves, self.old_queriers, self.sourceless)
        sending = (self.cloned, self.strangers, self.excluding, self.outside, self.other_sources)
        for told in (*asking, *sending, self.unheard, self.forgotten, self.local, self.unasked):
            yield from told()


def is_query(sent: Sent, router: str, link: str) -> bool:
    return sent.kind == "frame" and (sent.router, sent.where) == (router, link) and sent.data[9] == packets.IGMP


def is_old_query(step: Step) -> bool:
    """Whether a host's packet is a query of IGMPv1 or IGMPv2."""
    message = wishes.igmp_of(step.taken()) if step.did["do"] == "frame" else None
    return bool(message) and message[0] == wishes.QUERY and len(message) == OLD_QUERY_SIZE
