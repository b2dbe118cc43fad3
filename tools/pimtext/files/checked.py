"""What is odd in a scenario that is accepted, without playing it: interfaces that a router hasn't, links that are
probably misspelt, and addresses that are no host's in their subnets."""
from __future__ import annotations

from collections.abc import Iterator
from difflib import get_close_matches
from typing import Any

from viqeshor.lab.addresses import dotted, mask
from viqeshor.lab.faults import Fault, Iface, Judge

# How alike two names are of which one is probably misspelt.
NEAR = 0.6


def odd(judge: Judge) -> list[Fault]:
    """By line; `judge` found no fault in the file."""
    found = [*addresses(judge), *links(judge), *interfaces(judge)]
    return sorted(found, key=lambda each: each.line)


def ports(judge: Judge) -> Iterator[tuple[dict[str, Any], int, Iface]]:
    for router in judge.routers:
        for number, iface in enumerate(router["ifaces"]):
            yield router, number, iface


def place(router: dict[str, Any], number: int) -> str:
    return f"{router['where']}, interface {number}"


def addresses(judge: Judge) -> Iterator[Fault]:
    """The lowest address of a subnet is the network's, the highest is for all its hosts; one of two has neither."""
    for router, number, iface in ports(judge):
        low = iface.address & mask(iface.length)
        ends = {low: "the network's own address", low | ~mask(iface.length) & 0xFFFFFFFF: "the broadcast address"}
        if iface.length < 31 and iface.address in ends:
            told = f"{dotted(iface.address)} is {ends[iface.address]} in {dotted(low)}/{iface.length}, no router's"
            yield Fault(iface.line, place(router, number), told)


def links(judge: Judge) -> Iterator[Fault]:
    """A link that one interface has alone, where another link has almost its name and its subnet."""
    here = {}
    for router, number, iface in ports(judge):
        here.setdefault(iface.link, []).append((router, number, iface))
    for link, ((router, number, iface), *others) in here.items():
        subnet = (iface.address & mask(iface.length), iface.length)
        same = [name for name, its in here.items() if name != link and any(
            (each.address & mask(each.length), each.length) == subnet for _, _, each in its)]
        near = get_close_matches(link, same, 1, NEAR)
        if not others and near:
            told = f"no other interface is on the link `{link}`, and {dotted(subnet[0])}/{subnet[1]} is the subnet of"
            yield Fault(iface.line, place(router, number), f"{told} `{near[0]}`: is that meant?")


def interfaces(judge: Judge) -> Iterator[Fault]:
    """A move names an interface that its router has by then."""
    counts = {router["table"].get("name").held: len(router["ifaces"]) for router in judge.routers}
    for number, move in enumerate(judge.moves, 1):
        router, iface = move.get("router"), move.get("iface")
        if move.get("do").held == "reload":
            counts[router.held] = len(move.get("config").get("iface").held)
        elif iface is not None and iface.held >= counts[router.held]:
            told = f"router {router.held} has no interface {iface.held}: it has {counts[router.held]}, counted from 0"
            yield Fault(iface.line, f"move {number}", told)
