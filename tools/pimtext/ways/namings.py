"""What names an RP for a group at a router, its RP ranges and candidate RPs, which of these has it and why (RFC 7761,
4.7.1), and in what two routers differ."""
from __future__ import annotations

from collections.abc import Iterable, Iterator
from dataclasses import dataclass
from typing import TYPE_CHECKING

from viqeshor.lab.addresses import ip_address, is_source_specific
from viqeshor.lab.rps import Candidate, hashed

if TYPE_CHECKING:
    from ipaddress import IPv4Network
    from viqeshor.lab.known import Known


@dataclass(frozen=True)
class Naming:
    """What names an RP for a group: an RP range, or a candidate RP, with its hash value for the group."""
    prefix: IPv4Network
    rp: str
    candidate: Candidate | None = None
    value: int = 0

    def rank(self) -> tuple[int, ...]:
        """The greatest has the RP."""
        length, is_range = self.prefix.prefixlen, self.candidate is None
        return length, is_range, 0 if is_range else -self.candidate.priority, self.value, int(ip_address(self.rp))

    def words(self) -> str:
        if self.candidate is None:
            return f"{self.rp}, the RP of the range {self.prefix}"
        return f"{self.rp}, a candidate of {self.prefix} with priority {self.candidate.priority}"

    def why_before(self, other: Naming) -> str:
        """Why it precedes another one, that is named before."""
        differs = [mine != theirs for mine, theirs in zip(self.rank(), other.rank())]
        told = (
            "its prefix is longer",
            "of one prefix the range has the RP",
            "its priority is the lower number",
            f"its hash value is {self.value}, and the other's {other.value}",
            f"both have the hash value {self.value}, and its address is the higher",
        )
        return told[differs.index(True)]


def namings(group: str, ranges: Iterable[tuple[IPv4Network, str]], candidates: Iterable[Candidate]) -> list[Naming]:
    """All that name an RP for an address; the first one has it."""
    address = ip_address(group)
    found = [Naming(prefix, rp) for prefix, rp in ranges if address in prefix]
    found += [Naming(it.prefix, it.rp, it, hashed(it.hash_length, address, it.rp))
              for it in candidates if address in it.prefix]
    return sorted(found, key=Naming.rank, reverse=True)


def namings_of(state: Known, group: str) -> list[Naming]:
    """Those that a router has for a group; a group of SSM has none."""
    return [] if is_source_specific(group) else namings(group, state.rps, state.candidates)


def has_candidates(*found: list[Naming]) -> bool:
    return any(it.candidate is not None for one in found for it in one)


# ---- two routers


def differences(names: tuple[str, str], both: tuple[list[Naming], list[Naming]]) -> Iterator[str]:
    """In what two routers differ of the RPs that a group has there."""
    rps = {one[0].rp for one in both if one}
    keyed = [{(it.prefix, it.rp, it.candidate is None): it for it in one if it.rp in rps} for one in both]
    for key in dict.fromkeys([*keyed[0], *keyed[1]]):
        found = [one.get(key) for one in keyed]
        prefix, rp, is_range = key
        what = f"the range {prefix} with the RP {rp}" if is_range else f"the candidate {rp} of {prefix}"
        if None in found:
            yield f"{names[found.index(None)]} doesn't have {what}"
        elif not is_range:
            yield from unlike(what, names, [it.candidate for it in found])


def unlike(what: str, names: tuple[str, str], both: list[Candidate]) -> Iterator[str]:
    """In what a candidate differs at two routers."""
    for name, unit in (("priority", "priority {}"), ("hash_length", "a hash mask of {} bits")):
        values = [unit.format(getattr(it, name)) for it in both]
        if values[0] != values[1]:
            yield f"{what} has {values[0]} at {names[0]}, and {values[1]} at {names[1]}"
