"""How long data still flows after a host's Leave, by how often the querier asks before it gives the group up: explored
by a router for each value, and drawn as leave.svg in the folder that is named. The times are LMQI times the robustness
(RFC 3376, section 8.8)."""
import sys
from pathlib import Path

from viqeshor import Router, hosts

GROUP, HOST = "239.1.1.1", "10.0.1.9"


def flows(robustness: int, interval: int) -> float:
    """Seconds from the Leave until the group has no copy any more, with an LMQI in tenths of a second."""
    with Router(["10.0.0.1/24", "10.0.1.1/24"], [("224.0.0.0/4", "10.0.0.1")], robustness=robustness,
                last_member_query_interval=interval) as router:
        router.up(0)
        router.up(1)
        router.run_to(1000)
        router.frame(1, hosts.join(HOST, GROUP))
        router.frame(1, hosts.leave(HOST, GROUP))
        now = 1000
        while True:
            router.packets()
            router.frame(0, hosts.data("10.0.0.7", GROUP))
            if not any(sent.kind == "copy" for sent in router.packets()):
                return (now - 1000) / 1000
            now += 100
            router.run_to(now)


def drawn(times: dict[int, list[float]]) -> str:
    """A line for each interval, of the time by the robustness."""
    lines = []
    for number, (interval, found) in enumerate(times.items()):
        points = " ".join(f"{60 * at + 40},{240 - 15 * time:g}" for at, time in enumerate(found))
        lines.append(f'<polyline points="{points}" fill="none" stroke="hsl({number * 90},70%,40%)"/>')
        lines.append(f'<text x="350" y="{240 - 15 * found[-1]:g}">{interval / 10:g} s</text>')
    return f'<svg xmlns="http://www.w3.org/2000/svg" viewBox="0 0 400 260">{"".join(lines)}</svg>\n'


def main() -> None:
    times = {interval: [flows(robustness, interval) for robustness in range(2, 8)] for interval in (5, 10, 20)}
    for interval, found in times.items():
        print(f"LMQI {interval / 10:g} s:", *(f"{time:g}" for time in found))
    if len(sys.argv) > 1:
        Path(sys.argv[1], "leave.svg").write_text(drawn(times))


if __name__ == "__main__":
    main()
