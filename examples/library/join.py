"""The same as `join.c`, in Python, by the package of bindings/python."""
from itertools import count

from viqeshor import Answer, Router

LINKS = "nmo"
HELLO_ABOVE = "45C0001E000000000167CEAB0A000001E000000D2000DFFC00010002FFFF"
HELLO_BELOW = "45C0001E000000000167CDAA0A000102E000000D2000DFFC00010002FFFF"
JOIN = "45C00036000000000167CD920A000102E000000D2300DBB301000A0001010001000101000020E101010100010000010004200A000305"
DATA = "4500001C0000000040118BCA0A000305E10101010001000200030004"
MORE_DATA = "4500001C0001000040118BC90A000305E10101010001000200030004"


def said(answer: Answer) -> str:
    if answer == Answer.DONE:
        return "done"
    return f"{'ignored' if answer.is_ignored else 'refused'} {answer.value}"


def main() -> None:
    interfaces = [("10.0.0.2", 24), ("10.0.1.1", 24), ("10.0.2.1", 24)]
    routes = [("10.9.9.0/24", "10.0.0.1", 0, 110, 20), ("10.0.3.0/24", "10.0.0.1", 0, 110, 20)]
    router = Router(interfaces, [("224.0.0.0/4", "10.9.9.9")], routes)
    events = [lambda iface=iface: router.up(iface, draw=7) for iface in range(3)]
    events += [lambda: router.frame(0, bytes.fromhex(HELLO_ABOVE)), lambda: router.frame(1, bytes.fromhex(HELLO_BELOW))]
    events += [lambda: router.frame(1, bytes.fromhex(JOIN))]
    events += [lambda: router.advance(999), lambda: router.frame(0, bytes.fromhex(DATA))]
    events += [lambda: router.advance(1000), lambda: router.frame(0, bytes.fromhex(MORE_DATA))]
    numbers = count(1)
    for move, event in enumerate(events, 1):
        print(f"move {move} r {said(event())}")
        for kind, where, packet in router.packets():
            print(kind, next(numbers), where if kind == "unicast" else LINKS[where], packet.hex())
    router.end()


if __name__ == "__main__":
    main()
