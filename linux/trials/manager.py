#!/usr/bin/env python3
"""A service manager for one program, as systemd is one with `Restart=on-failure`, `FileDescriptorStoreMax=` and
`RestartKillSignal=SIGUSR1`.

    manager.py NOTIFY SECONDS PROGRAM ..

It listens at the socket NOTIFY, keeps the descriptors that the program sends (FDSTORE=1), drops those that it names
(FDSTOREREMOVE=1), and starts the program again SECONDS after it died, with the descriptors that it keeps (LISTEN_FDS).
It ends where the program ends in order, and hands SIGTERM, SIGHUP and SIGUSR2 on to it. At SIGUSR1 it restarts the
program, as `systemctl restart` does: it sends it SIGUSR1, and starts it again once it has ended. It prints a line for
each start, and what it keeps then.
"""
import array
import os
import signal
import socket
import sys
import time

FIRST = 3
MOST = 128


class Manager:
    def __init__(self, path: str, words: list[str]) -> None:
        self.path, self.words, self.kept, self.child = path, words, {}, 0
        self.is_restart = False
        self.socket = socket.socket(socket.AF_UNIX, socket.SOCK_DGRAM)
        self.socket.bind(path)
        os.chmod(path, 0o666)
        self.socket.settimeout(0.05)
        for number in (signal.SIGTERM, signal.SIGHUP, signal.SIGUSR2):
            signal.signal(number, lambda number, _: os.kill(self.child, number))
        signal.signal(signal.SIGUSR1, self.restart)

    def restart(self, number: int, _: object) -> None:
        self.is_restart = True
        os.kill(self.child, number)

    def start(self) -> None:
        kept = dict(self.kept)
        print("starts with", " ".join(sorted(kept)) or "nothing", flush=True)
        self.child = os.fork()
        if self.child:
            return
        # Out of the way first, so that none is overwritten before it is in its place.
        high = [os.dup2(fd, FIRST + MOST + place) for place, fd in enumerate(kept.values())]
        for place, fd in enumerate(high):
            os.dup2(fd, FIRST + place, inheritable=True)
        os.closerange(FIRST + len(high), FIRST + 3 * MOST)
        environment = os.environ | {"NOTIFY_SOCKET": self.path}
        if kept:
            environment |= {"LISTEN_FDS": str(len(kept)), "LISTEN_PID": str(os.getpid()),
                            "LISTEN_FDNAMES": ":".join(kept)}
        for number in (signal.SIGTERM, signal.SIGHUP, signal.SIGUSR1, signal.SIGUSR2):
            signal.signal(number, signal.SIG_DFL)
        os.execvpe(self.words[0], self.words, environment)

    def drop(self, name: str) -> None:
        if name in self.kept:
            os.close(self.kept.pop(name))

    def hear(self) -> bool:
        """Takes a message of the program; it answers whether there was one."""
        try:
            text, ancillary, *_ = self.socket.recvmsg(4096, socket.CMSG_SPACE(4 * MOST))
        except TimeoutError:
            return False
        found = array.array("i")
        for _, _, data in ancillary:
            found.frombytes(data[: len(data) // found.itemsize * found.itemsize])
        said = dict(line.split("=", 1) for line in text.decode().splitlines())
        name = said.get("FDNAME", "stored")
        if said.get("FDSTORE") == "1":
            self.drop(name)
            for fd in found[:1]:
                self.kept[name] = fd
                os.set_inheritable(fd, False)
        elif said.get("FDSTOREREMOVE") == "1":
            self.drop(name)
        return True

    def run(self, seconds: float) -> int:
        self.start()
        while True:
            self.hear()
            ended, status = os.waitpid(self.child, os.WNOHANG)
            if not ended:
                continue
            # What it said last is heard too.
            while self.hear():
                pass
            if self.is_restart:
                self.is_restart = False
                self.start()
                continue
            if os.waitstatus_to_exitcode(status) == 0:
                print("ended with", " ".join(sorted(self.kept)) or "nothing", flush=True)
                return 0
            time.sleep(seconds)
            self.start()


if __name__ == "__main__":
    sys.exit(Manager(sys.argv[1], sys.argv[3:]).run(float(sys.argv[2])))
