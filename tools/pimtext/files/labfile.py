"""A file of tools/lab, for tools that look at the network that it makes. The folder tools/networks is on the path of
whoever calls."""
from __future__ import annotations

import runpy
import sys
import traceback
from pathlib import Path
from typing import TYPE_CHECKING

from pimtext.shown import playpage

if TYPE_CHECKING:
    from viqeshor.lab.network import Network


def network(path: str | Path) -> Network:
    """The last network that a file makes and runs; ends the program where there is none. An assert of the file that
    fails is told, and the network that it fails at is the one to look at."""
    import lab
    from viqeshor.lab.network import made
    nets, sys.argv = [], [str(path)]
    try:
        kept = runpy.run_path(str(path), run_name="__main__")
        nets = [net for net in made() if kept and net.player]
    except OSError as error:
        if error.filename is None:
            raise
        sys.exit(f"{path} can't be read: {error.strerror}")
    except (SyntaxError, UnicodeDecodeError) as error:
        sys.exit(f"{path} is no file of tools/lab, which is in Python: {error}")
    except lab.Mistake as error:
        sys.exit(f"{path}: {error}")
    except AssertionError:
        nets = [net for net in made() if net.player]
        traceback.print_exc()
    return nets[-1] if nets else sys.exit(f"{path} runs no network")


def told(net: Network, name: str, is_by_time: bool = True) -> playpage.Told:
    """A network's run, with the names of its hosts, and what is odd in it."""
    from viqeshor.lab.lines import Lines
    hosts = {host.address: host.name for host in net.hosts.values()}
    return playpage.Told(name, net.scenario(), hosts, Lines(net), frozenset(net.unheard), is_by_time, net.played())


def is_lab_file(path: str | Path) -> bool:
    return Path(path).suffix == ".py"
