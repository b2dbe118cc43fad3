"""Says which Debian packages of dev/packages.txt aren't there, by what they give, and whether Rust is too old."""
import re
import shutil
import subprocess
import sys
from pathlib import Path

PACKAGES = Path(__file__).resolve().parent.parent / "packages.txt"
# Of each package the program that is called, or a pattern of the file that is read.
CRATE = "usr/share/cargo/registry/{}-[0-9]*/Cargo.toml"
GIVES = {
    "cargo": "cargo", "chromium": "chromium", "cmake": "cmake", "gcc": "cc", "graphviz": "neato",
    "pkg-config": "pkg-config", "pyflakes3": "pyflakes3", "rust-clippy": "cargo-clippy", "rustc": "rustc",
    "rustfmt": "rustfmt", "tshark": "tshark", "valgrind": "valgrind",
}


# The daemon and the Rust crate are compiled by Rust 1.63 too, which Debian 12 has, and torture/bench by this one.
RUST = (1, 85)


def packages() -> list[str]:
    return PACKAGES.read_text(encoding="utf-8").split()


def is_there(package: str) -> bool:
    """Whether what a package gives is there, wherever it came from."""
    if package in GIVES:
        return shutil.which(GIVES[package]) is not None
    crate = package.removeprefix("librust-").removesuffix("-dev").replace("-", "[-_]")
    return any(Path("/").glob(CRATE.format(crate)))


def is_old(said: str) -> bool:
    """Whether `rustc --version` says an older version than is wanted."""
    found = re.search(r"rustc (\d+)\.(\d+)", said)
    return found is not None and (int(found[1]), int(found[2])) < RUST


def main() -> int:
    missing = [package for package in packages() if not is_there(package)]
    if missing:
        print(f"these packages aren't installed: apt-get install {' '.join(missing)}")
        return 1
    said = subprocess.run(["rustc", "--version"], stdout=subprocess.PIPE, text=True).stdout
    if is_old(said):
        print(f"{said.strip()} is older than {'.'.join(map(str, RUST))}, which torture/bench wants: https://rustup.rs")
        return 1
    return 0


if __name__ == "__main__":
    sys.exit(main())
