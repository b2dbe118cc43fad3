"""The stored scenarios with the lines that they print, and tools as modules."""
import sys
from importlib.machinery import SourceFileLoader
from importlib.util import module_from_spec, spec_from_loader
from pathlib import Path

TOOLS = Path(__file__).resolve().parent.parent
TORTURE = TOOLS.parent / "torture"
DATA = TOOLS.parent / "crates" / "test_scenarios" / "data"
EXAMPLES = TOOLS.parent / "examples"


def played():
    """The scenarios that aren't refused, each with its lines."""
    for path in sorted(DATA.glob("*.toml")):
        if not path.with_suffix(".err").exists():
            yield path, path.with_suffix(".out").read_text().splitlines()


def tool(name):
    """The tool of this name as a module."""
    path = next(path for house in (TOOLS, TOOLS.parent / "dev", TORTURE) if (path := house / name).is_file())
    loader = SourceFileLoader(f"tool_{name}", str(path))
    module = module_from_spec(spec_from_loader(loader.name, loader))
    # Its dataclasses look their module up.
    sys.modules[loader.name] = module
    sys.dont_write_bytecode, was = True, sys.dont_write_bytecode
    loader.exec_module(module)
    sys.dont_write_bytecode = was
    return module
