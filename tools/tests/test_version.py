"""The file VERSION has the version, and all that has to say it in its own place says the same."""
import re
import tomllib
import unittest

from pimtext.build import library

TOP = library.TOP
VERSION = (TOP / "VERSION").read_text().strip()


def found(file, pattern):
    return re.search(pattern, (TOP / file).read_text(), re.M)[1]


class Version(unittest.TestCase):
    def test_each_place_has_the_version_of_the_file(self):
        said = {"viqeshor.h": library.VERSION}
        for file in ("linux/Cargo.toml", "bindings/rust/Cargo.toml"):
            said[file] = tomllib.loads((TOP / file).read_text())["package"]["version"]
        said["the package for Python"] = found("bindings/python/src/viqeshor/__init__.py", r'^__version__ = "(.*)"')
        lock = tomllib.loads((TOP / "bindings/rust/Cargo.lock").read_text())["package"]
        said["Cargo.lock"] = next(one["version"] for one in lock if one["name"] == "viqeshor")
        numbers = [found("include/viqeshor/viqeshor.h", rf"VIQ_VERSION_{part} (\d+)$")
                   for part in ("MAJOR", "MINOR", "PATCH")]
        said["its numbers"] = ".".join(numbers)
        self.assertEqual(said, dict.fromkeys(said, VERSION))

    def test_each_place_has_the_series_of_the_shared_library(self):
        series = library.SERIES
        self.assertTrue(VERSION.startswith(f"{series}."))
        for file, pattern in (("bindings/python/src/viqeshor/__init__.py", r"libviqeshor\.so\.([\d.]+)"),
                              ("linux/package", r'^SOVERSION = "(.*)"'),
                              ("linux/try_package", r'"libviqeshor([\d.]+)"'),
                              ("linux/try_package", r"find_package\(viqeshor ([\d.]+) "),
                              ("linux/try_package", r'"libviqeshor\.so\.([\d.]+)"'),
                              ("docs/LIBRARY.md", r"`libviqeshor\.so\.([\d.]+)`"),
                              ("docs/LINUX.md", r"`libviqeshor([\d.]+)`")):
            with self.subTest(file=file, pattern=pattern):
                self.assertEqual(found(file, pattern), series)


if __name__ == "__main__":
    unittest.main()
