"""The library's archive, made of one that is given. Its part of the router is a stand-in."""
import tempfile
import unittest
from pathlib import Path
from unittest import mock

from pimtext.build import library


class Given(unittest.TestCase):
    def test_the_archive_that_is_made_may_be_given(self):
        room = Path(self.enterContext(tempfile.TemporaryDirectory(prefix="archive-")))
        self.enterContext(mock.patch.object(library, "ROOM", room))
        own, source, heap = room / "libviqeshor.a", room / "heap.c", room / library.HEAP
        source.write_text("int heap;\n")
        library.ran([library.CC, "-c", source, "-o", heap])
        library.ran([library.archiver(), "rs", own, heap])
        made = library.Library(own).archive
        parts = library.ran([library.archiver(), "t", made]).decode().split()
        self.assertEqual((made, parts), (own, [library.WHOLE]))
        first = made.read_bytes()
        self.assertEqual(library.Library(made).archive.read_bytes(), first)
        self.assertNotIn("heap", library.global_names(made))
        self.assertIn("viq_version", library.global_names(made))


if __name__ == "__main__":
    unittest.main()
