"""How the package finds the shared library. No library is opened here: the files hold other bytes."""
import gzip
import hashlib
import os
import tempfile
import unittest
from pathlib import Path
from unittest import mock

from fing import _library

CONTENT = b"not a library, but it has a sha256"
SUM = hashlib.sha256(CONTENT).hexdigest()


class ReadyMade(unittest.TestCase):
    def setUp(self):
        folder = tempfile.TemporaryDirectory()
        self.addCleanup(folder.cleanup)
        self.dist, self.cache = Path(folder.name, "dist"), Path(folder.name, "cache")
        self.dist.mkdir()
        self.offer(CONTENT, SUM)
        for patch in (mock.patch.object(_library, "DIST", self.dist), mock.patch.dict(os.environ, XDG_CACHE_HOME=str(self.cache))):
            patch.start()
            self.addCleanup(patch.stop)

    def offer(self, content, listed):
        (self.dist / "libfing-x86_64-linux.so.gz").write_bytes(gzip.compress(content))
        (self.dist / "SUMS").write_text(f"# sums\n\ntoolchain kit\ndist/other 0 0 fing\n{_library.NAME} {listed} 0 fing_c\n")

    def test_it_is_unpacked_to_the_cache(self):
        place = _library.cached()
        self.assertEqual(place, self.cache / "fing" / SUM / "libfing.so")
        self.assertEqual(place.read_bytes(), CONTENT)
        self.assertEqual(os.listdir(place.parent), ["libfing.so"])

    def test_what_is_in_the_cache_is_taken(self):
        _library.cached()
        (self.dist / "libfing-x86_64-linux.so.gz").unlink()
        self.assertEqual(_library.cached().read_bytes(), CONTENT)

    def test_another_file_in_the_cache_is_replaced(self):
        _library.cached().write_bytes(b"tampered")
        self.assertEqual(_library.cached().read_bytes(), CONTENT)

    def test_a_library_with_another_sum_is_refused(self):
        self.offer(CONTENT + b"!", SUM)
        with self.assertRaisesRegex(ImportError, "sha256"):
            _library.cached()

    def test_a_cache_that_cannot_be_written(self):
        self.cache.write_bytes(b"a file where the folder would be")
        self.assertIsNone(_library.cached())
        self.assertEqual(_library.unpacked(), CONTENT)

    def test_nothing_ready_made(self):
        (self.dist / "SUMS").unlink()
        self.assertIsNone(_library.cached())
        with self.assertRaisesRegex(ImportError, "make-library"):
            _library.unpacked()


if __name__ == "__main__":
    unittest.main()
