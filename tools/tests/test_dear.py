"""The tool that tells which functions are dear to prove, on a folder with files of known times."""

import os
import tempfile
import unittest

from cases import TOOLS  # noqa: F401
import dear  # noqa: E402


class Dear(unittest.TestCase):
    def made(self, folder, *files):
        """Files of a folder, each so many seconds behind a first moment."""
        for seconds, name in files:
            path = os.path.join(folder, name)
            with open(path, "wb"):
                pass
            os.utime(path, (1000 + seconds, 1000 + seconds))

    def test_a_function_has_the_times_of_its_pieces(self):
        with tempfile.TemporaryDirectory() as folder:
            self.made(
                folder,
                (0, "Rattle-depot_x-specs.Words.oantt"),
                (2, "Rattle-depot_x-proofs.trip.Reader.keep.Lts.oantt"),
                (7, "Rattle-depot_x-proofs.trip.Reader.keep.oantt"),
                (8, "Rattle-depot_x-proofs.trip.put.Answers.oantt"),
            )
            self.assertEqual(dear.times(folder, "depot_x"), {"trip.Reader.keep": 7, "trip.put": 1})

    def test_an_empty_folder_has_none(self):
        with tempfile.TemporaryDirectory() as folder:
            self.assertEqual(dear.times(folder, "depot_x"), {})


if __name__ == "__main__":
    unittest.main()
