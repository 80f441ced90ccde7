"""How tools read their words: what isn't right ends with status 1, as with the program."""

import argparse
import os
import sys

NO_WORDS = 1


class Parser(argparse.ArgumentParser):
    """A parser that says what a tool's page of help is, and what is wrong with words."""

    def __init__(self, page):
        super().__init__(description=page, formatter_class=argparse.RawDescriptionHelpFormatter)

    def error(self, message):
        self.print_usage(sys.stderr)
        print("%s: %s" % (os.path.splitext(self.prog)[0], message), file=sys.stderr)
        self.exit(NO_WORDS)


def positive(word):
    """A number over 0."""
    if not (word.isascii() and word.isdecimal() and int(word)):
        raise argparse.ArgumentTypeError("%s is no number over 0" % word)
    return int(word)


if __name__ == "__main__":
    print(__doc__)
