"""How the service ends: statuses that a supervisor can act upon, and the fault that carries one (service/README.md, "Ends")."""

OK = 0
INNER = 70  # a fault of the service or of its child: start it again
DISK = 74  # records or notes can't be kept: start it again, once there is room
LOCKED = 75  # another process has the journal or the seed: start it again, later
JOURNAL = 76  # the journal is damaged, lost or old: never start it again by itself
PROOF = 77  # others hold a proof against this node: never start it again
CONFIG = 78  # the config, a key, the roster or --first is wrong: mend it


class Ends(Exception):
    """The service can't begin or go on: with which status it ends, and why, in one line."""

    def __init__(self, status: int, why: str):
        super().__init__(why)
        self.status, self.why = status, why
