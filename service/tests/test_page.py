"""The first section of README.md, typed as it stands there, but for the folder, the ports and the program; and its table of options."""

import dataclasses
import os
import re
import subprocess
import tempfile
import unittest

from stand_in import SERVICE, free_ports
from depot_service import config

PROGRAM = os.environ.get("DEPOT", "")
PATIENCE = 240


def page() -> str:
    """The page."""
    with open(os.path.join(SERVICE, "README.md"), encoding="utf-8") as file:
        return file.read()


def typed(text: str) -> str:
    """What bash prints where this is typed; AssertionError where it doesn't end well. What runs in the background ends with it."""
    text = "set -m\ntrap 'kill $(jobs -p) 2>/dev/null; wait' EXIT\n%s\n" % text
    with subprocess.Popen(["bash", "-c", text], cwd=os.path.join(SERVICE, os.pardir), stdout=subprocess.PIPE, stderr=subprocess.PIPE, universal_newlines=True) as bash:
        try:
            out, said = bash.communicate(timeout=PATIENCE)
        except subprocess.TimeoutExpired:
            bash.terminate()
            out, said = bash.communicate()
            raise AssertionError("it took over %d seconds: %s %s" % (PATIENCE, out, said))
    if bash.returncode:
        raise AssertionError("%d: %s %s" % (bash.returncode, out, said))
    return out + said


class Page(unittest.TestCase):
    @unittest.skipUnless(PROGRAM, "DEPOT names no program")
    def test_three_members_on_one_machine(self):
        section = re.search(r"(?s)## Three members.*?(?=\n## )", page()).group()
        commands = re.findall(r"(?m)^\$ (.*)$", section)
        self.assertGreater(len(commands), 8)
        with tempfile.TemporaryDirectory() as room:
            port = free_ports(1, (1, 2, 3, 101, 102, 103))[0]
            text = "\n".join(commands).replace("/tmp/three 12 3", "/tmp/three 6 3 --port %d --program %s" % (port, PROGRAM)).replace("/tmp/three", room + "/three")
            text = re.sub(r"(?m)^(service/depotctl .* get color)$", r"until \1; do sleep 0.2; done", text)  # who types is slower than a push
            text = re.sub(r"\b171(0[1-9])\b", lambda it: str(port + 100 + int(it.group(1))), text)
            printed = typed(text)
        self.assertIn("node 3 is ready", printed)
        self.assertIn("blue", printed)
        self.assertRegex(printed, r"(?m)^green")
        self.assertRegex(printed, r"(?m)[0-9a-f]{64} 3 0 2$")
        self.assertIn("the journal is good", printed)

    def test_each_option_is_told_with_what_it_is_if_it_isnt_there(self):
        told = page()
        for name, numbers in (*config.NUMBERS, ("carrier", config.Carrier("x"))):
            self.assertIn("`[%s]`" % name, told)
            for field in dataclasses.fields(numbers):
                if field.type in (int, float):
                    self.assertIn("`%s`" % field.name.replace("_", " "), told)
                    self.assertRegex(told, r"\(%s[,)]|, %s\)|%s\)" % ((("%g" if field.type is float and getattr(numbers, field.name) < 1000 else "%d") % getattr(numbers, field.name),) * 3))

    def test_each_file_is_told(self):
        told = page()
        names = [it for it in os.listdir(SERVICE) if not it.endswith((".md", "__pycache__"))] + [it for it in os.listdir(os.path.join(SERVICE, "depot_service")) if it.endswith(".py")]
        self.assertEqual([it for it in names if it not in told and it != "__init__.py"], [])


if __name__ == "__main__":
    unittest.main()
