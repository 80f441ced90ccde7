"""The pages against the tree: words, paths, numbers and lists that a page tells are those of the files that it tells of."""

import glob
import os
import re
import unittest

from cases import ROOT, path_of, run_tool
from test_pages import pages
import lists  # noqa: E402

TOP = os.path.normpath(ROOT)
FOLDERS = ["crates", "bench", "examples", "tools", "bindings", "acceptance", "docs", "service"]
KINDS = (".py", ".sh", ".c", ".h", ".rs", ".rt", ".antt", ".md", ".edit", ".log", ".schedule")
# Words of pages that stand for others, or that name what isn't here.
ELSEWHERE = {"depot_x", "WHAT_IT_DOES", "valgrind", "callgrind", "lemma"}
ELSEWHERE |= {"depot_peer_%s" % it for it in ("in_step_seconds", "rounds_total", "fails_total")}
NUMBERS = dict(enumerate("zero one two three four five six seven eight nine ten eleven twelve thirteen".split()))


def text_of(*names):
    with open(path_of(*names), encoding="utf-8") as file:
        return file.read()


def files():
    """The files of the tree, seen from its top, but for what is built and for the files of cases."""
    for folder in FOLDERS:
        for place, folders, names in os.walk(os.path.join(TOP, folder)):
            folders[:] = [it for it in folders if it not in ("out", "__pycache__") and (folder, it) != ("acceptance", "cases")]
            yield from (os.path.relpath(os.path.join(place, name), TOP) for name in names)
    yield from ("depot", "crates.txt", "HANDLES", ".ci/run")


def words_of_tree(paths):
    """The words of all sources, and the names of all files and folders."""
    words = set(os.listdir(os.path.join(TOP, "acceptance", "cases")))
    for path in paths:
        words.update(part for it in path.split("/") for part in (it, it.rsplit(".", 1)[0]))
        if not path.endswith((".md", ".log", ".svg", "test_tree.py")) and "/fork/" not in path:
            words.update(re.findall(r"[A-Za-z_]\w*", text_of(path)))
    return words


def quoted(page):
    """What stands between backticks, outside of blocks."""
    return re.findall(r"`([^`\n]+)`", re.sub(r"```.*?```", "", text_of(page), flags=re.S))


def is_known(word, words):
    """Short words, hex, and words in capitals, which stand for others, aren't looked for. One that ends or begins with a line
    below is the front or the end of one."""
    if (len(word) < 5 and "_" not in word) or re.fullmatch("[0-9a-f]{8,}|[A-Z]+[0-9]*", word):
        return True
    if word.startswith("_") or word.endswith("_"):
        return any(it.startswith(word) or it.endswith(word) for it in words)
    return word in words or word in ELSEWHERE


def paths_in(text):
    """The paths of files and folders of the tree, but for those in which a word in capitals stands for others."""
    for path in re.findall(r"[\w.-]+(?:/[\w.*-]+)+", text):
        if path.startswith(tuple(it + "/" for it in FOLDERS)) or path.endswith(KINDS) or path.startswith("depot_"):
            if not re.search(r"(^|/)[A-Z_]{3,}(/|\.edit|$)", path):
                yield path


def crates():
    """Each crate, and those of here that it stands on."""
    return lists.crates(text_of("crates.txt"))


def section(page, title):
    """What stands under a heading, up to the next one that is as great."""
    level, rest = re.search(r"(?ms)^(#+) %s\n(.*)" % re.escape(title), text_of(page)).groups()
    return re.split(r"(?m)^#{1,%d} " % len(level), rest)[0]


def items(text):
    """The items of a list, each with its further lines."""
    return re.findall(r"(?ms)^- (.*?)(?=^- |^$|\Z)", text)


class Words(unittest.TestCase):
    def test_each_word_and_path_is_in_the_tree(self):
        paths = list(files())
        words = words_of_tree(paths)
        for page in set(pages()) - {"CHANGELOG.md"}:
            for text in quoted(page):
                with self.subTest(page=page, text=text):
                    self.assertEqual([it for it in re.findall(r"(?<!\w)[A-Za-z_]\w*", text) if not is_known(it, words)], [])

    def test_each_path_is_there(self):
        for page in pages():
            for path in (it for text in quoted(page) for it in paths_in(text)):
                with self.subTest(page=page, path=path):
                    parts = ["crates/*/%s/" % it for it in ("src", "specs", "proofs")]
                    places = ["", "crates/", "crates/*/", *parts, os.path.dirname(page) + "/"]
                    self.assertTrue(any(glob.glob(path_of(it + path + end)) for it in places for end in ("", ".*")))

    def test_each_file_is_there(self):
        names = {os.path.basename(it) for it in files()}
        for page in pages():
            told = [it for text in quoted(page) for it in re.findall(r"(?<![\w*/.-])[a-z][\w-]+\.[a-z]+\b", text) if it.endswith(KINDS)]
            self.assertEqual([it for it in told if it not in names], [], page)

    def test_each_script_is_on_a_page(self):
        text = "".join(text_of(page) for page in pages())
        scripts = [it for it in files() if it.endswith(KINDS) and not it.startswith(("crates/", "docs/", "tools/tests/", "service/tests/"))]
        told = [it for it in scripts if os.path.basename(it) in text or it.split("/")[1] == "fork" or it.endswith("__init__.py")]
        self.assertEqual(sorted(set(scripts) - set(told)), [])


class Sections(unittest.TestCase):
    """Names of sections between quotes, as `PAGE, "Name"` or `("Name", above)`. A paragraph may have one, in bold letters."""

    def names(self, page):
        return re.findall(r"^#+ (.+)$", text_of(page), re.M) + re.findall(r"\*\*(.+?)\.\*\*", text_of(page))

    def test_each_is_there(self):
        by_name = {os.path.basename(it)[:-3]: it for it in pages() if it.startswith(("docs/", "service/")) and not it.endswith("README.md")}
        by_name["README"] = "README.md"
        for page in pages():
            text = re.sub(r"\s+", " ", re.sub(r"```.*?```", "", text_of(page), flags=re.S))
            told = [(page, it) for it in re.findall(r'\("([^":]+)"(?:, (?:above|below))?\)', text)]
            told += re.findall(r'\b([A-Z]{4,})(?:\.md)?[`\])(/A-Za-z.]*, "([^"]+)"', text)
            for where, name in told:
                with self.subTest(page=page, where=where, name=name):
                    self.assertIn(name, self.names(by_name.get(where, where)))


class Lists(unittest.TestCase):
    def test_each_is_that_of_the_tree(self):
        for name, page in lists.made():
            self.assertEqual(text_of(name), page, "tools/lists.py --write")

    def test_each_family_has_a_title(self):
        rows = re.split(r"\n(?=- )", lists.families(lists.crates(text_of("crates.txt"))).split("### ", 1)[1])
        heads = [" ".join(it.split("\n\n")[0].split()) for it in rows[1:]]
        self.assertEqual([it for it in heads if not re.fullmatch(r"- `(\w+/)?\w+`: \S.{8,}\.", it)], [])

    def test_families_are_printed(self):
        """Those of the crates that are named, lowest first; of all where none is; of none that isn't there."""
        status, out, why = run_tool("lists.py", "--families", "depot_journal", "depot_order")
        self.assertEqual((status, re.findall(r"### (\w+)", out), why), (0, ["depot_order", "depot_journal"], ""))
        self.assertIn("- `LaneLaws`: ", out)
        status, out, why = run_tool("lists.py", "--families", "depot_model")
        self.assertIn("- `of_texts/TextLaws`: ", out)
        self.assertNotIn("`of_texts`", out)
        uses = lists.crates(text_of("crates.txt"))
        self.assertEqual(run_tool("lists.py", "--families")[:2], (0, lists.families(uses)))
        status, out, why = run_tool("lists.py", "--families", "depot_x")
        self.assertEqual((status, out, bool(why)), (1, "", True))


class Shelves(unittest.TestCase):
    """Lib.antt of specs/ and of proofs/ names the files beside it; a folder of files has such a list beside it, under its own name."""

    def listed(self, text):
        return sorted(re.findall(r"(?m)^(?:pub )?mod (\w+)$", text))

    def files(self, *place):
        """The names of the files of a folder, its list among them no more."""
        return sorted(it[: -len(".antt")] for it in os.listdir(path_of(*place)) if it.endswith(".antt") and it != "Lib.antt")

    def test_each_list_names_the_files_that_are_there(self):
        for lib in glob.glob(path_of("crates", "*", "*", "Lib.antt")):
            place = os.path.dirname(lib)
            names = self.listed(text_of(lib))
            with self.subTest(place=os.path.relpath(place, TOP)):
                self.assertEqual(names, self.files(place))
            for folder in (it for it in names if it[0].islower()):
                with self.subTest(place=os.path.relpath(place, TOP), folder=folder):
                    self.assertEqual(self.listed(text_of(place, folder + ".antt")), self.files(place, folder))

    def test_each_list_has_a_title_and_names_alone(self):
        for path in (it for part in ("specs", "proofs") for it in glob.glob(path_of("crates", "*", part, "[a-z]*.antt"))):
            with self.subTest(path=os.path.relpath(path, TOP)):
                self.assertRegex(text_of(path), r"\A(--.*\n)+((pub )?mod [A-Z]\w*\n)+\Z")


class Crates(unittest.TestCase):
    def test_how_many_stand_above(self):
        uses = crates()
        stands_on = [lists.below(it, uses) for it in uses]
        for row in re.findall(r"^\| (`depot_.*?) \|$", section("CONTRIBUTING.md", "What a change proves anew"), re.M):
            names, counts = row.split(" | ")[:2]
            found = [sum(name in it for it in stands_on) for name in re.findall(r"`(\w+)`", names)]
            self.assertEqual(found, [int(it) for it in counts.split(", ")], row)

    def test_the_longest_chain(self):
        uses = crates()
        longest = NUMBERS[max(lists.height(it, uses) for it in uses)]
        self.assertIn("longest chain has %s crates" % longest, text_of("docs", "ARCHITECTURE.md"))

    def test_none_stands_on_a_higher_layer(self):
        uses, listed = crates(), items(section("docs/ARCHITECTURE.md", "The layers"))
        layers = {name: number for number, item in enumerate(listed) for name in re.findall(r"`(depot_\w+)`", item)}
        layers.update({it: len(listed) for it in uses if it.startswith("depot_tests_")})
        self.assertEqual(set(layers), set(uses))
        self.assertEqual([(it, other) for it in uses for other in uses[it] if layers[other] > layers[it]], [])

    def test_they_stand_by_layers(self):
        """Under the heading of a layer stand its crates, and the layers have the order of the page."""
        parts = re.split(r"(?m)^# (?=.*\n(?:depot_|\Z))", text_of("crates.txt"))[1:]
        told = [(it.splitlines()[0], set(re.findall(r"(?m)^(depot_\w+)", it))) for it in parts]
        layers = items(section("docs/ARCHITECTURE.md", "The layers"))
        self.assertEqual(told, [(re.match(r"\*\*(.+?)\*\*", it).group(1), set(re.findall(r"`(depot_\w+)`", it))) for it in layers])

    def test_each_is_in_the_list(self):
        there = set(os.listdir(path_of("crates")))
        heads = re.findall(r"(?m)^(?:- \**|\| )((?:`depot_\w+`(?:, | and )?)+)", section("docs/ARCHITECTURE.md", "The crates"))
        self.assertEqual({name for it in heads for name in re.findall(r"depot_\w+", it)}, there)
        self.assertEqual(set(crates()), there)

    def test_the_launcher_knows_the_time_of_each(self):
        """Each crate of the program has its share of the time that a build takes, and no other has one."""
        lines = [it.split() for it in text_of("tools", "times.txt").splitlines() if not it.startswith("#")]
        self.assertEqual(sorted(name for name, _ in lines), sorted({*lists.below("depot_tool", crates()), "depot_tool"}))
        self.assertGreater(min(int(share) for _, share in lines), 0)

    def test_each_edit_can_be_made(self):
        """Each old line stands once in its file, and another takes its place."""
        for edit in glob.glob(path_of("crates", "*", "must-fail", "*.edit")) + glob.glob(path_of("edits", "*", "*.edit")):
            crate = next(it for it in edit.split(os.sep) if it.startswith("depot_"))
            with self.subTest(edit=os.path.basename(edit)), open(edit, encoding="utf-8") as file:
                parts = re.split(r"(?m)^(file|old|new): ?", file.read())
                source = None
                for kind, text in zip(parts[1::2], parts[2::2]):
                    if kind == "file":
                        source = text_of("crates", crate, text.strip())
                    elif kind == "old":
                        old = text.rstrip("\n")
                        self.assertEqual(source.count(old), 1)
                    else:
                        self.assertNotEqual(old, text.rstrip("\n"))
                        source = source.replace(old, text.rstrip("\n"))

    def test_edits(self):
        found = [it.split(os.sep)[-3] for it in glob.glob(path_of("crates", "*", "must-fail", "*.edit"))]
        self.assertIn("There are %d" % len(found), text_of("docs", "TESTING.md"))
        self.assertLessEqual(max(found.count(it) for it in found), 4)
        bare = {it for it in crates() if it not in found and not it.startswith("depot_tests_")}
        listed = re.search(r"have none:\n\n?(.*?)\n\n", text_of("docs", "TESTING.md"), re.S).group(1)
        self.assertEqual({*re.findall(r"`(depot_\w+)`", listed), "depot_uses"}, bare)


class Limits(unittest.TestCase):
    def test_each_has_its_number(self):
        named = re.findall(r"pub const (\w+): \w+ = ([\d_]+);", text_of("crates/depot_base/src/limits.rt"))
        listed = items(section("docs/FORMATS.md", "Limits"))
        for name, number in named:
            if name in ("MOST_ONE_LAYER", "BOTTOM_HEIGHT"):
                continue
            number = "{:,}".format(int(number.replace("_", "")))
            with self.subTest(name=name):
                having = [it for it in listed if "`%s`" % name in it]
                self.assertTrue(having)
                for item in having:
                    self.assertRegex(item, r"(?<![\d,])%s(?!\d|,\d)" % number)


class Library(unittest.TestCase):
    """What the header and the callers name by hand is what the crate has."""

    def snake(self, name):
        return re.sub(r"(?<=[a-z])(?=[A-Z])", "_", name).upper()

    def asked(self):
        rows = re.search(r"const OPERATIONS.*?= \[(.*?)\n\];", text_of("crates/depot_c/src/ask.rt"), re.S).group(1)
        return {self.snake(name): number for number, name in enumerate(re.findall(r"(\w+)\)+,", rows))}

    def enum(self, name):
        body = re.search(r"enum %s \{(.*?)\n\};" % name, text_of("bindings/depot.h"), re.S).group(1)
        return {it: int(number) for it, number in re.findall(r"DEPOT_(\w+) = (\d+)", body)}

    def test_operations(self):
        asked = self.asked()
        self.assertEqual(self.enum("depot_operation"), asked)
        named = re.findall(r"^([A-Z_]+(?:, [A-Z_]+)+) = ([\d, ]+)$", text_of("bindings/depot.py"), re.M)
        self.assertEqual({it: int(number) for a, b in named for it, number in zip(a.split(", "), b.split(", "))}, asked)
        body = re.search(r"enum Op \{(.*?)\n\}", text_of("bindings/depot.rs"), re.S).group(1)
        rust = {self.snake(name): int(number) for name, number in re.findall(r"(\w+) = (\d+)", body)}
        self.assertEqual({it: number for it, number in rust.items() if asked.get(it) != number}, {})

    def test_statuses(self):
        numbers = re.findall(r"CallOutcome::(\w+) => (\d+)", text_of("crates/depot_c/src/outcome.rt"))
        self.assertEqual(self.enum("depot_status"), {self.snake(name): int(number) for name, number in numbers})


class Statuses(unittest.TestCase):
    def told(self, text):
        """The numbers in the first column of the table of statuses."""
        rows = re.search(r"\| status \|.*?\n\|-.*?\n(.*?)\n\n", text, re.S).group(1)
        return {int(it) for row in rows.splitlines() for it in re.findall(r"\d+", row.split("|")[1])}

    def test_each_page_has_them(self):
        numbers = {int(it) for it in re.findall(r"Status::\w+ => (\d+)", text_of("crates/depot_cli/src/status.rt"))}
        for page in ("README.md", "docs/TROUBLESHOOTING.md"):
            self.assertEqual({it for it in self.told(text_of(page)) if it < 70}, numbers, page)
        told = {int(it) for it in re.findall(r"[Ss]tatus (\d+)", section("docs/FORMATS.md", "What the program prints"))}
        self.assertEqual(told, numbers)


class Alone(unittest.TestCase):
    """The repository says what it means without another text."""

    def test_no_page_speaks_of_a_specification(self):
        self.assertEqual([it for it in pages() if re.search(r"\bspecifications?\b", text_of(it))], [])


if __name__ == "__main__":
    unittest.main()
