#!/usr/bin/env python3
"""Draws who wrote what above what, as SVG that a browser shows.

    python3 tools/picture.py JOURNAL >OUT.svg                          of a node's journal
    python3 tools/picture.py --schedule SCHEDULE TRANSCRIPT >OUT.svg   of a schedule, and what `depot replay` printed

A row is a writer, and a second row of the same writer is another branch of it. A box is an update, with its name
WRITER/SEQ/CLOCK and what it writes; arrows lead to its parents. Green boxes join what several wrote; red ones are of a
convicted writer, and a red line is between two that contradict each other; a dashed box was accepted by nobody here. A
mark in the lower corner is a leaf, which a hello names. A receipt is told by the name of what it is for. The title says
which file it is of, and of a journal when it was last written; `--title TEXT` says something else. Of long journals
`--last N` draws the last N updates: of thousands no browser shows all with pleasure.
"""

import os
import sys
import time
from xml.sax.saxutils import escape

import formats
import story
from words import Parser, positive

COLUMN, ROW, WIDTH, HEIGHT, LEFT, TOP = 190, 84, 150, 52, 110, 74
BLUE, GREEN, RED, GREY, INK, SOFT = "#2563eb", "#15803d", "#dc2626", "#9ca3af", "#1f2937", "#6b7280"
FILLS = {BLUE: "#eff6ff", GREEN: "#f0fdf4", RED: "#fef2f2", GREY: "#ffffff"}
MEANINGS = [(BLUE, "the node's own"), (GREY, "another's"), (GREEN, "joins several"), (RED, "a convicted writer's")]


def lanes_of(boxes):
    """For each box its row, and for each row its writer: an update goes on in the row that its prev ends."""
    lane_of, tips, writers = {}, {}, []
    for box in sorted(boxes, key=lambda it: it.writer):
        at = lane_of.get(box.prev)
        if at is None or tips[at] != box.prev:
            at = len(writers)
            writers.append(box.writer)
        lane_of[box.id] = at
        tips[at] = box.id
    return lane_of, writers


def columns_of(boxes):
    """For each box its column: one behind its last parent that is drawn."""
    column, by_id = {}, {box.id: box for box in boxes}
    for box in boxes:
        waiting = [box.id]
        while waiting:
            at = waiting[-1]
            parents = [it for it in [by_id[at].prev] + by_id[at].entries if it in by_id]
            lacking = [it for it in parents if it not in column]
            if lacking:
                waiting += lacking
            else:
                column[at] = 1 + max([column[it] for it in parents], default=-1)
                waiting.pop()
    return column


def color_of(box, tale):
    if box.writer in tale.convicted:
        return RED
    if len([it for it in [box.prev] + box.entries if it is not None]) > 1:
        return GREEN
    return BLUE if box.writer == tale.mine else GREY


def text(x, y, said, size=13, color=INK, weight="normal", anchor="start"):
    return '<text x="%d" y="%d" font-size="%d" fill="%s" font-weight="%s" text-anchor="%s">%s</text>' % (
        x, y, size, color, weight, anchor, escape(said))


def short(said, most=22):
    return said if len(said) <= most else said[: most - 2] + ".."


def box_lines(box, x, y, color, is_leaf):
    dashes = "" if box.is_kept else ' stroke-dasharray="5 4"'
    lines = [
        "<g><title>%s</title>" % escape("%s writes %s; %s" % (box.name, box.writes, box.note or "no more is known")),
        '<rect x="%d" y="%d" width="%d" height="%d" rx="6" fill="%s" stroke="%s" stroke-width="2"%s/>' % (
            x, y, WIDTH, HEIGHT, FILLS[color], color, dashes),
        text(x + 8, y + 17, box.name, 13, color if color != GREY else INK, "bold"),
        text(x + 8, y + 33, short(box.writes), 12),
        text(x + 8, y + 47, short(box.note, 26), 10, SOFT),
    ]
    if is_leaf:
        lines.append('<circle cx="%d" cy="%d" r="4" fill="%s"/>' % (x + WIDTH - 9, y + HEIGHT - 9, color))
    return lines + ["</g>"]


class Ways:
    """Lines between boxes, each in a cell (column, row): through the gaps between columns and rows where a box is in the way."""

    def __init__(self, cells):
        self.cells, self.taken, self.routed = cells, set(cells.values()), 0

    def spot(self, id):
        column, row = self.cells[id]
        return LEFT + COLUMN * column, TOP + ROW * row

    def is_clear(self, start, end):
        """Whether a curve from one cell to an earlier one meets no other box."""
        (c1, r1), (c2, r2) = start, end
        return c1 - c2 == 1 or (r1 == r2 and not any((column, r1) in self.taken for column in range(c2 + 1, c1)))

    def path(self, child, parent):
        """The path from the left side of a box to the right side of another, which is in an earlier column."""
        (x1, y1), (x2, y2) = self.spot(child), self.spot(parent)
        x2, y1, y2 = x2 + WIDTH + 3, y1 + HEIGHT // 2, y2 + HEIGHT // 2
        if self.is_clear(self.cells[child], self.cells[parent]):
            bend = max(24, (x1 - x2) // 2)
            return "M %d %d C %d %d, %d %d, %d %d" % (x1, y1, x1 - bend, y1, x2 + bend, y2, x2, y2)
        aside, gap = self.next_way(self.cells[child][1] - (y2 < y1))
        return "M %d %d H %d V %d H %d V %d H %d" % (x1, y1, x1 - aside, gap, x2 + aside, y2, x2)

    def beside(self, first, second):
        """The path between the left sides of two boxes, through the gap below the upper one, and a place for words above the lower."""
        (x1, y1), (x2, y2) = sorted([self.spot(first), self.spot(second)], key=lambda it: it[1])
        aside, gap = self.next_way((y1 - TOP) // ROW)
        place, y1, y2 = (x2 + 8, y2 - 8), y1 + HEIGHT // 2, y2 + HEIGHT // 2
        return place, "M %d %d H %d V %d H %d V %d H %d" % (x1, y1, x1 - aside, gap, x2 - aside, y2, x2)

    def next_way(self, row):
        """How far aside of the boxes a line goes, and its height in the gap below a row: each another than the one before it."""
        self.routed += 1
        return 10 + 3 * (self.routed % 6), TOP + ROW * row + HEIGHT + 6 + 4 * (self.routed % 6)


def arrow(path, color, dashes=""):
    line = '<path d="%s" fill="none" stroke="%s" stroke-width="1.6"%s marker-end="url(#tip)"/>'
    return line % (path, color, dashes)


def quarrel_lines(quarrel, ways):
    (c1, r1), (c2, r2) = ways.cells[quarrel.first], ways.cells[quarrel.second]
    (x1, y1), (x2, y2) = ways.spot(quarrel.first), ways.spot(quarrel.second)
    ax, ay, bx, by = x1 + WIDTH // 2, y1 + HEIGHT // 2, x2 + WIDTH // 2, y2 + HEIGHT // 2
    if max(abs(c1 - c2), abs(r1 - r2)) <= 1:
        line = '<line x1="%d" y1="%d" x2="%d" y2="%d" stroke="%s" stroke-width="2.5" stroke-dasharray="2 4"/>' % (ax, ay, bx, by, RED)
        return [line, text((ax + bx) // 2 + 8, (ay + by) // 2 + 4, quarrel.kind, 11, RED, "bold")]
    (x, y), path = ways.beside(quarrel.first, quarrel.second)
    line = '<path d="%s" fill="none" stroke="%s" stroke-width="2.5" stroke-dasharray="2 4"/>' % (path, RED)
    return [line, text(x, y, quarrel.kind, 11, RED, "bold")]


def heading(tale):
    """The title, and a line of who is convicted."""
    said = "; ".join("node %d is convicted: %s" % it for it in sorted(tale.convicted.items()))
    who = text(16, 48, said or "nobody is convicted", 13, RED if said else SOFT)
    return [text(16, 26, tale.title, 17, INK, "bold"), who]


def legend(y):
    """What the colours mean."""
    lines, x = [], 16
    square = '<rect x="%d" y="%d" width="14" height="14" rx="3" fill="%s" stroke="%s" stroke-width="2"/>'
    for color, said in MEANINGS:
        lines.append(square % (x, y, FILLS[color], color))
        lines.append(text(x + 20, y + 12, said, 12))
        x += 150
    dot = '<circle cx="%d" cy="%d" r="4" fill="%s"/>' % (x + 7, y + 7, INK)
    return lines + [dot, text(x + 20, y + 12, "a leaf", 12)]


def picture(tale):
    """The SVG of a story."""
    lane_of, writers = lanes_of(tale.boxes)
    column = columns_of(tale.boxes)
    ways = Ways({it.id: (column[it.id], lane_of[it.id]) for it in tale.boxes})
    width = max(LEFT + COLUMN * (1 + max(column.values(), default=0)), 780)
    height = TOP + ROW * len(writers) + 40
    prevs = {it.prev for it in tale.boxes if it.is_kept}
    lines = [
        '<svg xmlns="http://www.w3.org/2000/svg" width="%d" height="%d" font-family="sans-serif">' % (width, height),
        '<defs><marker id="tip" viewBox="0 0 8 8" refX="7" refY="4" markerWidth="7" markerHeight="7" orient="auto">'
        '<path d="M 0 0 L 8 4 L 0 8 z" fill="%s"/></marker></defs>' % INK,
        '<rect width="%d" height="%d" fill="white"/>' % (width, height),
        *heading(tale),
    ]
    for at, writer in enumerate(writers):
        branch = writers[:at].count(writer) + 1
        said = "writer %d" % writer
        y = TOP + ROW * at
        lines.append('<rect x="8" y="%d" width="%d" height="%d" fill="%s"/>' % (y - 10, width - 16, ROW - 8, "#f9fafb"))
        lines.append(text(16, y + 22, said, 13, RED if writer in tale.convicted else INK, "bold"))
        if writers.count(writer) > 1:
            lines.append(text(16, y + 38, "branch %d" % branch, 11, SOFT))
    for it in tale.boxes:
        for parent in it.entries:
            if parent in ways.cells:
                lines.append(arrow(ways.path(it.id, parent), SOFT, ' stroke-dasharray="4 3"'))
        if it.prev in ways.cells:
            lines.append(arrow(ways.path(it.id, it.prev), INK))
    for quarrel in tale.quarrels:
        if quarrel.first in ways.cells and quarrel.second in ways.cells and quarrel.first != quarrel.second:
            lines += quarrel_lines(quarrel, ways)
    for it in tale.boxes:
        lines += box_lines(it, *ways.spot(it.id), color_of(it, tale), it.is_kept and it.id not in prevs)
    return "\n".join(lines + legend(height - 26) + ["</svg>"]) + "\n"


def options_of(words):
    parser = Parser(__doc__)
    parser.add_argument("file", metavar="FILE", nargs="?", help="a journal")
    parser.add_argument("--schedule", nargs=2, metavar=("SCHEDULE", "TRANSCRIPT"))
    parser.add_argument("--last", type=positive, metavar="N")
    parser.add_argument("--title", metavar="TEXT")
    options = parser.parse_args(words)
    if (options.file is None) == (options.schedule is None):
        parser.error("one journal, or --schedule SCHEDULE TRANSCRIPT")
    return options


def text_at(path):
    with open(path, encoding="utf-8", errors="replace") as file:
        return file.read()


def named(path):
    """A file's name, behind that of its folder where that is named."""
    return "/".join(path.split(os.sep)[-2:])


def tale_of(options):
    """The story of the files that the words name, with its title; NoStory where they have none."""
    if options.schedule:
        tale = story.of_schedule(*map(text_at, options.schedule))
        return tale._replace(title=options.title or "the schedule %s" % os.path.basename(options.schedule[0]))
    with open(options.file, "rb") as file:
        tale = story.of_journal(file.read())
        written = time.localtime(os.fstat(file.fileno()).st_mtime)
    if tale.mine is None:
        raise story.NoStory("%s is no journal: no birth of a node stands up to its first closed gate" % options.file)
    of_file = "%s (%s, of %s)" % (tale.title, named(options.file), time.strftime("%Y-%m-%d %H:%M", written))
    return tale._replace(title=options.title or of_file)


def main(words):
    options = options_of(words)
    try:
        tale = tale_of(options)
    except formats.IllFormed as fault:
        print("picture: %s isn't in its form, %s" % (options.file, fault), file=sys.stderr)
        return 2
    except story.NoStory as why:
        print("picture: %s" % why, file=sys.stderr)
        return 2
    except OSError as why:
        print("picture: %s: %s" % (why.filename, why.strerror), file=sys.stderr)
        return 3
    if options.last and options.last < len(tale.boxes):
        tale = tale._replace(boxes=tale.boxes[-options.last:], title="%s: the last %d updates" % (tale.title, options.last))
    sys.stdout.write(picture(tale))
    return 0


if __name__ == "__main__":
    sys.exit(main(sys.argv[1:]))
