#!/usr/bin/env python3
"""Draws what a script of `rcluster simulate` does: the requests, replies and messages between its clients and nodes.

usage: examples/draw.py [--config FILE] [--program PROGRAM] SCRIPT [NODE ..] > picture.svg
       examples/draw.py --record FIRST LAST RECORD [NODE ..] > picture.svg

FILE is the cluster's configuration, by default examples/six_nodes.json, and PROGRAM plays the script, by default the one that was built last.
Each client and each node has a lane, and time goes downwards, a row for each line of the script. What never arrives is dashed and ends in a
cross. With numbers of nodes behind the script only these nodes are drawn.

RECORD is what `rcluster serve --record` wrote of a run. Its steps with the tickets from FIRST to LAST are drawn, a row for each, but for those in
which only signs of life come and go. Each connection of a node has a lane.
"""

import argparse
import os
import subprocess
import sys
from xml.sax.saxutils import escape

sys.dont_write_bytecode = True

import following
import recorded

HERE = os.path.dirname(os.path.abspath(__file__))
# In pixels: the height of a row, what stands above the first one, and between two lanes; the room on both sides.
ROW, TOP, LANE, LEFT, RIGHT = 28, 64, 250, 170, 330
# How far what is lost gets on its way.
LOST = 0.45
COLOURS = {"request": "#1f5f9f", "reply": "#2f7f3f", "message": "#a04000"}
STYLE = """text { font: 12px sans-serif; paint-order: stroke; stroke: white; stroke-width: 4px; stroke-linejoin: round }
.name { font-weight: bold } .step { fill: #888 } .note { fill: #333 } line { stroke-width: 1.4 } .lost { stroke-dasharray: 5 4 }"""


class Picture:
    """The lanes of a play, and what is drawn on them."""

    def __init__(self, play, nodes):
        self.script = play.script
        arrows = [arrow for arrow in play.arrows if is_drawn(arrow.begin, nodes) and is_drawn(arrow.end, nodes)]
        notes = [note for note in play.notes if is_drawn(note.lane, nodes)]
        found = {lane for arrow in arrows for lane in (arrow.begin, arrow.end)} | {note.lane for note in notes}
        self.lanes = sorted(found)
        self.arrows, self.notes = arrows, notes
        self.width = LEFT + LANE * (len(self.lanes) - 1) + RIGHT
        self.height = TOP + ROW * (play.rows + 1)

    def text(self):
        parts = [
            f'<svg xmlns="http://www.w3.org/2000/svg" width="{self.width}" height="{self.height}">',
            f"<style>{STYLE}</style>",
            "<defs>" + "".join(map(head_of, COLOURS)) + "</defs>",
            f'<rect width="{self.width}" height="{self.height}" fill="white"/>',
            *map(self.lane, self.lanes),
            *(self.step(row, line) for row, line in enumerate(self.script)),
            *map(self.arrow, self.arrows),
            *map(self.label, self.arrows),
            *map(self.note, self.notes),
            "</svg>",
        ]
        return "\n".join(parts) + "\n"

    def x(self, lane):
        return LEFT + LANE * self.lanes.index(lane)

    def y(self, row):
        return TOP + ROW * row

    def lane(self, lane):
        x, bottom = self.x(lane), self.height - ROW / 2
        name = f'<text class="name" x="{x}" y="{TOP - 34}" text-anchor="middle">{lane[0]} {lane[1]}</text>'
        return f'<line x1="{x}" y1="{TOP - 24}" x2="{x}" y2="{bottom:g}" stroke="#bbb"/>{name}'

    def step(self, row, line):
        words = line.split(" ")
        return f'<text class="step" x="12" y="{self.y(row) + 4}">{escape(" ".join(words[:2]))}</text>'

    def ends(self, arrow):
        """Where the arrow begins and where it ends."""
        begin = self.x(arrow.begin), self.y(arrow.sent_in)
        if arrow.came_in is not None:
            return *begin, self.x(arrow.end), self.y(arrow.came_in)
        return *begin, begin[0] + LOST * (self.x(arrow.end) - begin[0]), begin[1] + ROW

    def arrow(self, arrow):
        x1, y1, x2, y2 = self.ends(arrow)
        line = f'<line x1="{x1}" y1="{y1}" x2="{x2:g}" y2="{y2}" stroke="{COLOURS[arrow.kind]}"'
        if arrow.came_in is not None:
            return f'{line} marker-end="url(#{arrow.kind})"/>'
        return f'{line} class="lost"/><text x="{x2:g}" y="{y2 + 4}" text-anchor="middle" fill="{COLOURS[arrow.kind]}">✕</text>'

    def label(self, arrow):
        x1, y1, x2, y2 = self.ends(arrow)
        at = f'x="{(x1 + x2) / 2:g}" y="{(y1 + y2) / 2 - 3:g}"'
        return f'<text {at} text-anchor="middle" fill="{COLOURS[arrow.kind]}">{escape(arrow.text)}</text>'

    def note(self, note):
        x, y = self.x(note.lane), self.y(note.row)
        dot = f'<circle cx="{x}" cy="{y}" r="3" fill="#333"/>'
        beside = f'x="{x - 8}" text-anchor="end"' if note.lane[0] == "client" else f'x="{x + 8}"'
        return f'{dot}<text class="note" {beside} y="{y + 4}">{escape(note.text)}</text>'


def is_drawn(lane, nodes):
    return lane[0] == "client" or not nodes or lane[1] in nodes


def head_of(kind):
    """The head of an arrow of that kind."""
    shape = f'<path d="M0 0 8 4 0 8z" fill="{COLOURS[kind]}"/>'
    return f'<marker id="{kind}" markerWidth="9" markerHeight="8" refX="8" refY="4" orient="auto">{shape}</marker>'


def draw(play, nodes=()):
    """The picture of a script that was followed, as the text of an SVG file."""
    return Picture(play, nodes).text()


def play_of(words):
    if words.record:
        return recorded.Recording(words.script, *words.record)
    return following.follow(words.program, words.config, words.script)


def main():
    parser = argparse.ArgumentParser(description=__doc__, formatter_class=argparse.RawDescriptionHelpFormatter)
    parser.add_argument("--config", default=os.path.join(HERE, "six_nodes.json"))
    parser.add_argument("--program", default=os.path.join(os.path.dirname(HERE), "rcluster"))
    parser.add_argument("--record", type=int, nargs=2, metavar=("FIRST", "LAST"))
    parser.add_argument("script")
    parser.add_argument("node", type=int, nargs="*")
    words = parser.parse_args()
    try:
        sys.stdout.write(draw(play_of(words), words.node))
    except (OSError, subprocess.TimeoutExpired, following.Refused, following.Differs) as error:
        sys.exit(str(error))


if __name__ == "__main__":
    main()
