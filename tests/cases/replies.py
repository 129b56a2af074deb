"""Replies as bytes on a connection: `write REPLY` gives the bytes that the program shows of the reply that it has read."""

from answering import told_of
from blocks import Malformed, shown, verb_of
from spelling import spelled_reply


def play(commands):
    return [line_of(*verb_of(it)) for it in commands]


def line_of(verb, notation):
    if verb != "write":
        raise Malformed(f"no such command: {verb}")
    return shown(told_of(spelled_reply(notation)))
