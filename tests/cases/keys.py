"""Slots of keys, as a node tells them.

`slot KEY` gives the slot, and the part of the key that is hashed: the one that has this CRC16, modulo 16384. `number N` gives
the slot of that number, where a node takes it for one.
"""

import binascii

from blocks import Malformed, bytes_of, shown, shown_word, verb_of
from clusters import masters, ports_of
from program import Server
from wire import connect, reply_of, spelled


def play(commands):
    cluster = masters(1)
    with Server(cluster), connect(ports_of(cluster)[0]) as client:
        return [line_of(client, command) for command in commands]


def line_of(client, command):
    verb, rest = verb_of(command)
    if verb == "slot":
        key = bytes_of(rest)
        reply = ask(client, b"CLUSTER", b"KEYSLOT", key)
        return f"{shown(reply[1:-2])} {shown_word(hashed_part(key, int(reply[1:])))}"
    if verb == "number":
        reply = ask(client, b"CLUSTER", b"COUNTKEYSINSLOT", rest.encode("ascii"))
        return {b":0\r\n": f"slot {rest}", b"-ERR Invalid slot\r\n": "no slot"}.get(reply, shown(reply))
    raise Malformed(f"no such command: {command}")


def ask(client, *words):
    client.sendall(spelled(*words))
    return reply_of(client)


def hashed_part(key, slot):
    """The longest part of the key that has this slot by itself, as Python computes it."""
    parts = (key[first:last] for first in range(len(key) + 1) for last in range(first, len(key) + 1))
    return max((it for it in parts if binascii.crc_hqx(it, 0) % 16384 == slot), key=len)
