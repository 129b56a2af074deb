"""Conversations with a node of six: three masters with a third of the slots each, and a replica of each.

The first line, `node NUMBER`, names the node. `request WORD..`, `bytes BYTES`, `times COUNT request WORD..` and `request-fields KEY COUNT`,
which is HSET of so many numbered fields, are sent in one piece, and `cut` ends a piece. `cut anywhere` says that all has to come the same
wherever it is cut. A conversation gives the bytes that are answered up to its end.
"""

from blocks import Malformed, bytes_of, shown, verb_of, words_of
from clusters import six_nodes
from requests import heard
from served import Cluster
from wire import spelled


def play(commands):
    verb, number = verb_of(commands[0])
    if verb != "node":
        raise Malformed("no node")
    pieces = pieces_of([it for it in commands[1:] if it != "cut anywhere"])
    with Cluster(six_nodes()) as cluster:
        port = cluster.ports[int(number)]
        answer = heard(port, pieces)
        if "cut anywhere" in commands:
            for cut in range(1, len(pieces[0])):
                if heard(port, [pieces[0][:cut], pieces[0][cut:], *pieces[1:]]) != answer:
                    raise Malformed(f"something else after {cut} bytes")
        return [shown(cluster.as_in_a_case(answer)) or "nothing"]


def pieces_of(commands):
    pieces = [b""]
    for command in commands:
        if command == "cut":
            pieces.append(b"")
        else:
            pieces[-1] += sent(*verb_of(command))
    return pieces


def sent(verb, rest):
    if verb == "request":
        return spelled(*words_of(rest))
    if verb == "bytes":
        return bytes_of(rest)
    if verb == "times":
        count, _, words = rest.partition(" request ")
        return spelled(*words_of(words)) * int(count)
    if verb == "request-fields":
        key, count = verb_of(rest)
        return spelled(b"HSET", bytes_of(key), *(word for it in range(int(count)) for word in (b"%d" % it, b"1")))
    raise Malformed(f"no such command: {verb}")
