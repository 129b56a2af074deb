"""Commands on the keys of a node that has all slots.

`exec WORD..`, `exec-fields KEY COUNT`, which is HSET of so many numbered fields, and `together WORD.. | WORD..`, which is all in one piece,
give the replies. `insert KEY VALUE`, `insert-long KEY COUNT`, a string of COUNT times `x`, and `remove KEY` change the store, and
`values KEY..` reads it. `count SLOT` is the number of keys in a slot, and `keys SLOT COUNT` are the first of them.
"""

from blocks import Malformed, bytes_of, shown, shown_word, verb_of, words_of
from clusters import masters
from served import Cluster
from wire import OK


def play(commands):
    with Cluster(masters(1)) as cluster:
        return [line for it in commands for line in lines_of(cluster, *verb_of(it))]


def lines_of(cluster, verb, rest):
    if verb == "exec":
        return [shown(cluster.ask(0, words_of(rest)))]
    if verb == "exec-fields":
        key, count = verb_of(rest)
        fields = [word for it in range(int(count)) for word in (b"%d" % it, b"1")]
        return [shown(cluster.ask(0, [b"HSET", bytes_of(key), *fields]))]
    if verb == "together":
        return list(map(shown, cluster.ask_together(0, [words_of(it) for it in rest.split(" | ")])))
    if verb == "values":
        return [value_of(cluster, it) for it in words_of(rest)]
    if verb == "keys":
        slot, count = rest.encode("ascii").split(b" ")
        return [listed(cluster.ask(0, [b"CLUSTER", b"GETKEYSINSLOT", slot, count]))]
    if verb == "count":
        return [shown(cluster.ask(0, [b"CLUSTER", b"COUNTKEYSINSLOT", rest.encode("ascii")]))]
    change(cluster, verb, *verb_of(rest))
    return []


def change(cluster, verb, key, value):
    """Changes the store, which isn't told."""
    if verb == "insert":
        done = cluster.ask(0, [b"SET", bytes_of(key), bytes_of(value)]) == OK
    elif verb == "insert-long":
        done = cluster.ask(0, [b"SET", bytes_of(key), b"x" * int(value)]) == OK
    elif verb == "remove":
        done = cluster.ask(0, [b"DEL", bytes_of(key)]) == b":1\r\n"
    else:
        raise Malformed(f"no such command: {verb}")
    if not done:
        raise Malformed(f"the store isn't changed by {verb} {key}")


def value_of(cluster, key):
    kind = cluster.ask(0, [b"TYPE", key])
    name = shown_word(key)
    if kind == b"+none\r\n":
        return f"{name} isn't there"
    if kind == b"+string\r\n":
        return f"{name} has {shown_word(cluster.ask(0, [b'GET', key]).partition(NEXT)[2][:-2])}"
    fields = map(shown_word, bulks_in(cluster.ask(0, [b"HGETALL", key])))
    return " ".join([name, "has the fields", *fields])


NEXT = b"\r\n"


def bulks_in(array):
    """The bulk strings of an array of nothing else."""
    _, _, rest = array.partition(NEXT)
    while rest:
        head, _, rest = rest.partition(NEXT)
        length = int(head[1:])
        yield rest[:length]
        rest = rest[length + 2:]


def listed(keys):
    return " ".join(map(shown_word, bulks_in(keys))) or "none"
