"""Clusters from JSON texts, as `rcluster simulate` reads them.

In a text `#` stands for the first 39 digits of an id, and `@` for a host, and a port up to its last digit.

`read TEXT` gives the cluster that the text is: the id of each node, its part where some slot has an owner, and who has which slots at
which address. Or it gives the fault, and the sentence that says where it is. `read-whole` gives the same of what `text TEXT`,
`text-masters COUNT` and `bytes BYTES` gave before. `nodes NODES | VOTERS` gives the fault and the sentence of these nodes and voters with
sound times. Other commands give the faults alone:

- `masters COUNT MORE | VOTERS` of COUNT masters, more nodes and these voters;
- `ports PORTS` of a node with each of these ports, and `two-ports PORT PORT` of two nodes at one host with these;
- `last-slots SLOTS` of a range that begins at 0 and ends at each of these;
- `times TIMES` of a cluster with each of these as its tick, and as its timeout.

`id` and `host` give the id and the host that a word is, and `long-host COUNT` that of COUNT letters.
"""

import json
import re

import program
from blocks import Malformed, bytes_of, shown, verb_of
from spelling import list_of

FAULTS = ("Syntax", "Id", "Slots", "ReplicaOf", "Voters", "TooManyNodes", "Address", "Range")
SCRIPT = "script"
MOST_NODES = 16
NODE = '{"id":"%s","host":"%s","port":%s,"slots":[%s]}'
SOUND = ("100", "20")


def play(commands):
    lines, text = [], b""
    for verb, rest in map(verb_of, commands):
        if verb in ("text", "text-masters", "bytes"):
            text += bytes_of(rest) if verb == "bytes" else masters(int(rest)).encode("ascii") if verb == "text-masters" else spelled(rest)
        else:
            lines += lines_of(verb, rest, text)
    return lines


def lines_of(verb, rest, text):
    if verb in ("read", "read-whole"):
        return described(text if verb == "read-whole" else spelled(rest))
    if verb == "nodes":
        return [": ".join(fault_in(text_of(*parts_of(rest))) or ["sound"])]
    if verb in ("id", "host", "long-host"):
        return [{"id": id_of, "host": host_of, "long-host": long_host}[verb](rest)]
    return [" ".join((fault_in(it) or ["sound"])[0] for it in texts_of(verb, rest))]


def texts_of(verb, rest):
    """The texts of which a command gives the faults."""
    if verb == "masters":
        nodes, voters = parts_of(rest)
        count, more = verb_of(nodes)
        yield text_of(masters(int(count)) + more, voters)
    elif verb == "ports":
        for port in rest.split(" "):
            yield text_of(NODE % ("#0", "h", port, ""), '"#0"')
    elif verb == "two-ports":
        nodes = [NODE % (f"#{it}", "h", port, "") for it, port in enumerate(rest.split(" "))]
        yield text_of(",".join(nodes), '"#1"')
    elif verb == "last-slots":
        for last in rest.split(" "):
            yield text_of('{"id":"#0",@0,"slots":[[0,%s]]}' % last, '"#0"')
    elif verb == "times":
        for time in rest.split(" "):
            for times in ((time, "7"), ("7", time)):
                yield text_of('{"id":"#0",@0,"slots":[]}', '"#0"', times)
    else:
        raise Malformed(f"no such command: {verb}")


def spelled(text):
    """The text with its abbreviations written out."""
    return text.replace("#", "0" * 39).replace("@", '"host":"127.0.0.1","port":700').encode("ascii")


def masters(count):
    """COUNT masters without slots, each with a host of its own, whose ids rise."""
    return ",".join(NODE % ("%040d" % it, f"h{it}", 7000, "") for it in range(count))


def parts_of(row):
    nodes, _, voters = row.partition("|")
    return nodes.strip(), voters.strip()


def text_of(nodes, voters, times=SOUND):
    return spelled('{"tick_ms":%s,"node_timeout":%s,"nodes":[%s],"voters":[%s]}' % (*times, nodes, voters))


def fault_in(text):
    """The name of the fault that the program tells, and its sentence; nothing where it tells none."""
    status, output, error = simulated(text, "")
    if (status, output, error) == (0, b"", b""):
        return None
    told = re.fullmatch(rb"fault K([1-8])\n", output)
    sentence = told and re.fullmatch(rb"rcluster: cluster\.json: ([^\n]+) \(K%s\)\n" % told[1], error)
    if status != 1 or not sentence:
        raise Malformed(f"status {status}, output {output!r}, standard error {error!r}")
    return FAULTS[int(told[1]) - 1], sentence[1].decode("ascii")


def simulated(text, script):
    return program.run("simulate", "--config", program.FILE, "--script", SCRIPT, files={program.FILE: text, SCRIPT: script.encode("ascii")})


def described(text):
    fault = fault_in(text)
    if fault:
        return [": ".join(fault)]
    *ids, slots = replies_to(text, [*(f"admin {it} CLUSTER MYID" for it in range(MOST_NODES)), "admin 0 CLUSTER SLOTS"])
    names = [it.split(b"\r\n")[1].decode("ascii") for it in ids if it]
    runs = [run_of(*it) for it in list_of(slots)]
    parts = parts_by_orders(text, names, *runs[0][:1], runs[0][2]) if runs else [""] * len(names)
    return [*(f"{number}: {name}{part}" for number, (name, part) in enumerate(zip(names, parts))),
            *(f"{first}-{last}: {address} {name}" for first, last, name, address in runs)]


def run_of(first, last, owner):
    host, port, name = owner
    return int(first), int(last), name.decode("ascii"), f"{host.decode('ascii')}:{int(port)}"


def parts_by_orders(text, names, slot, owner):
    """What each node is: a replica isn't allowed to import a slot from its owner, another node is; and an owner is a master."""
    told = {b"+OK\r\n": " master", b"-ERR slot is not owned by the source\r\n": " replica", b"-ERR unknown node\r\n": " master"}
    replies = replies_to(text, [f"admin {it} CLUSTER SETSLOT {slot} IMPORTING {owner}" for it in range(len(names))])
    return [told.get(it, shown(it)) for it in replies]


def replies_to(text, steps):
    """The reply to each step of a script, which is a request at a node; nothing where there is no such node."""
    _, output, _ = simulated(text, "".join(it + "\n" for it in steps))
    lines = output.decode("ascii").splitlines()
    return [b"" if it == "none" else bytes_of(it.split(" ", 2)[2]) for it in lines if not it.startswith("sent ")]


def id_of(word):
    name = bytes_of(word).decode("ascii")
    lines = described(text_of(NODE % (name, "h", 7000, ""), f'"{name}"'))
    return {f"0: {name}": name, "Id: nodes[0].id: 40 lowercase hexadecimal digits are wanted": "no id"}.get(lines[0], lines[0])


def host_of(word):
    return host_in(bytes_of(word).decode("ascii")) or "no host"


def long_host(count):
    host = host_in("a" * int(count))
    return f"a host of {len(host)} characters" if host else "no host"


def host_in(host):
    """The host as the list of slots has it, or nothing where it is none."""
    lines = described(text_of(NODE % ("#0", json.dumps(host)[1:-1], 7000, "[0,0]"), '"#0"'))
    if lines[-1].startswith("0-0: "):
        return lines[-1].split(" ")[1].rpartition(":")[0]
    if not lines[0].startswith("Syntax: nodes[0].host: "):
        raise Malformed(lines[0])
    return None
