"""The program with standard input, output or error closed when it starts, or with a standard error that is full.

No socket and no file gets one of their descriptors: what can't be printed goes to no node, and is told as such. A closed standard input is one
without a line. Where standard error can't be written, the code and the status still tell of a failure.
"""

import subprocess

import clusters
import program
from clusters import ports_of
from program import PATIENCE, Server
from wire import OK, spelled, talk

WORDS = ("SET", "foo", "v")
NO_FILE = ("simulate", "--config", "/nonexistent", "--script", "/nonexistent")


def play(judge):
    cluster = clusters.six_nodes()
    ports = ports_of(cluster)
    with Server(cluster):
        to_node = ("cli", "--addr", f"127.0.0.1:{ports[2]}")
        status, output, errors = run(">&-", *to_node, *WORDS)
        judge.equal("a closed output: the status", (status, output), (1, b""))
        judge.equal("a closed output: what is told", errors[-6:], b" (F4)\n")
        judge.equal("a closed output: the command was executed", talk(ports[2], spelled(b"GET", b"foo")), b"$1\r\nv\r\n")
        judge.equal("a closed output: the node serves", talk(ports[2], spelled(*(it.encode() for it in WORDS))), OK)
        judge.equal("a closed standard error", run("2>&-", *to_node, "GET", "foo"), (0, b"$1\\r\\nv\\r\\n\n", b""))
        judge.equal("a closed input", run("<&-", *to_node, "GET", "foo"), (0, b"$1\\r\\nv\\r\\n\n", b""))
        judge.equal("a closed input that is read", run("<&-", *to_node, "--stdin"), (0, b"", b""))
        judge.equal("all three closed", run("<&- >&- 2>&-", *to_node, *WORDS), (1, b"", b""))
        judge.equal("all three closed: the node serves", talk(ports[2], spelled(b"GET", b"foo")), b"$1\r\nv\r\n")
    status, output, errors = run(">&-", "serve", "--masters", "1", "--port", "0", "--ticks", "3")
    judge.equal("a server with a closed output", (status, output, errors[-6:]), (1, b"", b" (F4)\n"))
    for what, closing in (("a closed standard error", "2>&-"), ("a full standard error", "2>/dev/full")):
        judge.equal(f"{what}: a file that isn't there", run(closing, *NO_FILE), (1, b"fault F1\n", b""))
        judge.equal(f"{what}: a server without a source", run(closing, "serve"), (2, b"", b""))
        judge.equal(f"{what}: a word that is no option", run(closing, "serve", "--nothing"), (2, b"", b""))


def run(closing, *words):
    """The status, the output and the standard error of the program with these words, which a shell starts with these redirections."""
    shell = ["/bin/sh", "-c", f'exec "$0" "$@" {closing}', program.PATH, *words]
    ended = subprocess.run(shell, stdin=subprocess.DEVNULL, stdout=subprocess.PIPE, stderr=subprocess.PIPE, timeout=PATIENCE, check=False)
    return ended.returncode, ended.stdout, ended.stderr
