"""Conversations with a single node, which has all slots: all bytes that are answered, up to the end of the connection."""

from clusters import lines_of, masters, ports_of
from program import Server
from wire import OK, PING, PONG, array, bulk, spelled, talk

PROTOCOL_ERROR = b"-ERR Protocol error\r\n"


def conversations():
    yield "a request byte by byte", [bytes([byte]) for byte in PING], PONG
    yield "a request that never becomes whole", [b"*2\r\n$3\r\nGET\r\n$3\r\nfo"], b""
    yield "a length with a leading zero", [b"*1\r\n$03\r\nGET\r\n"], PROTOCOL_ERROR
    yield "a count above the limit", [b"*65537\r\n"], PROTOCOL_ERROR
    yield "a request and then a bad byte", [PING + b"?"], PONG + PROTOCOL_ERROR
    yield "a string is set and read", [spelled(b"SET", b"a", b"1") + spelled(b"get", b"a")], OK + bulk(b"1")
    yield "the string is there on another connection", [spelled(b"GET", b"a")], bulk(b"1")
    word = bytes(range(256)) * 4096
    yield "a word of a mebibyte", [spelled(b"SET", b"{a}b", word)], OK
    yield "the word comes back", [spelled(b"GET", b"{a}b")], bulk(word)
    yield "and in an array", [spelled(b"MGET", b"{a}b", b"a")], array(bulk(word), bulk(b"1"))
    yield "a thousand requests at once", [PING * 1000], PONG * 1000


def play(judge):
    cluster = masters(1)
    [port] = ports_of(cluster)
    with Server(cluster) as server:
        judge.equal("the line of the one node", server.lines, lines_of(cluster))
        for what, pieces, wanted in conversations():
            judge.equal(what, talk(port, *pieces), wanted)
