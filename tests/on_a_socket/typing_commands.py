"""`rcluster cli` whose commands come from standard input, one a line, with quotes as redis-cli reads them; and replies as redis-cli prints
them on a terminal (`--text`). The expected texts were written by hand from redis-cli's source: `sdssplitargs`, `cliFormatReplyTTY` and
`sdscatrepr`.
"""

import subprocess
import threading
import time

import clusters
import program
from calling import NUMBERED, Node, moved
from clusters import ports_of
from program import Server
from wire import NIL, OK, PATIENCE, array, bulk, number

# A line, and the words behind its first one as the program sends them.
WORDS = [
    (b"ECHO foo", [b"foo"]),
    (b" \t ECHO\t  foo  bar \t", [b"foo", b"bar"]),
    (b"ECHO foo\r", [b"foo"]),
    (b"ECHO \r foo\rbar", [b"foo", b"bar"]),
    (b'ECHO "a b"', [b"a b"]),
    (b"ECHO 'a b'", [b"a b"]),
    (b'ECHO "" \'\'', [b"", b""]),
    (b'ECHO "a" \'b\' c', [b"a", b"b", b"c"]),
    (rb'ECHO "\n\r\t\b\a\"\\"', [b'\n\r\t\x08\x07"\\']),
    (rb'ECHO "\x00\xff\x4a\x4A\xfF"', [b"\x00\xffJJ\xff"]),
    (rb'ECHO "\x4" "\xg1" "\x4g" "\X41" "\q"', [b"x4", b"xg1", b"x4g", b"X41", b"q"]),
    (rb"ECHO '\n' 'it\'s' 'a\\b' '\x41' '\"'", [b"\\n", b"it's", b"a\\\\b", b"\\x41", b'\\"']),
    (rb"ECHO 'a\\' b'", [b"a\\' b"]),
    (b"ECHO \"'\" '\"'", [b"'", b'"']),
    (b"ECHO a\"b c\" a'b c'", [b"ab c", b"ab c"]),
    (rb"ECHO \x41 \n a\ b", [b"\\x41", b"\\n", b"a\\", b"b"]),
    (b"ECHO \x00\x01 \xff\xfe \x0b\x0c", [b"\x00\x01", b"\xff\xfe", b"\x0b\x0c"]),
    (b'"ECHO" "#" #', [b"#", b"#"]),
]
OPEN, BEHIND = b"a quote isn't closed", b"something stands right behind a closing quote"
TOO_LONG = b"it has more words or bytes than a request may have"
# A line that is no command, and why.
WRONG = [
    (b'ECHO "foo', OPEN),
    (b"ECHO 'foo", OPEN),
    (b'ECHO "', OPEN),
    (rb'ECHO "foo\"', OPEN),
    (rb"ECHO 'foo\'", OPEN),
    (b'ECHO "foo\\', OPEN),
    (b'ECHO "foo\'', OPEN),
    (b'ECHO "a"b', BEHIND),
    (b"ECHO 'a'b", BEHIND),
    (b"ECHO \"a\"'b'", BEHIND),
    (b"ECHO ''''", BEHIND),
    (b"ECHO" + b" a" * 65535 + b' "b', TOO_LONG),
    (b"ECHO" + b" a" * 65536, TOO_LONG),
    (b"ECHO " + b"a" * 8388609, TOO_LONG),
    (b"ECHO" + b" " * 16777213, TOO_LONG),
    (b"ECHO a" + b" a" * 2000 + b" " + b"a" * 8388608 + b" " + b"a" * 8380000, TOO_LONG),
]
# What a node replies to the call, and how redis-cli prints it on a terminal.
TEXTS = [
    (OK, b"OK\n"),
    (b"+\r\n", b"\n"),
    (b"-ERR no\r\n", b"(error) ERR no\n"),
    (number(3), b"(integer) 3\n"),
    (number(-9223372036854775808), b"(integer) -9223372036854775808\n"),
    (bulk(b"foo"), b'"foo"\n'),
    (bulk(b""), b'""\n'),
    (bulk(b'\x00 "\\\n\r\t\x08\x07\x1b~\x7f\xff\''), b'"\\x00 \\"\\\\\\n\\r\\t\\b\\a\\x1b~\\x7f\\xff\'"\n'),
    (NIL, b"(nil)\n"),
    (array(), b"(empty array)\n"),
    (array(bulk(b"a"), NIL), b'1) "a"\n2) (nil)\n'),
    (array(OK, b"-ERR no\r\n", number(1), array()), b"1) OK\n2) (error) ERR no\n3) (integer) 1\n4) (empty array)\n"),
    (
        array(array(array(bulk(b"x"), bulk(b"y")), OK), number(2), array(number(3))),
        b'1) 1) 1) "x"\n      2) "y"\n   2) OK\n2) (integer) 2\n3) 1) (integer) 3\n',
    ),
    (
        array(number(0), array(number(1), number(2)), *map(number, range(3, 11))),
        b" 1) (integer) 0\n 2) 1) (integer) 1\n    2) (integer) 2\n"
        + b"".join(b"%2d) (integer) %d\n" % (it, it) for it in range(3, 11)),
    ),
    (
        array(array(*map(number, range(10))), number(2)),
        b"1)  1) (integer) 0\n" + b"".join(b"   %2d) (integer) %d\n" % (it + 1, it) for it in range(1, 10)) + b"2) (integer) 2\n",
    ),
]


def type_in(port, text, *options):
    """The status, the output and the standard error of a run with this standard input, begun at the node of this port."""
    return program.run("cli", "--addr", f"127.0.0.1:{port}", "--stdin", *options, given=text)


def refused(line, why):
    """What standard error says of the line of this number."""
    return b"error: line %d of standard input is no command, because %s\n\nFor more information, try '--help'.\n" % (line, why)


def shown(reply):
    """A reply as its bytes on one line."""
    return reply.replace(b"\\", b"\\\\").replace(b"\r", b"\\r").replace(b"\n", b"\\n") + b"\n"


def play(judge):
    play_words(judge)
    play_wrong_lines(judge)
    play_texts(judge)
    play_ends(judge)
    cluster = clusters.six_nodes()
    with Server(cluster):
        play_a_pipe(judge, ports_of(cluster))
        play_an_exchange(judge, ports_of(cluster)[0])


# ---- nodes of the test's own


def play_words(judge):
    """The words that a node is asked, all by one connection, on which CLUSTER NUMBERED is said once."""
    node = Node(*[OK] * len(WORDS))
    came = type_in(node.port, b"\n".join(line for line, _ in WORDS))
    judge.equal("lines with words: what is printed", came, (0, shown(OK) * len(WORDS), b""))
    judge.equal("lines with words: CLUSTER NUMBERED", node.asked[:1], [NUMBERED])
    judge.equal("lines with words: how many requests come", len(node.asked), 1 + len(WORDS))
    for (line, words), asked in zip(WORDS, node.asked[1:]):
        judge.equal(f"the words of {line!r}", asked, [b"ECHO", *words])
    node.close()
    longest = b"a" * 8388608
    for what, line, words in [
        ("as many words as a request may have", b"ECHO" + b" a" * 65535, [b"ECHO"] + [b"a"] * 65535),
        ("a word as long as it may be", b"ECHO " + longest, [b"ECHO", longest]),
        ("a line as long as it may be", b"ECHO" + b" " * 16777212, [b"ECHO"]),
    ]:
        node = Node(OK)
        judge.equal(f"{what}: what is printed", type_in(node.port, line + b"\n"), (0, shown(OK), b""))
        judge.true(f"{what}: what the node is asked", node.asked == [NUMBERED, words], f"{len(node.asked)} requests")
        node.close()


def play_wrong_lines(judge):
    """Lines before a wrong one are executed and answered. Lines without words are counted, and executed by nobody."""
    for line, why in WRONG:
        what = f"the line {line[:20]!r}, {len(line)} bytes"
        for end in (b"", b"\n", b"\r\n", b"\nPING\n"):
            if len(line) > 100 and end not in (b"\n", b"\nPING\n"):
                continue
            node = Node(OK, OK)
            came = type_in(node.port, b"PING\n\n \t \r\n" + line + end)
            judge.equal(f"{what}, with {end!r} behind it: what is printed", came, (2, shown(OK), refused(4, why)))
            judge.equal(f"{what}, with {end!r} behind it: what the node is asked", node.asked, [NUMBERED, [b"PING"]])
            node.close()
    port = clusters.free_ports(1)[0]
    judge.equal("the first line is wrong, and no node is there", type_in(port, b"'\n"), (2, b"", refused(1, OPEN)))


def play_texts(judge):
    """A reply as a text, with words on the command line and from standard input."""
    for reply, text in TEXTS:
        node = Node(reply)
        came = program.run("cli", "--addr", f"127.0.0.1:{node.port}", "--text", "GET", "foo")
        judge.equal(f"{reply!r} as a text", came, (0, text, b""))
        node.close()
    node = Node(*(reply for reply, _ in TEXTS))
    came = type_in(node.port, b"GET foo\n" * len(TEXTS), "--text")
    judge.equal("all of them from standard input", came, (0, b"".join(text for _, text in TEXTS), b""))
    node.close()


def play_ends(judge):
    """A fault ends the run. What a call was told is told by later calls, too, and errors in a row make none of them wait."""
    port = clusters.free_ports(1)[0]
    for text in (b"", b"\n", b"\r\n\n \t\n", b"  "):
        judge.equal(f"no word in {text!r}, and no node is there", type_in(port, text), (0, b"", b""))
    gone = b"rcluster: 127.0.0.1:%d can't be reached: Connection refused (os error 111), and the command was not executed (C5)\n"
    judge.equal("no node is there", type_in(port, b"\nPING\nPING\n"), (1, b"fault C5\n", gone % port))
    node = Node(OK)
    lost = b"rcluster: the connection failed, and whether the command was executed is unknown (C1)\n"
    judge.equal("the connection ends", type_in(node.port, b"PING\nPING\nPING\n"), (1, shown(OK) + b"fault C1\n", lost))
    node.close()
    node = Node(OK, OK)
    never = b"rcluster: CLUSTER, MIGRATE and ASKING are no commands of a client (C7)\n"
    judge.equal("a command that isn't sent", type_in(node.port, b"PING\ncluster MYID\nPING\n"), (1, shown(OK) + b"fault C7\n", never))
    judge.equal("a command that isn't sent: what the node is asked", node.asked, [NUMBERED, [b"PING"]])
    node.close()
    other = Node(number(1), number(2))
    node = Node(moved(other), OK)
    judge.equal("a redirection", type_in(node.port, b"GET foo\nGET foo\n"), (0, shown(number(1)) + shown(number(2)), b""))
    judge.equal("a redirection is remembered", (node.asked, other.asked), ([NUMBERED, [b"GET", b"foo"]], [NUMBERED] + [[b"GET", b"foo"]] * 2))
    node.close()
    other.close()
    again = b"-TRYAGAIN Key is being moved\r\n"
    node = Node(again, again, OK, again, again, OK, again, again, again)
    came = type_in(node.port, b"GET foo\n" * 3, "--try", "2")
    judge.equal("each command may begin again as often", came[:2], (1, shown(OK) * 2 + b"fault C3\n"))
    node.close()
    node = Node(*[b"-ERR no\r\n"] * 300)
    begun = time.monotonic()
    judge.equal("errors in a row", type_in(node.port, b"GET foo\n" * 300), (0, shown(b"-ERR no\r\n") * 300, b""))
    # If it waited as before a repetition, it would take 28 seconds.
    judge.most("errors in a row: seconds", time.monotonic() - begun, 20)
    node.close()
    status, output, error = program.run("cli", "--addr", f"127.0.0.1:{port}", "--stdin", given_file="/")
    unread = b"rcluster: standard input can't be read: Is a directory (os error 21) (F1)\n"
    judge.equal("standard input is a folder", (status, output, error), (1, b"fault F1\n", unread))


# ---- a cluster


def play_a_pipe(judge, ports):
    """Keys of all slots, with any bytes in them, from one node on."""
    keys = [bytes([it, 0, 255 - it]) for it in range(256)]
    sets = b"".join(b'SET "%s" "%s"\n' % (escaped(key), escaped(key * 2)) for key in keys)
    judge.equal("keys with any bytes are set", type_in(ports[0], sets), (0, shown(OK) * 256, b""))
    gets = b"".join(b'GET "%s"\r\n' % escaped(key) for key in keys)
    judge.equal("and read", type_in(ports[4], gets), (0, b"".join(hexed(bulk(key * 2)) for key in keys), b""))
    for what, text, wanted in [
        ("numbers", b"INCR n\nINCRBY n 4\n", b"(integer) 1\n(integer) 5\n"),
        ("strings", b'SET s "a\\nb"\nGET s\nGET nothing\n', b'OK\n"a\\nb"\n(nil)\n'),
        ("a hash", b"HGETALL h\nHSET h f 1 g 2\nHGETALL h\n", b'(empty array)\n(integer) 2\n1) "f"\n2) "1"\n3) "g"\n4) "2"\n'),
        ("errors", b"NOPE\nMGET a b\n", b"(error) ERR unknown command\n(error) CROSSSLOT Keys in request don't hash to the same slot\n"),
    ]:
        judge.equal(f"{what} as a text", type_in(ports[3], text, "--text"), (0, wanted, b""))


def escaped(text):
    return b"".join(b"\\x%02x" % byte for byte in text)


def hexed(reply):
    """A reply with any bytes as its bytes on one line."""
    names = {13: b"\\r", 10: b"\\n", 92: b"\\\\"}
    return b"".join(names.get(it, bytes([it]) if 32 <= it <= 126 else b"\\x%02x" % it) for it in reply) + b"\n"


def play_an_exchange(judge, port):
    """Each answer is there before the next line is written, and before a line is whole nothing of it is executed."""
    words = [program.PATH, "cli", "--addr", f"127.0.0.1:{port}", "--stdin"]
    with subprocess.Popen(words, stdin=subprocess.PIPE, stdout=subprocess.PIPE, stderr=subprocess.PIPE) as process:
        patience = threading.Timer(PATIENCE, process.kill)
        patience.start()

        def says(*pieces):
            for piece in pieces:
                process.stdin.write(piece)
                process.stdin.flush()
            return process.stdout.readline()

        for count in range(1, 4):
            judge.equal(f"exchange {count}", says(b"INCR exchanged\n"), b":%d\\r\\n\n" % count)
        judge.equal("an exchange in pieces", says(b"\nGET ", b"exch", b"anged", b"\r", b"\n"), b"$1\\r\\n3\\r\\n\n")
        judge.equal("two lines at once: the first answer", says(b"INCR exchanged\nINCR exchanged\n"), b":4\\r\\n\n")
        judge.equal("two lines at once: the second answer", process.stdout.readline(), b":5\\r\\n\n")
        output, errors = process.communicate(b"GET exchanged")
        patience.cancel()
    judge.equal("a last line without its end", (process.returncode, output, errors), (0, b"$1\\r\\n5\\r\\n\n", b""))
