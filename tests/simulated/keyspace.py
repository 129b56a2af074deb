"""A keyspace as the command reference describes it, of the commands that random scripts have.

A value is a string, or the dictionary of a hash. `execute` gives the reply as `simulate` prints it, and says whether the command is written
behind a master's stream: a write whose reply is no error is, also where it changes nothing.
"""

import binascii

WRONG_TYPE = "-WRONGTYPE Operation against a key holding the wrong kind of value"
NOT_AN_INTEGER = "-ERR value is not an integer or out of range"
NOT_A_HASH_INTEGER = "-ERR hash value is not an integer"
CROSS_SLOT = "-CROSSSLOT Keys in request don't hash to the same slot"


class Fault(Exception):
    """The line of an error, which leaves everything as it was."""


def slot(key):
    begin = key.find("{")
    end = key.find("}", begin + 1)
    tag = key[begin + 1:end] if begin >= 0 and end > begin + 1 else key
    return binascii.crc_hqx(tag.encode("latin-1"), 0) % 16384


def keys_of(words):
    name = words[0]
    if name in ("DEL", "EXISTS", "MGET"):
        return words[1:]
    if name == "MSET":
        return words[1::2]
    return words[1:2] if name in COMMANDS else []


def execute(keys, words):
    """The reply to the command, and whether it is written."""
    if words[0] == "PING":
        return "+PONG\\r\\n", False
    if words[0] not in COMMANDS:
        return "-ERR unknown command\\r\\n", False
    least, most, is_write, command = COMMANDS[words[0]]
    if not least <= len(words) - 1 <= most:
        return f"-ERR wrong number of arguments for '{words[0].lower()}' command\\r\\n", False
    if len({slot(key) for key in keys_of(words)}) > 1:
        return CROSS_SLOT + "\\r\\n", False
    try:
        return command(keys, *words[1:]), is_write
    except Fault as fault:
        return f"{fault}\\r\\n", False


def integer(number):
    return f":{number}\\r\\n"


def bulk(text):
    return "$-1\\r\\n" if text is None else f"${len(text)}\\r\\n{text}\\r\\n"


def array(texts):
    return f"*{len(texts)}\\r\\n" + "".join(bulk(text) for text in texts)


def number_in(text, fault):
    is_plain = text.lstrip("-").isdigit() and text == str(int(text))
    if not is_plain:
        raise Fault(fault)
    return int(text)


def string_at(keys, key):
    value = keys.get(key)
    if isinstance(value, dict):
        raise Fault(WRONG_TYPE)
    return value


def hash_at(keys, key):
    value = keys.get(key, {})
    if not isinstance(value, dict):
        raise Fault(WRONG_TYPE)
    return value


def get(keys, key):
    return bulk(string_at(keys, key))


def put(keys, key, value, *condition):
    if condition == ("NX",) and key in keys or condition == ("XX",) and key not in keys:
        return bulk(None)
    keys[key] = value
    return "+OK\\r\\n"


def append(keys, key, more):
    keys[key] = (string_at(keys, key) or "") + more
    return integer(len(keys[key]))


def length(keys, key):
    return integer(len(string_at(keys, key) or ""))


def increase(keys, key, by="1"):
    step = number_in(by, NOT_AN_INTEGER)
    keys[key] = str(number_in(string_at(keys, key) or "0", NOT_AN_INTEGER) + step)
    return integer(keys[key])


def delete(keys, *names):
    gone = [name for name in dict.fromkeys(names) if keys.pop(name, None) is not None]
    return integer(len(gone))


def exists(keys, *names):
    return integer(sum(name in keys for name in names))


def get_all(keys, *names):
    values = [keys.get(name) for name in names]
    return array([None if isinstance(it, dict) else it for it in values])


def put_all(keys, *words):
    keys.update(zip(words[::2], words[1::2]))
    return "+OK\\r\\n"


def put_fields(keys, key, *words):
    fields = dict(hash_at(keys, key))
    before = len(fields)
    fields.update(zip(words[::2], words[1::2]))
    keys[key] = fields
    return integer(len(fields) - before)


def get_field(keys, key, field):
    return bulk(hash_at(keys, key).get(field))


def get_fields(keys, key):
    return array([text for pair in hash_at(keys, key).items() for text in pair])


def count_fields(keys, key):
    return integer(len(hash_at(keys, key)))


def delete_fields(keys, key, *names):
    fields = dict(hash_at(keys, key))
    gone = [name for name in dict.fromkeys(names) if fields.pop(name, None) is not None]
    if gone:
        keys[key] = fields
        if not fields:
            del keys[key]
    return integer(len(gone))


def increase_field(keys, key, field, by):
    fields = dict(hash_at(keys, key))
    step = number_in(by, NOT_AN_INTEGER)
    fields[field] = str(number_in(fields.get(field, "0"), NOT_A_HASH_INTEGER) + step)
    keys[key] = fields
    return integer(fields[field])


# The fewest and the most words behind a command's name, whether it is a write, and what it does.
COMMANDS = {
    "GET": (1, 1, False, get),
    "SET": (2, 3, True, put),
    "APPEND": (2, 2, True, append),
    "STRLEN": (1, 1, False, length),
    "INCR": (1, 1, True, increase),
    "INCRBY": (2, 2, True, increase),
    "DEL": (1, 99, True, delete),
    "EXISTS": (1, 99, False, exists),
    "MGET": (1, 99, False, get_all),
    "MSET": (2, 99, True, put_all),
    "HSET": (3, 99, True, put_fields),
    "HGET": (2, 2, False, get_field),
    "HGETALL": (1, 1, False, get_fields),
    "HLEN": (1, 1, False, count_fields),
    "HDEL": (2, 99, True, delete_fields),
    "HINCRBY": (3, 3, True, increase_field),
}
