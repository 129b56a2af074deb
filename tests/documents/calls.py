"""The calls and the values in examples: whether each call has as many arguments as a function of that name takes, and each value the fields of its
type. A method is compared with all methods of its name, and what no crate here has is passed over.
"""

import re

import texts

# A function, as far as the name, with its visibility.
FUNCTION = re.compile(r"(\bpub(?:\(crate\))?\s+)?\bfn\s+(\w+)")
# What the functions below it are of: a trait, or a type.
IMPL = re.compile(r"^(?:(?:pub )?trait\s+(\w+)|impl\b([^{]*))", re.MULTILINE)
ENUM = re.compile(r"\benum\s+(\w+)[^{;]*\{")
STRUCT = re.compile(r"\bstruct\s+(\w+)[^{;(]*\{")
VARIANT = re.compile(r"^\s*(\w+)(\(| \{)", re.MULTILINE)
# A call, with the path or the point before it; and a value with its fields.
CALL = re.compile(r"(?:(\w+)(?:::<[^()]*?>)?::|(\.)\s*)?\b([a-z_]\w*|[A-Z]\w*)(?:::<[^()]*?>)?\(")
VALUE = re.compile(r"(?<!struct )(?<!for )(?<!impl )(?<!trait )(?:\b(\w+)::)?\b([A-Z]\w*) \{")
COMMENT = re.compile(r"//.*")
TEXT = re.compile(r'"(?:[^"\\]|\\.)*"')


class Function:
    """A function, or a variant that is made like a call of one."""

    def __init__(self, owner, crate, words, is_public):
        self.owner, self.crate, self.is_public = owner, crate, is_public
        self.has_self = bool(words) and re.fullmatch(r"(?:&\s*)?(?:'\w+\s+)?(?:mut\s+)?self(?::.*)?", words[0]) is not None
        self.count = len(words) - self.has_self


def functions(known={}):
    """All functions of the crates, by their names."""
    if not known:
        for crate, path in texts.code():
            text = texts.text(path)
            for name, function in functions_in(text, crate):
                known.setdefault(name, []).append(function)
    return known


def functions_in(text, crate):
    owners = [(it.start(), owner(it)) for it in IMPL.finditer(text)]
    ends = [it.start() for it in re.finditer(r"^\}", text, re.MULTILINE)]
    for it in FUNCTION.finditer(text):
        words = inside(text, behind_angles(text, it.end()))
        before = [(begin, name) for begin, name in owners if begin < it.start()]
        is_inside = before and not any(before[-1][0] < end < it.start() for end in ends)
        yield it[2], Function(before[-1][1] if is_inside else None, crate, words, (it[1] or "").strip() == "pub")
    for enum, variant, bracket, words in variants(text):
        if bracket == "(":
            yield variant, Function(enum, crate, words, True)


def variants(text):
    """Yields of each variant with parts its enum, its name, its bracket, and what stands there."""
    for it in ENUM.finditer(text):
        body = text[it.end():closing(text, it.end() - 1)]
        for variant in VARIANT.finditer(body):
            yield it[1], variant[1], variant[2].strip(), inside(body, variant.end() - 1)


def owner(found):
    """The name of the trait, or of the type of the impl."""
    if found[1]:
        return found[1]
    head = re.search(r"\w+", found[2][behind_angles(found[2], 0):].rpartition(" for ")[2])
    return head and head[0]


def fields(known={}):
    """The fields of all structs and variants of the crates, by the enum, if it is a variant, and the name."""
    if not known:
        for _crate, path in texts.code():
            text = texts.text(path)
            for it in STRUCT.finditer(text):
                known.setdefault((None, it[1]), []).append(names_of(inside(text, it.end() - 1)))
            for enum, variant, bracket, words in variants(text):
                if bracket == "{":
                    known.setdefault((enum, variant), []).append(names_of(words))
    return known


def names_of(words):
    """The names before the colons."""
    return {word.split(":")[0].split()[-1] for word in words}


def faults(lines, crate):
    """Yields of the lines of an example of that crate the place of each that isn't right, and what isn't."""
    text = "\n".join(TEXT.sub('""', COMMENT.sub("", line)) for line in lines)
    for it in CALL.finditer(text):
        words = inside(text, it.end() - 1)
        counts = set() if ".." in words else counts_of(it[1], bool(it[2]), it[3], crate)
        if counts and len(words) not in counts:
            yield text.count("\n", 0, it.start()), f"{it[3]} takes {' or '.join(map(str, sorted(counts)))} arguments, and not {len(words)}"
    for it in VALUE.finditer(text):
        words = inside(text, it.end() - 1)
        right = fields().get(it.groups(), [])
        if right and ".." not in words and names_of(words) not in right:
            yield text.count("\n", 0, it.start()), f"{it[2]} has the fields {', '.join(sorted(right[0]))}"


def counts_of(path, is_method, name, crate):
    """With how many arguments such a call may be made; nothing where that isn't known.

    A function without a path may be one of the reader's, where neither the crate nor one that it stands on has a public one.
    """
    found = functions().get(name, [])
    if is_method:
        return {it.count for it in found if it.has_self}
    if path is None:
        near = {crate, *texts.libraries().get(crate, ())}
        return {it.count for it in found if it.owner is None and it.is_public and it.crate in near}
    found = [it for it in found if it.owner == path or it.owner is None and it.crate == path]
    return {it.count + it.has_self for it in found}


def inside(text, at):
    """What stands between the bracket there and its end, apart at the commas."""
    result, depth, begin = [], 0, at + 1
    for place in range(at, closing(text, at) + 1):
        letter = text[place]
        is_arrow = letter == ">" and text[place - 1] in "-="
        depth += (letter in "([{<") - (letter in ")]}>" and not is_arrow)
        if depth == 1 and letter == "," or depth == 0:
            result.append(text[begin:place].strip())
            begin = place + 1
    return [it for it in result if it]


def closing(text, at):
    """The place of the bracket that closes the one there."""
    depth = 0
    for place in range(at, len(text)):
        depth += (text[place] in "([{") - (text[place] in ")]}")
        if depth == 0:
            return place
    return len(text) - 1


def behind_angles(text, at):
    """The place behind the generic parameters that stand there, if there are any."""
    depth = 0
    for place in range(at, len(text)):
        depth += (text[place] == "<") - (text[place] == ">" and text[place - 1] not in "-=")
        if depth == 0 and not text[place].isspace():
            return place + (text[place] == ">")
    return at
