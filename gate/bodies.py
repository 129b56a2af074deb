"""Which function's body an edit changes, and what the prover said of a function."""

import dataclasses
import re

FUNCTION = re.compile(r"( *)(?:pub(?:\([a-z]+\))? )?(?:const )?fn (\w+)")
IMPL = re.compile(r"impl(?:<.*>)? (?:(\w+)(?:<.*>)? for )?(\w+)(?:<.*>)? \{$")
VERDICT = re.compile(r"fn (\S+): (.*)")
CALLS = "it calls "


@dataclasses.dataclass(frozen=True)
class Function:
    """A function as the prover names it: by its crate and its module, by the trait and the type of its impl, if it stands in one, and its name."""

    module: str
    impl: tuple[str, str] | None
    name: str

    def is_named(self, path):
        """Whether the path is that of this function, or of one inside it."""
        if not path.startswith(self.module + "::"):
            return False
        words = re.split(r"::|\+", path[len(self.module) + 2:])
        if self.impl is None:
            return self.name in words[:2] and (words[0] == self.name or words[0] == "fn")
        trait, owner = self.impl
        is_owner = words[0].startswith(owner) and words[0].endswith(trait) if trait else words[0] == owner
        return is_owner and self.name in words[1:]


def function_of(crate, edit, folder):
    """Returns the function whose body alone the edit changes, or None where it changes anything else, or more than one."""
    found, text = set(), None
    with open(edit, encoding="utf-8") as lines:
        for line in lines.read().splitlines():
            if line.startswith("file: "):
                path = line[len("file: "):].strip()
                if not path.startswith("src/"):
                    return None
                with open(f"{folder}/{path}", encoding="utf-8") as file:
                    text = file.read()
            elif line.startswith("old: ") and text is not None:
                found.add(around(crate, path, text, text.find(line[len("old: "):])))
    return found.pop() if len(found) == 1 else None


def around(crate, path, text, at):
    """Returns the function in whose body that place of the file is, or None where it is in none."""
    before = text[:at].split("\n")
    for number in range(len(before) - 1, -1, -1):
        head = FUNCTION.match(before[number])
        if not head:
            continue
        inside = before[number:]
        # The body is behind the brace that ends the head, and before the one that ends the function.
        is_begun = any(it.endswith("{") and not it.strip().startswith(("requires", "ensures")) for it in inside[:-1])
        if not is_begun or f"{head[1]}}}" in inside:
            return None
        impl = impl_before(before[:number]) if head[1] else None
        return None if head[1] and not impl else Function(module_of(crate, path), impl, head[2])
    return None


def impl_before(lines):
    """Returns the trait, or no text, and the type of the impl that these lines end in, or None where they end in something else."""
    block = next((it for it in reversed(lines) if it.endswith("{") and not it.startswith(" ")), "")
    impl = IMPL.match(block)
    return impl and (impl[1] or "", impl[2])


def module_of(crate, path):
    words = path[len("src/"):-len(".rt")].split("/")
    return "::".join([crate, *(it for it in words if it not in ("lib", "main", "mod"))])


def refused(lines, function):
    """Returns why the prover refuses the function's own body, or None where it doesn't, or where it may be for a function that this one calls."""
    for line in lines:
        verdict = VERDICT.match(line)
        if verdict and function.is_named(verdict[1]) and is_refusal(verdict[2]):
            return reason(lines, verdict[1]) or line
    return None


def is_refusal(verdict):
    return verdict.startswith(("not proved", "no proof")) and CALLS not in verdict


def reason(lines, path):
    """Returns what was told first of the function's proof."""
    folder = "proofs/" + "/".join(path.split("::")[1:]) + "/"
    return next((it for it in lines if it.removeprefix("./").startswith(folder) and ": error" in it), None)
