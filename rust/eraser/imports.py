"""The rules of `use` lines: ghost imports and the names of laws go, and what wants std is marked."""
from .tables import GHOST_IMPORTS, STD_NAMES

CFG = '#[cfg(feature = "std")]\n'


def imports(s, laws):
    """Takes ghost imports and the names of laws out of `use` lines."""
    for k in range(len(s.toks)):
        if not s.is_(k, "use") or k in s.gone:
            continue
        end = k
        while not s.is_(end, ";"):
            end += 1
        if not tree(s, k + 1, end, (), laws):
            s.erase(k - 1 if s.is_(k - 1, "pub") else k, end, "import of what goes", docs=True)


def parts_of(s, k):
    """The parts of the group that opens at k: the first token of each, the one behind it, and whether that is a comma."""
    parts, first, i = [], k + 1, k + 1
    while i <= s.match[k]:
        if s.is_(i, "{"):
            i = s.match[i]
        elif s.is_(i, ",") or i == s.match[k]:
            if i > first:
                parts.append((first, i, i < s.match[k]))
            first = i + 1
        i += 1
    return parts


def drop_part(s, part, why):
    """Erases a part of a group with one comma."""
    first, behind, comma = part
    s.erase(first, behind if comma else behind - 1, why)
    if not comma and s.is_(first - 1, ",") and first - 1 not in s.gone:
        s.erase(first - 1, first - 1, why)


def tree(s, k, end, path, laws):
    """One tree of a `use`, from k to before end: whether anything of it stays. What goes is erased where the tree stays."""
    names = list(path)
    while s.is_id(k) and s.is_(k + 1, ":") and s.is_(k + 2, ":"):
        names.append(s.toks[k].text)
        k += 3
    if s.is_(k, "{"):
        if s.match[k] != end - 1:
            s.stop(k, "a use of an unknown form")
        parts = parts_of(s, k)
        stays = [tree(s, first, behind, tuple(names), laws) for first, behind, _ in parts]
        for part, stay in zip(parts, stays):
            if not stay and any(stays):
                drop_part(s, part, "import of what goes")
        return any(stays)
    if s.is_(k, "*") and k == end - 1:
        return True
    if not s.is_id(k) or not (k == end - 1 or (s.is_(k + 1, "as") and s.is_id(k + 2) and k + 2 == end - 1)):
        s.stop(k, "a use of an unknown form")
    name = s.toks[k].text
    return not (name in laws or tuple(names) + (name,) in GHOST_IMPORTS)


def std_items(s):
    """`#[cfg(feature = "std")]` before the items at the top of the module that name what is std's alone."""
    depth, first = 0, 0
    for k in range(len(s.toks)):
        depth += s.is_(k, "{") - s.is_(k, "}")
        if depth or not (s.is_(k, ";") or s.is_(k, "}") and not s.is_(k + 1, ";") or s.is_ghost(k, "use")):
            continue
        live = [i for i in range(first, k + 1) if i not in s.gone]
        if any(s.is_(i, *STD_NAMES) for i in live):
            head = next(i for i in live if not s.is_(i, "pub"))
            if not s.is_(head, "use", "type", "mod"):
                s.stop(first, "an item other than a use, a type or a mod names what is std's alone")
            s.before[live[0]] = CFG
        first = k + 1
