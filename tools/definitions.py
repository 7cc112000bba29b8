"""Reads files of definitions and of code, for the tools that follow what names what: `unused` and `belief`."""
import re

WORD = re.compile(r"[^\s(){}\[\],;.:@]+")
HEAD = re.compile(r"(?:(?:pub|abbrev|unfoldable|record|data) +)*([^\s:(){}]+)")


def plain_antt(text):
    """The text without comments, and without what stands in quotes."""
    return re.sub(r"(?m)(?:^|(?<=\s))--.*$", "", re.sub(r'"(?:\\.|[^"\\])*"', '""', text))


def plain_rt(text):
    """The same of code."""
    text = re.sub(r'r(#+)".*?"\1', '""', text, flags=re.S)
    quoted = re.compile(r"""'(?:\\.[^']*|[^'\\])'|"(?:\\.|[^"\\])*"|//[^\n]*""", re.S)
    return quoted.sub(lambda found: "" if found[0].startswith("/") else '""', text)


def imports(text):
    """What a file imports: of each short name the module and the name there, of each alias the module; and the other text."""
    names, aliases = {}, {}
    use = re.compile(r"^[ \t]*(?:ghost |pub )?use ([\w+.]+?)(?:\.\{([^}]*)\}| as (\w+));?[ \t]*$", re.M)
    for path, inside, alias in use.findall(text):
        if alias:
            aliases[alias] = path
        for part in filter(None, (part.strip() for part in inside.split(","))):
            name, _, short = part.partition(" as ")
            names[(short or name).strip()] = (path, name.strip())
    return names, aliases, use.sub("", text)


def blocks(text):
    """The definitions of a module: name, what the part that it stands in begins with, own text, and parts of its own."""
    levels, heads, found, current = [0], [""], [], None
    opening = None
    for line in text.splitlines():
        if not line.strip():
            continue
        depth = len(line) - len(line.lstrip())
        if opening is not None:
            if opening[1] and depth > opening[0]:
                levels.append(depth)
                heads.append(heads[-1] + opening[2])
                opening = None
            else:
                opening[1] = opening[1] or re.search(r"\bwhere$", line.rstrip()) is not None
                opening[2] += line + "\n"
                continue
        while depth < levels[-1]:
            levels.pop()
            heads.pop()
            current = None
        word = line.strip()
        if re.match(r"module\b|(abbrev |unfoldable )?mutual$", word) and depth == levels[-1]:
            opening = [depth, word.endswith(("mutual", "where")), line + "\n"]
            continue
        if depth == levels[-1] and re.match(r"(pub )?mod ", word):
            continue
        if depth == levels[-1] and word[0] not in "})]" and not word.startswith("unfolding "):
            name = HEAD.match(word)
            marked = re.match(r"(pub|abbrev|unfoldable|record|data) ", word)
            if name and (marked or re.match(r"\s*:(\s|$)", word[name.end() :])):
                current = [name[1], heads[-1], line + "\n", []]
                found.append(current)
                continue
        if current is not None:
            current[2] += line + "\n"
            inner = re.match(r"\s+(?:pub )?((?:[^\s:(){}]+ )+):(\s|$)", line)
            if inner and re.search(r"^(pub )?(record|data) ", current[2].lstrip()):
                current[3].extend(inner[1].split())
    return found


def words_of(text, names, aliases):
    """What a text names: pairs of a module, or nothing for its own, and a name."""
    behind = re.findall(r"(?<![\w.])(\w+)\.([^\s(){}\[\],;.:@]+)", text)
    found = {(aliases[alias], name) for alias, name in behind if alias in aliases}
    found |= {(path, name) for path, name in re.findall(r"(Rattle\.[\w.]+)\.([^\s(){}\[\],;.:@]+)", text)}
    words = set(WORD.findall(text))
    for short, target in names.items():
        if short in words or all(part in words for part in short.split("◌") if part):
            found.add(target)
    return found | {("", word) for word in words}
