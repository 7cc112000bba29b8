"""JSON as it is written for readers: indented, and what fits into a line in one line."""
import json

WIDTH = 110


def laid_out(value, indent=0, lead=0):
    """The text of a value that begins behind `lead` letters of a line with this indent."""
    line = json.dumps(value, ensure_ascii=False)
    if not isinstance(value, (dict, list)) or not value or (indent + lead + len(line) <= WIDTH and is_flat(value)):
        return line
    inner = " " * (indent + 2)
    if isinstance(value, list):
        parts = [inner + laid_out(own, indent + 2) for own in value]
        return "[\n" + ",\n".join(parts) + "\n" + " " * indent + "]"
    parts = []
    for key, own in value.items():
        start = json.dumps(key, ensure_ascii=False) + ": "
        parts.append(inner + start + laid_out(own, indent + 2, len(start)))
    return "{\n" + ",\n".join(parts) + "\n" + " " * indent + "}"


def is_flat(value, deep=3):
    """Whether a value nests so little that a line shows it well."""
    if not isinstance(value, (dict, list)):
        return True
    if deep == 0:
        return False
    inner = value.values() if isinstance(value, dict) else value
    return all(is_flat(own, deep - 1) for own in inner)
