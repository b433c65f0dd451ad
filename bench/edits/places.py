"""Where an edit changes a crate: what its files become, and in the bodies of which functions that is."""

import re
from pathlib import Path


class BadEdit(Exception):
    """An edit that cannot be made."""


def made(edit, crate):
    """The texts of the files that an edit changes, by their paths in the crate's folder, and the paths of the functions in
    whose bodies it changes them: those that `--only` takes, or None where something else is changed too."""
    texts, functions, path, old = {}, [], None, None
    for line in edit.read_text().splitlines():
        word, colon, text = line.partition(":")
        text = text.removeprefix(" ")
        if not colon or word not in ("file", "old", "new"):
            continue
        if word == "file":
            path = text.strip()
            if not re.fullmatch(r"(src|specs|proofs)/[\w/.+-]+", path) or not (crate / path).is_file():
                raise BadEdit(f"there is no file {path}")
            texts.setdefault(path, (crate / path).read_text())
        elif path is None:
            raise BadEdit(f"no file stands before: {text.strip()}")
        elif word == "old":
            old = text
            if texts[path].count(old) != 1:
                raise BadEdit(f"in {path} this stands {texts[path].count(old)} times: {old.strip()}")
        elif old is None:
            raise BadEdit(f"no old text stands before: {text.strip()}")
        else:
            functions.append(function_at(path, texts[path], texts[path].index(old)))
            texts[path], old = texts[path].replace(old, text), None
    if not any(text != (crate / path).read_text() for path, text in texts.items()):
        raise BadEdit("it changes nothing")
    return texts, None if None in functions else sorted(set(functions))


def function_at(path, text, at):
    """The path of the function whose body has this place of a file in the layout of `rt fmt`, or None."""
    if not path.startswith("src/") or not path.endswith(".rt"):
        return None
    lines = text.splitlines()
    line = text.count("\n", 0, at)
    for head in range(line - 1, -1, -1):
        found = re.match(r"( *)(?:pub(?:\([^)]*\))? )?(?:const )?fn (\w+)", lines[head])
        if found:
            return path_of(path, lines, head, found[2]) if is_in_body(lines, head, line, found[1]) else None
    return None


def is_in_body(lines, head, line, indent):
    """Whether a line stands between the braces of the body of the function whose first line is this."""
    opened = next((it for it in range(head, line) if re.fullmatch(rf"{indent}(?! ).*\{{|{indent}\{{", lines[it])), None)
    return opened is not None and f"{indent}}}" not in lines[opened:line]


def named(kind, own):
    """The name of a type in a path: its words without lifetimes and the parameters of its impl, `ArrayU323` of `[u32; 3]`."""
    own = set(re.findall(r"[<,]\s*(?:const )?(\w+)", re.sub(r"'\w+", "", own)))
    words = re.findall(r"\w+", re.sub(r"'\w+", "", kind.split(" where ")[0]))
    return ("Array" if kind.startswith("[") else "") + "".join(it[0].upper() + it[1:] for it in words if it not in own)


def path_of(path, lines, head, name):
    """The path of a function below its crate, as a check prints it."""
    modules = [it for it in Path(path).with_suffix("").parts[1:] if it not in ("lib", "main", "mod")]
    owner = []
    if lines[head].startswith(" "):
        around = next((lines[it] for it in range(head, -1, -1) if re.match(r"\S.*\{$", lines[it])), "")
        found = re.match(
            r"impl(?P<own><[^{]*?>)? (?:(?P<trait>[\w:]+)(?:<[^{]*>)? for )?(?P<type>\[?\w[^{]*)", around)
        if not found:
            return None
        owner = [named(found["type"], found["own"] or "") + (found["trait"] or "").split("::")[-1]]
    return "::".join([*modules, *owner, name])
