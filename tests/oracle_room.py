"""The file of a room, `copydesk.toml`: the options that it gives, or what is wrong with it, and the words of the command line
with them."""
import re

import reported

NAME = "copydesk.toml"
MOST = 8192  # bytes
SETTINGS = {"measure": (12, 720), "tight": (16, 240), "loose": (16, 240), "case": (1, 65535), "wedge": (1, 65535)}
TAKES = {"desk": ["site"], "import": ["site"], "replace": ["site"], "renew": ["site"], "proof": ["case", "wedge", "set"],
         "punch": ["case", "wedge"], "read": ["case", "wedge"], "sorts": ["case"]}
NO_TOML = "it is not TOML"


def is_number(value, low, high):
    return type(value) is int and low <= value <= high


def is_fine(key, value):
    """Whether what stands at a key of the file may stand there; of the settings the first that may not is given."""
    if key == "site":
        return is_number(value, 1, 65535)
    return isinstance(value, str) and value != ""


def flaw(document):
    """What is wrong with the first key, by its bytes, of which something is."""
    for key in sorted(document, key=lambda key: key.encode("utf-8", "surrogatepass")):
        value = document[key]
        if key == "set" and isinstance(value, dict):
            for name in sorted(value, key=lambda name: name.encode("utf-8", "surrogatepass")):
                if name not in SETTINGS:
                    return "`set.%s` is no key of it" % name
                if not is_number(value[name], *SETTINGS[name]):
                    return "`set.%s` is of another type or value" % name
        elif key not in ("site", "case", "wedge", "set"):
            return "`%s` is no key of it" % key
        elif key == "set" or not is_fine(key, value):
            return "`%s` is of another type or value" % key
    return None


def given(data):
    """The options that the bytes of a file give, as pairs, and none; or none, and what is wrong. Where it is no TOML the line
    is left to the program."""
    if len(data) > MOST:
        return None, "it has more than %d bytes" % MOST
    document = reported.toml(data)
    if document is None:
        return None, NO_TOML
    if flaw(document) is None:
        options = [("site", str(document["site"]))] if "site" in document else []
        options += [(key, document[key]) for key in ("case", "wedge") if key in document]
        sets = document.get("set", {})
        return options + [("set", "%s=%d" % (key, sets[key])) for key in SETTINGS if key in sets], None
    lines = data.split(b"\n")
    for count in range(1, len(lines) + 1):
        part = reported.toml(b"\n".join(lines[:count]) + (b"\n" if count < len(lines) else b""))
        if part is not None and flaw(part) is not None:
            return None, "line %d: %s" % (count, flaw(part))
    raise AssertionError("the whole has a flaw")


def said(data):
    """What `check` says of it, without its name."""
    options, wrong = given(data)
    if wrong is not None:
        return "room file refused: " + wrong
    return "ok: room file" + "".join(", %s %s" % option for option in options)


def alike(text):
    """A text without the line of what is no TOML."""
    return re.sub(r"line [0-9]+: (?=it is not TOML)", "", text)


def is_given(option, words):
    until = words.index("--") if "--" in words else len(words)
    return any(word.split("=", 1)[0] == option for word in words[:until])


def wanted(words):
    """The options that words want of the file."""
    if not words or is_given("--help", words[1:]) or is_given("-h", words[1:]):
        return []
    return [key for key in TAKES.get(words[0], ()) if key == "set" or not is_given("--" + key, words[1:])]


def filled(words, files):
    """The words with what the file gives, and none; or none, and what is wrong with it."""
    want = wanted(words)
    if not want or NAME not in files:
        return words, None
    options, wrong = given(files[NAME])
    if wrong is not None:
        return None, wrong
    return [words[0], *("--%s=%s" % option for option in options if option[0] in want), *words[1:]], None
