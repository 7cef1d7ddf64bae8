"""How the scripts are called here: in a clone by their paths, and as they are installed by the names of bin/. And their
help: on standard output, with status 0, where it is asked for.
"""
import os
import re
import sys

TOP = os.path.dirname(os.path.dirname(os.path.realpath(__file__)))
HELP = ("-h", "--help")


def name_of(script):
    """The name of one script."""
    if not os.path.exists(f"{TOP}/crates.txt"):
        for name in (f"plasma-{script}", script):
            if os.path.exists(f"{TOP}/bin/{name}"):
                return name
    return f"tools/{script}"


def called(text):
    """The text, with each script named as it is called here."""
    return re.sub(r"\btools/(\w+)", lambda it: name_of(it[1]), text)


def usage(doc, words):
    """Prints what a script's own text says, and gives the status: 0 where the words ask for it, and else 2."""
    asked = words[:1] and words[0] in HELP
    print(called(doc).strip(), file=sys.stdout if asked else sys.stderr)
    return 0 if asked else 2
