"""Which files of the repository a release has: for release/pack, and for release/install in a clone."""
import os
import re
import subprocess

# What is taken: files, and folders with all that is below them.
TAKEN = "plasma README.md CONTRIBUTING.md SECURITY.md bin docs examples man completions tools release".split()
TAKEN += ["crates", "second_opinion"]
# What only serves the repository itself. Of the crates and of the second opinion their pages are taken, and the files
# to which pages lead.
LEFT = re.compile(
    r"(^|/)test$|^docs/(check|clauses|installed|(quotes|sentences)\.py)$|^examples/(draw|pages|check|safe)$"
    r"|^tools/(testing|cases|held_to|\w+_tests)\.py$|^tools/sentences$"
    r"|^release/(pack|crate|taken\.py|VECTORS\.md|.*vectors.*)$|^crates/(?!(?:\w+/)?README\.md$)"
    r"|^second_opinion/(?!README\.md$)"
)
LINK = re.compile(r"\]\(([^)#:\s]+)(?:#[^)\s]*)?\)")


def files(top):
    """All files that git knows; where there is no git, those that are there."""
    done = subprocess.run(["git", "-C", top, "ls-files", "-z", *TAKEN], capture_output=True, text=True, check=False)
    if done.returncode == 0 and done.stdout:
        return set(done.stdout.split("\0")) - {""}
    found = set()
    for at, folders, names in os.walk(top):
        folders[:] = [name for name in folders if name not in ("out", "__pycache__") and name[0] != "."]
        found |= {os.path.relpath(f"{at}/{name}", top) for name in names}
    return {path for path in found if path.split("/")[0] in TAKEN}


def taken(top):
    """The paths that are taken, in order: each to which a page leads is there too."""
    known = files(top)
    found = {path for path in known if not LEFT.search(path)}
    for page in [path for path in found if path.endswith(".md")]:
        with open(f"{top}/{page}", encoding="utf-8") as file:
            for link in LINK.findall(file.read()):
                path = os.path.normpath(f"{os.path.dirname(page)}/{link}").lstrip("/")
                if path in known:
                    found.add(path)
    return sorted(found)


if __name__ == "__main__":
    print("\n".join(taken(os.path.dirname(os.path.dirname(os.path.abspath(__file__))))))
