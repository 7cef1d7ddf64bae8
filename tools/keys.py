"""The public key of a seed, and what the notes of a folder begin with: for tools/hss_key and tools/operator_key."""
import os
import sys

import node_files
import lms
from called import usage


def public_key(seed):
    """The key of a signer of two levels: 60 bytes."""
    return bytes.fromhex("00000002") + lms.key_of(seed)


def node_in(words, tool, doc):
    """Who the node is in the folder that the words name, or in the current one, and the path of its notes; None where
    they are no node's. Other words, and a file that can't be read, end the tool."""
    if len(words) > 1 or words[:1] in (["-h"], ["--help"]):
        sys.exit(usage(doc, words))
    path = os.path.join(words[0] if words else ".", node_files.NOTES)
    try:
        with open(path, "rb") as file:
            image = file.read()
        return node_files.identity_in(image), path, node_files.Journal(image)
    except OSError as error:
        sys.exit(f"{tool}: {path}: {error.strerror}")
    except node_files.Unfit:
        return None, path, None
