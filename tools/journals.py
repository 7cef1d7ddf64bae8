"""What a wallet or a watcher has to remember, by its journals: for tools/safe. It judges nothing: whether a file is a
journal of its role, the program says.
"""
from dataclasses import dataclass, field

import node_files
from log_read import bundle_in, leaf_of, transfer_in
from node_files import Unfit, number


class NoNode(Exception):
    """The folder has no node that looks at coins."""


@dataclass
class Node:
    """A wallet's or a watcher's records."""

    role: str
    tag: str
    account: int
    tips: list = field(default_factory=list)      # of a wallet: each coin that it accepted, with its tip
    leaving: set = field(default_factory=set)
    reclaimed: set = field(default_factory=set)   # leaves
    leaves: list = field(default_factory=list)    # what each leaf signed; None where it was used up for nothing
    guards: dict = field(default_factory=dict)    # of a watcher: the account of the owner, by coin and tip

    def coins(self):
        """The coins of which it has a record."""
        return {coin for coin, _ in [*self.tips, *self.guards]} | {it.coin for it in self.leaves if it}


def node_in(notes, leaves):
    """The node of these two files; a watcher has no leaves."""
    try:
        identity = node_files.identity_in(notes)
        if identity.role not in ("wallet", "watcher"):
            raise NoNode("has neither a wallet nor a watcher")
        node = Node(identity.role, f"0x{identity.tag.hex()}", identity.account)
        for _, body in node_files.Journal(notes).records[1:]:
            read(node, body[:1], body[1:])
        if identity.seed:
            bound = node_files.leaves_of(node_files.Journal(leaves), identity)
            node.leaves = [it if it and it.coin else None for it in (transfer_in(leaf.message) for leaf in bound)]
        return node
    except Unfit as error:
        raise NoNode(f"isn't its journal, or leaves.journal isn't ({error})") from error


def read(node, kind, data):
    """Takes a record of the notes."""
    if kind == b"\x02":
        node.tips.append(bundle_in(data)[:2])
    elif kind == b"\x03":
        node.leaving.add((number(data[:8]), number(data[8:16])))
    elif kind == b"\x05":
        node.reclaimed.add(number(data[16:20]))
    elif kind == b"\x12":
        bundle = bundle_in(data)
        shown = [transfer_in(leaf_of(opening)) for _, opening in bundle.items]
        node.guards[bundle.coin, bundle.tip] = next((it.account for it in reversed(shown) if it), None)
    elif kind == b"\x13":
        node.guards.pop((number(data[:8]), number(data[8:16])), None)
