"""Vectors of the parts: signatures of one level and of two, trees, openings, bundles, journals and receipts. Their
bytes and what is expected are made by bench/plasma_bytes.py, apart from the program; release/vectors holds the program
to them.
"""
import os
import sys

TOP = os.path.dirname(os.path.dirname(os.path.abspath(__file__)))
sys.path.insert(0, f"{TOP}/bench")
from plasma_bytes import (DEFAULTS, TAG, Tree, bottom_key, bundle, hexed, identity, journal,  # noqa: E402
                          levels_key, levels_signature, opening, owner, promise, public_key, signature, signer,
                          transfer, u32, u64)

HEAD = f"chain {hexed(TAG)} 9 100"
ANN, BOB = signer(101, 5, 3), signer(102, 5, 3)
OPERATOR = {"notes.journal": journal(identity("operator", 9))}
WATCHER = {"notes.journal": journal(identity("watcher", 14))}


def run(words, lines, text, status=0, before=None, after=None):
    """A run as the cases' player gives one; the files stay as they are where nothing else is said."""
    before = before or {}
    return {"words": words, "input": [(1, "".join(f"{line}\n" for line in lines))], "pieces": None, "before": before,
            "text": "".join(f"{line}\n" for line in text).encode(), "status": status, "after": after or before}


def changed(content, at):
    return content[:at] + bytes([content[at] ^ 1]) + content[at + 1 :]


# ---- signatures

def signatures():
    for types in ((5, 3), (5, 4), (6, 3), (6, 4)):
        key = signer(7, *types)
        for leaf, message in ((0, b""), (17, b"a message"), (31, bytes(116))):
            yield from of_signature(f"types {types[0]} and {types[1]}, leaf {leaf}", public_key(key),
                                    message, signature(key, leaf, message))
    key = public_key(signer(7, 5, 3))
    good = signature(signer(7, 5, 3), 3, b"m")
    for name, changes in {
        "another message": (key, b"n", good), "another key": (public_key(signer(8, 5, 3)), b"m", good),
        "a byte less": (key, b"m", good[:-1]), "a byte more": (key, b"m", good + b"\0"), "no byte": (key, b"m", b""),
        "another leaf": (key, b"m", u32(2) + good[4:]), "no such leaf": (key, b"m", u32(32) + good[4:]),
        "another one-time type": (key, b"m", good[:4] + u32(4) + good[8:]),
        "another C": (key, b"m", changed(good, 8)), "a string of a chain": (key, b"m", changed(good, 40)),
        "another LMS type": (key, b"m", changed(good, len(good) - 161)),
        "a sibling": (key, b"m", changed(good, len(good) - 1)),
        "a key of other types": (u32(5) + u32(2) + key[8:], b"m", good), "a key of 55 bytes": (key[:-1], b"m", good),
        "a key of 57 bytes": (key + b"\0", b"m", good), "another identifier": (changed(key, 8), b"m", good),
    }.items():
        yield from of_signature(name, *changes, valid=False)


def of_signature(name, key, message, signed, valid=True, form=("verify",)):
    words = [*form, hexed(key), hexed(message), hexed(signed)]
    yield {"name": name, "key": key, "message": message, "signature": signed, "valid": valid,
           "runs": [run(words, [], ["valid" if valid else "invalid"])]}


def levels():
    top = signer(104)
    for number, leaf, message in ((0, 0, b"a"), (5, 31, bytes(32)), (31, 0, bytes(128))):
        signed = levels_signature([top, bottom_key(top, number)], [number, leaf], message)
        yield from of_signature(f"bottom key {number}, leaf {leaf}", levels_key(top), message, signed, form=("hss",
                                                                                                             "verify"))
    key, good = levels_key(top), levels_signature([top, bottom_key(top, 1)], [1, 2], b"m")
    one, three = levels_signature([top], [0], b"m"), [top, bottom_key(top, 1), bottom_key(top, 2)]
    for name, changes in {
        "one level, by a key of two": (key, b"m", one), "a count of levels that the key hasn't": (key, b"m",
                                                                                                  u32(0) + good[4:]),
        "three levels": (levels_key(top, 3), b"m", levels_signature(three, [1, 2, 3], b"m")),
        "a key of three levels": (u32(3) + key[4:], b"m", good), "another message": (key, b"n", good),
        "the bottom key is another": (key, b"m", changed(good, 1300 + 8)), "a byte more": (key, b"m", good + b"\0"),
        "a byte less": (key, b"m", good[:-1]), "a key of 56 bytes": (key[4:], b"m", good),
    }.items():
        yield from of_signature(name, *changes, valid=False, form=("hss", "verify"))


# ---- trees and openings

TREES = {
    "no leaf": {}, "one leaf": {1: b"a"}, "two leaves that part at the lowest node": {2: b"a", 3: b"b"},
    "two leaves that part at the root": {1: b"a", 2**63 + 1: b"b"},
    "the least coin and the greatest": {0: b"a", 2**64 - 1: b"b"},
    "five leaves": {1: b"a", 2: b"bc", 7: b"\0", 256: bytes(100), 2**40: b"e"},
}


def trees():
    for name, leaves in TREES.items():
        tree = Tree(leaves)
        asked = [*leaves, 1, 3, 2**64 - 1]
        commit = f"call 9 commit {hexed(tree.root)}"
        lays = [f"lay {coin} {hexed(leaf)}" for coin, leaf in leaves.items()]
        records = [b"\x23" + u64(coin) + leaf for coin, leaf in leaves.items()]
        after = {"notes.journal": journal(identity("operator", 9), *records, b"\x24")}
        text = [f"laid {coin}" for coin in leaves]
        proofs = [line for coin in asked for line in ("proved", hexed(tree.opening(coin)))]
        yield {"name": name, "leaves": [{"coin": coin, "leaf": leaf} for coin, leaf in leaves.items()],
               "root": tree.root,
               "openings": [{"coin": coin, "opening": tree.opening(coin)} for coin in asked], "runs": [
                   run(["operator"], [HEAD, "--", *lays, "seal"], [*text, f"sealed {len(leaves)}", commit], 0,
                       OPERATOR, after),
                   run(["operator"], [HEAD, commit, "--", *(f"prove {coin} 1" for coin in asked)], proofs, 0, after)]}


def openings():
    """Of a block whose coins 1 and 3 have leaves, of which that of coin 1 spells a transfer."""
    leaf = transfer(ANN, 0, 1, 1, owner(12, BOB))
    tree = Tree({1: leaf, 3: b"x"})
    good, siblings = tree.opening(1), tree.siblings(1)
    deposits = [f"call 11 deposit 1 {hexed(public_key(ANN))}"] * 3
    log = [HEAD, "fund 11 10", *deposits, f"call 9 commit {hexed(tree.root)}"]
    for name, coin, content, opens in (
        ("a leaf", 1, good, True), ("another leaf", 3, tree.opening(3), True), ("no leaf", 2, tree.opening(2), True),
        ("of another coin", 2, good, False), ("a byte more", 1, good + b"\0", False), ("a byte less", 1, good[:-1],
                                                                                       False),
        ("a sibling less", 1, opening(leaf, {}), False), ("another sibling", 1, changed(good, len(good) - 1), False),
        ("a set bit with the default of its level", 1, opening(leaf, {0: DEFAULTS[0], **siblings}), False),
        ("another leaf's bytes", 1, changed(good, 10), False), ("no byte", 1, b"", False), ("three bytes", 1,
                                                                                            bytes(3), False),
        ("a leaf longer than the bytes", 1, u32(2**32 - 1) + good[4:], False),
        ("a mask that the siblings don't fit", 1, opening(leaf, siblings)[: 4 + len(leaf)] + u64(6) + good[-32:],
         False),
    ):
        answer, status = (["kept 4"], 0) if opens else (["refused bad-opening 4"], 1)
        yield {"name": name, "coin": coin, "root": tree.root, "opening": content, "opens": opens,
               "runs": [run(["archive"], [*log, "--", f"put {coin} 4 {hexed(content)}"], answer, status)]}


# ---- bundles, journals and receipts

def bundles():
    """Histories of coin 1, of block 1, which Ann pays to Bob in block 3; and of coin 2, of block 2."""
    signed = transfer(ANN, 0, 1, 1, owner(12, BOB))
    tree = Tree({1: signed})
    key = hexed(public_key(ANN))
    log = [HEAD, "fund 11 10", f"call 11 deposit 1 {key}", f"call 11 deposit 1 {key}",
           f"call 9 commit {hexed(tree.root)}"]
    shown, absent = tree.opening(1), tree.opening(2)
    good = bundle(1, 3, [(3, shown)])
    wrong = Tree({1: changed(signed, 300)})
    for name, content, answer, of in (
        ("of the deposit", bundle(1, 1, []), "guarded 1 1", log), ("of a transfer", good, "guarded 1 3", log),
        ("a place that isn't read", good[:-1], "refused bad-bundle 32", log), ("no byte", b"", "refused bad-bundle 0",
                                                                               log),
        ("a byte more", good + b"\0", f"refused bad-bundle {len(good)}", log),
        ("of no coin", bundle(9, 3, [(3, shown)]), "refused no-coin", log),
        ("its tip shows no link", bundle(2, 3, [(3, absent)]), "refused not-link 3", log),
        ("a committed block is left out", bundle(1, 3, []), "refused missing-block 3", log),
        ("it isn't opened", bundle(1, 3, [(3, absent)]), "refused bad-opening 3", log),
        ("not signed by the owner", bundle(1, 3, [(3, wrong.opening(1))]), "refused bad-signature 3",
         [*log[:-1], f"call 9 commit {hexed(wrong.root)}"]),
    ):
        guarded = answer.startswith("guarded")
        after = {"notes.journal": journal(identity("watcher", 14), b"\x12" + content)} if guarded else WATCHER
        yield {"name": name, "bundle": content, "good": guarded,
               "runs": [run(["watcher"], [*of, "--", f"guard {hexed(content)}"], [answer], int(not guarded), WATCHER,
                            after)]}


def journals():
    first = identity("watcher", 14)
    good = journal(first, b"\x13" + u64(1) + u64(1))
    for name, content, records, place in (
        ("a record", journal(first), [first], None), ("no byte", b"", None, 0), ("another mark", b"PGJ2" + good[4:],
                                                                                 None, 0),
        ("no end", good[:-1], None, len(good) - 1), ("an end of another byte", good[:-1] + b"\x37", None, None),
        ("bytes behind the end", journal(first) + b"\xa5\xff", [first], None), ("no record", journal(), None, 4),
        ("a record that is cut", good[:-5], None, 50), ("a length above the greatest",
                                                        journal(first)[:-1] + b"\xa5\1\0\0\1", None, 50),
    ):
        if name == "an end of another byte":
            content, records = journal(first, end=b"\x37"), [first]
        text, status = (["offers 0"], 0) if place is None else ([f"not a journal {place}"], 9)
        yield {"name": name, "journal": content, "records": records or [], "place": place, "runs": [
            run(["watcher"], [HEAD, "--", "watch"], text, status, {"notes.journal": content})]}


def receipts():
    """Receipts of coin 1's transfer, issued behind block 1 and due by block 2, which comes without it."""
    key, signed = signer(9), transfer(ANN, 0, 1, 1, owner(12, BOB))
    log = [HEAD, "fund 11 10", f"call 11 deposit 1 {hexed(public_key(ANN))}"]
    empty, kept = Tree({}), Tree({1: signed})
    text = promise(1, 1, signed, 1, 2)
    good = text + signature(key, 0, text)
    absent, shown = bundle(1, 2, [(2, empty.opening(1))]), bundle(1, 2, [(2, kept.opening(1))])
    for name, receipt, content, tree, answer in (
        ("broken", good, absent, empty, "convicted 1 2"), ("kept", good, shown, kept, "refused honoured 2"),
        ("99 bytes", good[:99], absent, empty, "refused bad-receipt"), ("another mark", changed(good, 3), absent,
                                                                        empty, "refused bad-receipt"),
        ("another tag", changed(good, 20), absent, empty, "refused bad-receipt"),
        ("not signed", changed(good, 60), absent, empty, "refused not-signed"), ("no block yet", good, absent, None,
                                                                                 "refused not-yet 2"),
        ("no bundle", good, b"", empty, "refused bad-bundle 0"), ("of another coin", good, bundle(2, 2, []), empty,
                                                                  "refused other-coin 2"),
        ("another tip", good, bundle(1, 1, []), empty, "refused unknown-block 1"),
        ("a block is left out", good, bundle(1, 2, []), empty, "refused missing-block 2"),
        ("a block isn't opened", good, absent, kept, "refused bad-opening 2"),
    ):
        lines = [*log, *([f"call 9 commit {hexed(tree.root)}"] if tree else []), "--", hexed(content)]
        words = ["audit", hexed(public_key(key)), hexed(receipt)]
        yield {"name": name, "key": public_key(key), "receipt": receipt, "bundle": content,
               "convicts": answer.startswith("convicted"), "runs": [run(words, lines, [answer],
                                                                        int("refused" in answer))]}


PARTS = {"signatures": signatures, "levels": levels, "trees": trees, "openings": openings, "bundles": bundles,
         "journals": journals, "receipts": receipts}
