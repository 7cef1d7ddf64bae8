"""Bundles, and what they show: histories and absences (FORMATS, "Byte formats", "What is written")."""
from collections import namedtuple
from refusals import refuse_if, Refused
from lms import number_bytes
from transfers import spelled_transfer
from trees import opened_leaf, read_opening

class Bundle:
    def __init__(self, coin, tip, items):
        self.coin = coin
        self.tip = tip
        self.items = items

    def bytes(self):
        parts = [number_bytes(self.coin, 8), number_bytes(self.tip, 8), number_bytes(len(self.items), 4)]
        for block, opening in self.items:
            parts += [number_bytes(block, 8), number_bytes(len(opening), 4), opening]
        return b''.join(parts)

class BadBundle(Exception):
    """Bytes that are no bundle, and the place of the first field that isn't one."""
    def __init__(self, place):
        super().__init__(place)
        self.place = place

def read_bundle(data):
    def number(at, width):
        if at + width > len(data):
            raise BadBundle(at)
        return int.from_bytes(data[at:at + width], 'big')
    coin, tip, count = number(0, 8), number(8, 8), number(16, 4)
    items, at, before = [], 20, -1
    for _ in range(count):
        block = number(at, 8)
        if block <= before:
            raise BadBundle(at)
        length = number(at + 8, 4)
        if at + 12 + length > len(data):
            raise BadBundle(at + 12)
        items.append((block, data[at + 12:at + 12 + length]))
        at, before = at + 12 + length, block
    if at != len(data):
        raise BadBundle(at)
    return Bundle(coin, tip, items)

def handed_bundle(data):
    try:
        return read_bundle(data)
    except BadBundle as bad:
        raise Refused('bad-bundle', bad.place)

# The opening of a transfer of a coin, which spends the link before it, in its block.
Link = namedtuple('Link', 'block opening')

class History:
    def __init__(self, bundle, links, owner):
        self.bundle = bundle
        self.coin = bundle.coin
        self.tip = bundle.tip
        self.links = links
        self.owner = owner

    def kept_bytes(self):
        """The bundle that is kept: of its items those that are links (FORMATS, "The journal of a node")."""
        return Bundle(self.coin, self.tip, [(link.block, link.opening) for link in self.links]).bytes()

def opened_items(chain, bundle, after):
    """Block, opening and leaf of each item, by rising block; the lowest block that fails is refused.
    The blocks have to be exactly the committed ones above `after` and up to the bundle's tip.
    """
    items = dict(bundle.items)
    wanted = set(chain.committed_between(after, bundle.tip))
    for block in sorted(wanted | set(items)):
        refuse_if(block not in wanted, 'unknown-block', block)
        refuse_if(block not in items, 'missing-block', block)
        leaf = opened_leaf(chain.root_of(block), bundle.coin, items[block])
        refuse_if(leaf is None, 'bad-opening', block)
        yield block, items[block], leaf

def read_history(chain, data):
    """What a bundle shows as the history of its coin, or a refusal."""
    bundle = handed_bundle(data)
    refuse_if(bundle.coin not in chain.coins, 'no-coin')
    coin = chain.coins[bundle.coin]
    is_link = bundle.tip > coin.block and chain.root_of(bundle.tip) is not None
    refuse_if(bundle.tip != coin.block and not is_link, 'unknown-block', bundle.tip)
    links, tip, owner = [], coin.block, coin.owner
    for block, opening, leaf in opened_items(chain, bundle, coin.block):
        if not leaf and block != bundle.tip:
            continue
        # A leaf that is neither empty nor the next link would stand as an unanswerable Before.
        transfer = spelled_transfer(leaf, chain.tag, bundle.coin, block)
        refuse_if(transfer is None or transfer.parent != tip, 'not-link', block)
        refuse_if(not transfer.signed_by(owner), 'bad-signature', block)
        links.append(Link(block, opening))
        tip, owner = block, transfer.owner
    return History(bundle, links, owner)

def kept_links(tag, data):
    """The bundle that a note keeps, and its links: each leaf spells a transfer of the coin, the last one at the tip.
    Roots, parents and signatures were tested when it was taken. None where the bytes are no such bundle.
    """
    try:
        bundle = read_bundle(data)
    except BadBundle:
        return None, None
    links = []
    for block, opening in bundle.items:
        parts = read_opening(opening)
        transfer = spelled_transfer(parts[0], tag, bundle.coin, block) if parts else None
        if transfer is None:
            return None, None
        links.append(Link(block, opening))
    return (bundle, links) if not links or links[-1].block == bundle.tip else (None, None)

def refuse_present(chain, bundle, after):
    """The refusals of absences: a leaf that isn't empty is none."""
    for block, _, leaf in opened_items(chain, bundle, after):
        refuse_if(leaf != b'', 'not-absent', block)

def link_walk(chain, coin_number, leaf_at, last, ends_broken=False):
    """The last link and the first broken leaf of a coin, over the leaves that `leaf_at` knows up to `last`.
    A broken leaf is neither empty nor the next link; an operator's walk goes on behind one, an archive's ends.
    """
    coin = chain.coins[coin_number]
    tip, owner, broken = coin.block, coin.owner, None
    for block in chain.committed_between(coin.block, last):
        leaf = leaf_at(block)
        if not leaf:
            continue
        transfer = spelled_transfer(leaf, chain.tag, coin_number, block)
        if transfer and transfer.parent == tip and transfer.signed_by(owner):
            tip, owner = block, transfer.owner
        elif broken is None:
            broken = block
            if ends_broken:
                break
    return tip, owner, broken
