"""What holds of the journals of a node's folder, and what doesn't: for tools/verify_node. Each fault has its place,
and what money rests on it.
"""
import collections

import lms
import node_files
from lms import digest
from log_read import bundle_in, leaf_of, opens, promise_in, root_of, transfer_in
from node_files import LEAVES, NOTES, Unfit, number

# Whose the coin is in a leaf that tools/burn_leaves used up: nobody's. The coin is 0, which no chain has.
BURNT = b"used up by plasma-burn_leaves".ljust(64, b"\0")
EVERY_COIN = "a leaf that signs twice lets others forge: every coin of this key"

Fault = collections.namedtuple("Fault", "journal place what money")


def burnt(identity):
    """What the leaf of a wallet or an operator signs that is used up: a transfer or a promise of no coin."""
    head = b"PCR1" if identity.role == "operator" else b"PCT1"
    rest = BURNT[:48] if identity.role == "operator" else BURNT
    return head + identity.tag + bytes(16) + rest


def all_of(coin):
    return f"coin {coin}"


class Check:
    """A folder's node, its journals, the log where there is one, and the key where its seed may be read."""

    def __init__(self, images, log, reads_seed):
        self.images, self.log, self.faults = images, log, []
        self.identity = node_files.identity_in(images.get(NOTES))
        self.journals, self.leaves = {}, []
        self.seed = self.identity.seed if reads_seed else None
        self.known = collections.defaultdict(list)  # (owners that a coin may have at a block, by coin and block)
        self.reclaimed, self.offers, self.seen = set(), {}, []

    def fault(self, journal, place, what, money):
        self.faults.append(Fault(journal, place, what, money))

    def key(self):
        return lms.key_of(self.seed, self.identity.types)

    def run(self):
        for name in node_files.JOURNALS if self.identity.seed else (NOTES,):
            self.of_file(name)
        if self.log and self.identity.tag and self.log.tag != self.identity.tag:
            self.fault(NOTES, 4, "the node's tag isn't the log's", "is it the right log? else all that this node has")
            self.log = None
        if self.log:
            for coin, it in self.log.coins.items():
                self.known[coin, it.block].append(it.owner)
            self.seen += filter(None, map(transfer_in, self.log.leaves))
        if NOTES in self.journals and self.identity.role != "signer":
            {"wallet": self.of_wallet, "watcher": self.of_watcher, "operator": self.of_operator}[self.identity.role]()
        if LEAVES in self.journals:
            self.of_leaves()
        return self.faults

    # ---- files

    def of_file(self, name):
        image = self.images.get(name)
        money = EVERY_COIN if name == LEAVES else "all that this node has to remember"
        if image is None:
            self.fault(name, 0, "the file isn't there", money)
            return
        try:
            journal = self.journals[name] = node_files.Journal(image)
        except Unfit as error:
            self.fault(name, error.place, error.why, money)
            return
        hidden = node_files.hidden(journal)
        shut = image[journal.end]
        if shut != node_files.SHUT:
            behind = f", and {len(hidden)} whole record(s) stand behind it" if hidden else ""
            self.fault(name, journal.end, f"the end is {shut:02x}, and a run writes 00: a gate changed{behind}", money)
        elif hidden:
            self.fault(name, journal.end, f"{len(hidden)} whole record(s) stand behind a closed gate: a run that was"
                       " stopped leaves one, and older bytes that were put over newer ones leave some", money)

    def records(self):
        """The notes behind the identity."""
        return self.journals[NOTES].records[1:]

    def strange(self, record):
        self.fault(NOTES, record.place, "no record of this role is so", "what this node had to remember by it")

    # ---- kept histories

    def of_bundle(self, place, data):
        """A kept history: it has to be the coin's, up to its tip."""
        try:
            bundle = bundle_in(data)
        except Unfit as error:
            self.fault(NOTES, place, f"a kept history: {error.why}", "the coin that is kept by it")
            return None
        coin = self.log.coins.get(bundle.coin) if self.log else None
        if self.log and not coin:
            self.fault(NOTES, place, f"the log has no coin {bundle.coin}", all_of(bundle.coin))
            return None
        owner, block = (coin.owner, coin.block) if coin else (None, None)
        for at, opening in bundle.items:
            found = self.of_link(place, bundle, at, opening, owner, block)
            if found is None:
                return None
            owner, block = found, at
        if block is not None and block != bundle.tip:
            self.fault(NOTES, place, f"the history of coin {bundle.coin} doesn't end at its tip", all_of(bundle.coin))
        if owner:
            self.known[bundle.coin, bundle.tip].append(owner)
        return bundle

    def of_link(self, place, bundle, at, opening, owner, block):
        """The owner behind one link of a kept history; None where it is faulty."""
        def wrong(what):
            money = f"a call that defends coin {bundle.coin} would be refused: the coin"
            self.fault(NOTES, place, f"the history of coin {bundle.coin}, block {at}: {what}", money)

        try:
            shown = transfer_in(leaf_of(opening))
        except Unfit as error:
            return wrong(error.why)
        if self.log and not (at in self.log.roots and opens(self.log.roots[at], bundle.coin, opening)):
            return wrong("it doesn't open this block of the log")
        if not shown or shown.tag != self.identity.tag or shown.coin != bundle.coin:
            return wrong("it shows no transfer of this coin")
        if owner and (shown.parent != block or not lms.is_valid(owner[8:], shown.body, shown.sign)):
            return wrong("it doesn't spend the transaction before")
        self.seen.append(shown)
        return shown.owner

    # ---- roles

    def of_wallet(self):
        for record in self.records():
            kind, data = record.bytes[:1], record.bytes[1:]
            if kind == b"\x02":
                self.of_bundle(record.place, data)
            elif kind == b"\x05" and len(data) == 20:
                self.reclaimed.add((number(data[:8]), number(data[8:16]), number(data[16:])))
            elif kind != b"\x03" or len(data) != 16:
                self.strange(record)

    def of_watcher(self):
        for record in self.records():
            kind, data = record.bytes[:1], record.bytes[1:]
            if kind == b"\x12":
                self.of_bundle(record.place, data)
            elif kind != b"\x13" or len(data) != 16:
                self.strange(record)

    def of_operator(self):
        pool, roots = {}, {}
        for record in self.records():
            kind, data = record.bytes[:1], record.bytes[1:]
            if kind == b"\x22":
                self.of_offer(record, data, pool)
            elif kind == b"\x23" and len(data) >= 8:
                pool[number(data[:8])] = data[8:]
            elif kind == b"\x24" and not data:
                roots.setdefault(root_of(pool), record.place)
                pool = {}
            else:
                self.strange(record)
        for block, root in (self.log.roots.items() if self.log else ()):
            if root not in roots:
                self.fault(NOTES, 4, f"no sealed tree has the root of block {block}: what made it changed, or was made"
                           " elsewhere", f"block {block} can't be shown: each coin in it")

    def of_offer(self, record, data, pool):
        shown = transfer_in(data)
        if not shown or shown.tag != self.identity.tag:
            self.fault(NOTES, record.place, "an offer is no transfer of this chain", "the coin that was offered")
            return
        pool[shown.coin] = data
        self.offers[digest(data)] = shown
        owners = self.known.get((shown.coin, shown.parent))
        if owners and not any(lms.is_valid(it[8:], shown.body, shown.sign) for it in owners):
            self.fault(NOTES, record.place, f"an offer of coin {shown.coin} isn't signed by its owner",
                       all_of(shown.coin))
        # (blocks aren't known of offers, so any later parent may be this one)
        self.known.setdefault((shown.coin, None), []).append(shown.owner)

    # ---- leaves

    def of_leaves(self):
        try:
            self.leaves = node_files.leaves_of(self.journals[LEAVES], self.identity)
        except Unfit as error:
            self.fault(LEAVES, error.place, error.why, EVERY_COIN)
            return
        if self.identity.role == "signer":
            self.of_bottom_keys()
        elif self.identity.role == "operator":
            self.of_promises()
        else:
            self.of_sends()

    def of_sends(self):
        spent = {}
        for leaf in self.leaves:
            shown = transfer_in(leaf.message)
            if leaf.message == burnt(self.identity):
                continue
            where = f"leaf {leaf.number}: "
            if not shown or shown.sign or shown.tag != self.identity.tag:
                self.fault(LEAVES, leaf.place, where + "its message is no transfer of this chain", EVERY_COIN)
                continue
            spend = shown.coin, shown.parent
            if spend in spent and (*spend, spent[spend]) not in self.reclaimed:
                self.fault(LEAVES, leaf.place, where + f"coin {shown.coin} was signed away by leaf {spent[spend]}"
                           " already, and not taken back", all_of(shown.coin))
            spent[spend] = leaf.number
            self.of_parent(leaf, where, shown)
        for coin, tip, number_ in self.reclaimed:
            if spent.get((coin, tip)) is None or number_ >= len(self.leaves):
                self.fault(NOTES, 4, f"coin {coin} was taken back from leaf {number_}, which hasn't signed it",
                           EVERY_COIN)
        self.of_shown()

    def of_parent(self, leaf, where, shown):
        """What a wallet signs it has: a deposit of the log, or a history that it keeps."""
        if not self.log:
            return
        owners = self.known.get((shown.coin, shown.parent), [])
        mine = [it for it in owners if number(it[:8]) == self.identity.account]
        if not mine or self.seed and all(it[8:] != self.key() for it in mine):
            self.fault(LEAVES, leaf.place, where + f"coin {shown.coin} at block {shown.parent} was never this key's",
                       EVERY_COIN)

    def of_shown(self):
        """Transfers that are shown elsewhere, and that this key signed, are those of its leaves."""
        for shown in self.seen if self.seed else ():
            leaf = number(shown.sign[:4])
            if not lms.is_valid(self.key(), shown.body, shown.sign):
                continue
            bound = next((it for it in self.leaves if it.number == leaf), None)
            if not bound or bound.message != shown.body:
                self.fault(LEAVES, bound.place if bound else self.journals[LEAVES].end,
                           f"leaf {leaf} has signed a transfer of coin {shown.coin} that isn't its message here: these"
                           " aren't the newest leaves, or they changed", EVERY_COIN)
            elif shown.sign != lms.signature(self.seed, self.identity.types, leaf, shown.body):
                self.fault(LEAVES, bound.place, f"leaf {leaf}: the key makes another signature", EVERY_COIN)

    def of_promises(self):
        for leaf in self.leaves:
            found, where = promise_in(leaf.message), f"leaf {leaf.number}: "
            if leaf.message == burnt(self.identity):
                continue
            if not found or found.tag != self.identity.tag:
                self.fault(LEAVES, leaf.place, where + "its message is no promise of this chain", EVERY_COIN)
                continue
            offer = self.offers.get(found.sum)
            if not offer or (offer.coin, offer.parent) != (found.coin, found.parent):
                what = f"no offer in the notes is what it promises of coin {found.coin}"
                self.fault(LEAVES, leaf.place, where + what, "a promise that can't be kept; and the operator's key")
            if found.due <= found.issued or self.log and found.issued > self.log.blocks:
                self.fault(LEAVES, leaf.place, where + "its blocks can't be", "the operator's key")

    def of_bottom_keys(self):
        if not self.seed:
            return
        name = lms.name_of(self.seed)
        for place, record in self.journals[LEAVES].records:
            if record[:1] != b"\x01":
                continue
            head = (name, record[1:5])
            below = digest(*head, b"\xff\xfc", b"\xff", self.seed)[:16]
            seed = digest(*head, b"\xff\xfb", b"\xff", self.seed)
            key = lms.u32(5) + lms.u32(4) + below + lms.tree(seed, (5, 4), below)[1]
            if record[5:] != key:
                self.fault(LEAVES, place, f"bottom key {number(record[1:5])} isn't the seed's", "this signer's key")


def receipts(check):
    """The receipts that an operator's key has signed, as a run answers them."""
    for leaf in check.leaves:
        found = promise_in(leaf.message)
        if found:
            sign = lms.signature(check.seed, check.identity.types, leaf.number, leaf.message)
            yield f"promised {found.issued} {found.due}", f"0x{(leaf.message + sign).hex()}"
