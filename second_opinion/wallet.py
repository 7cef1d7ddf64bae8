"""The wallet's node (PROTOCOL, "Nodes"; FORMATS, "The journal of a node", "What is written")."""
import lms
from calls import Call
from histories import handed_bundle, kept_links, read_history, refuse_present
from journals import BadRecord, KeyLeaves, LEAVES_MARKER
from lms import number_bytes
from nodes import coin_and_tip, due_calls, Node, Plan, refuse_claimed, refuse_exits, refuse_long_note, watch_answer
from refusals import refuse_if
from transfers import owner_bytes, read_body, transfer_body
ACCEPTED = b'\x02'
LEAVING = b'\x03'
TAKEN_BACK = b'\x05'

def wallet_identity(tag, account, seed, types):
    rest = tag + number_bytes(account, 8) + seed
    return b'\x01' + rest if types == (5, 4) else b'\x04' + b''.join(number_bytes(part, 4) for part in types) + rest

def read_wallet(identity):
    """The wallet of its identity, or BadRecord."""
    kind, rest, types = identity[:1], identity[1:], (5, 4)
    if kind == b'\x04':
        types, rest = lms.public_types(rest), rest[8:]
    if kind not in (b'\x01', b'\x04') or len(rest) != 72 or types is None or (kind == b'\x04' and types == (5, 4)):
        raise BadRecord
    return Wallet(rest[:32], int.from_bytes(rest[32:40], 'big'), rest[40:], types)

class BodyLeaves(KeyLeaves):
    """A wallet's leaves: each message is a body, of the longer form behind the marker alone."""
    def take(self, record):
        super().take(record)
        if record != LEAVES_MARKER and read_body(self.messages[-1]) is None:
            raise BadRecord

class Wallet(Node):
    def __init__(self, tag, account, seed, types=(5, 4)):
        super().__init__(tag, account)
        self.key = lms.key_of_seed(seed, *types)
        self.leaves = BodyLeaves(self.key.leaves)
        # Coin and tip of each accepted bundle, with its links.
        self.accepted = {}
        self.left = set()
        self.taken_back = set()
        # Coin and parent of each body that a leaf binds, with its leaves; the messages are read once.
        self.bindings = {}
        self.bindings_read = 0

    @property
    def owner(self):
        return owner_bytes(self.account, self.key.public)

    def read_note(self, record):
        kind, rest = record[:1], record[1:]
        if kind == ACCEPTED:
            bundle, links = kept_links(self.tag, rest)
            if bundle is None:
                raise BadRecord
            self.accepted.setdefault((bundle.coin, bundle.tip), links)
        elif kind == LEAVING and len(rest) == 16:
            self.left.add((int.from_bytes(rest[:8], 'big'), int.from_bytes(rest[8:], 'big')))
        elif kind == TAKEN_BACK and len(rest) == 20:
            self.taken_back.add(int.from_bytes(rest[16:], 'big'))
        else:
            raise BadRecord

    def fits(self, record):
        """A transfer that was taken back has a last block, and the coin and the tip of its note."""
        if record[:1] != TAKEN_BACK:
            return True
        leaf = int.from_bytes(record[17:], 'big')
        body = read_body(self.leaves.messages[leaf]) if leaf < len(self.leaves.messages) else None
        return body is not None and body.last is not None and record[1:17] == coin_and_tip(body.coin, body.parent)

    def tips(self, chain, coin):
        found = {tip for number, tip in self.accepted if number == coin}
        if coin in chain.coins and chain.coins[coin].owner[:8] == number_bytes(self.account, 8):
            if chain.coins[coin].owner == self.owner:
                found.add(chain.coins[coin].block)
        return found

    def read_bindings(self):
        for leaf in range(self.bindings_read, len(self.leaves.messages)):
            transfer = read_body(self.leaves.messages[leaf])
            self.bindings.setdefault((transfer.coin, transfer.parent), []).append(leaf)
        self.bindings_read = len(self.leaves.messages)

    def last_leaf(self, coin):
        """The last leaf that names the coin, whatever became of its transfer, or None."""
        self.read_bindings()
        named = [leaves[-1] for (bound, _), leaves in self.bindings.items() if bound == coin]
        return max(named, default=None)

    def binding_leaf(self, coin, tip):
        """The first leaf that isn't taken back and names the coin with this parent, or None."""
        self.read_bindings()
        bound = [leaf for leaf in self.bindings.get((coin, tip), []) if leaf not in self.taken_back]
        return bound[0] if bound else None

    def state(self, chain, coin):
        """A word, the tip and the leaf, by the greatest tip that the wallet has of the coin."""
        tip = max(self.tips(chain, coin), default=None)
        if tip is None or coin not in chain.coins or coin in chain.withdrawn:
            return 'nothing', None, None
        leaf = self.binding_leaf(coin, tip)
        if leaf is not None:
            return 'sending', tip, leaf
        return ('leaving' if (coin, tip) in self.left else 'held'), tip, None

    def plan_who(self, chain):
        return Plan('0x' + self.owner.hex())

    def plan_state(self, chain, coin):
        return Plan(' '.join(str(part) for part in self.state(chain, coin) if part is not None))

    def plan_accept(self, chain, data):
        history = read_history(chain, data)
        refuse_if(history.owner != self.owner, 'not-mine')
        refuse_claimed(chain, history)
        note = ACCEPTED + history.kept_bytes()
        refuse_long_note(note)
        if history.tip in self.tips(chain, history.coin):
            # What the wallet has already adds no record.
            note = None
        return Plan('accepted %d %d' % (history.coin, history.tip), note=note, bundle=history.bundle)

    def plan_send(self, chain, coin, owner, last=None):
        word, tip, _ = self.state(chain, coin)
        refuse_if(word in ('nothing', 'sending'), 'not-held')
        refuse_if(word == 'leaving', 'leaving')
        refuse_if(last is not None and last <= len(chain.blocks), 'bad-last', len(chain.blocks))
        refuse_if(last is not None and not self.leaves.marked, 'old-journal')
        refuse_if(self.leaves.full(), 'key-spent', len(self.leaves.messages))
        body = transfer_body(self.tag, coin, tip, owner, last)
        leaf = len(self.leaves.messages)
        return Plan('sent %d' % leaf, leaf=self.leaves.record_of(body), item=body + self.key.sign(leaf, body))

    def plan_again(self, chain, coin):
        leaf = self.last_leaf(coin)
        refuse_if(leaf is None, 'not-sending')
        body = self.leaves.messages[leaf]
        return Plan('sent %d' % leaf, item=body + self.key.sign(leaf, body))

    def plan_leave(self, chain, coin):
        word, tip, _ = self.state(chain, coin)
        refuse_if(word in ('nothing', 'sending'), 'not-held')
        links = self.accepted.get((coin, tip), [])
        if not links:
            start = Call('start', self.account, coin=coin, exit=tip)
        else:
            parent, shown = chain.coins[coin].block, None
            if len(links) > 1:
                parent, shown = links[-2].block, links[-2].opening
            start = Call('exit', self.account, coin=coin, parent=parent, shown=shown, exit=tip,
                         opening=links[-1].opening)
        # Who leaves already is given the start again: the offers are lost with a crash.
        note = None if word == 'leaving' else LEAVING + coin_and_tip(coin, tip)
        return Plan('leaving %d' % tip, note=note, offers=[start])

    def plan_reclaim(self, chain, data):
        bundle = handed_bundle(data)
        word, tip, leaf = self.state(chain, bundle.coin)
        refuse_if(word != 'sending', 'not-sending')
        last = read_body(self.leaves.messages[leaf]).last
        refuse_if(last is None, 'no-last')
        refuse_if(len(chain.blocks) < last, 'not-yet', last)
        refuse_if(bundle.tip != last, 'unknown-block', bundle.tip)
        refuse_present(chain, bundle, tip)
        refuse_exits(chain, bundle.coin)
        note = TAKEN_BACK + coin_and_tip(bundle.coin, tip) + number_bytes(leaf, 4)
        return Plan('reclaimed %d %d' % (bundle.coin, leaf), note=note, bundle=bundle)

    def plan_migrate(self, chain):
        refuse_if(self.leaves.marked, 'already-new')
        return Plan('migrated', leaf=LEAVES_MARKER)

    def plan_watch(self, chain):
        coins = {coin for coin, _ in self.accepted}
        account = number_bytes(self.account, 8)
        coins |= {number for number, coin in chain.coins.items() if coin.owner[:8] == account}
        offers = []
        for coin in sorted(coins):
            word, tip, _ = self.state(chain, coin)
            if word in ('held', 'leaving'):
                offers += due_calls(chain, self.account, coin, self.accepted.get((coin, tip), []))
        return Plan(watch_answer(offers), offers=offers)
