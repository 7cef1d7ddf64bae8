"""The operator's node (PROTOCOL, "Nodes" and "Receipts"; FORMATS, "The runs of nodes")."""
import lms
from calls import Call
from histories import Bundle, link_walk
from journals import BadRecord, KeyLeaves, LEAVES_MARKER
from lms import number_bytes
from nodes import Node, Plan
from refusals import refuse_if
from transfers import PROMISE_LENGTH, PROMISE_MARK, promise_bytes, read_transfer
from trees import tree_of
OFFER = b'\x22'
LAID = b'\x23'
SEAL = b'\x24'
LONGEST_LEAF = 65536

def operator_identity(tag, account, seed=None):
    rest = tag + number_bytes(account, 8)
    return b'\x21' + rest if seed is None else b'\x26' + rest + seed

def read_operator(identity):
    kind = identity[:1]
    if (kind, len(identity)) not in ((b'\x21', 41), (b'\x26', 73)):
        raise BadRecord
    return Operator(identity[1:33], int.from_bytes(identity[33:41], 'big'), identity[41:] or None)

class PromiseLeaves(KeyLeaves):
    """An operator's leaves: each message is a promise, and so none stands before the marker."""
    def take(self, record):
        binds_promise = self.marked and len(record) == 4 + PROMISE_LENGTH and record[4:8] == PROMISE_MARK
        if not binds_promise and (self.marked or record != LEAVES_MARKER):
            raise BadRecord
        super().take(record)

class Operator(Node):
    def __init__(self, tag, account, seed=None):
        super().__init__(tag, account)
        self.key = lms.key_of_seed(seed) if seed else None
        self.leaves = PromiseLeaves(self.key.leaves) if self.key else None
        self.pool = {}
        self.trees = {}

    def read_note(self, record):
        kind, rest = record[:1], record[1:]
        transfer = read_transfer(rest, self.tag)
        if kind == OFFER and transfer:
            self.pool[transfer.coin] = rest
        elif kind == LAID and len(rest) >= 8:
            self.lay(int.from_bytes(rest[:8], 'big'), rest[8:])
        elif record == SEAL:
            tree = self.pool_tree()
            self.trees[tree.root] = tree
            self.pool = {}
        else:
            raise BadRecord

    def lay(self, coin, data):
        """The empty bytes are an empty leaf, so the coin has none then."""
        self.pool.pop(coin, None)
        if data:
            self.pool[coin] = data

    def pool_tree(self):
        return tree_of(tuple(sorted(self.pool.items())))

    def tree_of(self, chain, block):
        return self.trees.get(chain.root_of(block))

    def refuse_unknown(self, chain, blocks):
        for block in blocks:
            refuse_if(self.tree_of(chain, block) is None, 'unknown-block', block)

    def link_tip(self, chain, coin):
        """The coin's last link over the blocks whose trees the operator has, and its owner."""
        def leaf_at(block):
            tree = self.tree_of(chain, block)
            return tree.leaves.get(coin, b'') if tree else b''
        return link_walk(chain, coin, leaf_at, len(chain.blocks))[:2]

    def bundle_bytes(self, chain, coin, after, tip):
        blocks = chain.committed_between(after, tip)
        self.refuse_unknown(chain, blocks)
        return Bundle(coin, tip, [(block, self.tree_of(chain, block).opening(coin)) for block in blocks]).bytes()

    def checked_offer(self, chain, data):
        transfer = read_transfer(data, self.tag)
        refuse_if(transfer is None, 'not-transfer')
        refuse_if(transfer.coin not in chain.coins, 'no-coin')
        tip, owner = self.link_tip(chain, transfer.coin)
        refuse_if(transfer.parent != tip, 'wrong-parent', tip)
        refuse_if(not transfer.signed_by(owner), 'bad-signature')
        refuse_if(transfer.last is not None and transfer.last <= len(chain.blocks), 'too-late', transfer.last)
        waiting = [self.pool] + [tree.leaves for root, tree in self.trees.items() if not chain.has_root(root)]
        refuse_if(any(transfer.coin in leaves for leaves in waiting), 'pool-has-coin')
        return transfer

    def plan_offer(self, chain, data):
        transfer = self.checked_offer(chain, data)
        return Plan('pooled %d' % transfer.coin, note=OFFER + data)

    def plan_lay(self, chain, coin, data):
        refuse_if(len(data) > LONGEST_LEAF, 'leaf-too-long', len(data))
        return Plan('laid %d' % coin, note=LAID + number_bytes(coin, 8) + data)

    def plan_seal(self, chain):
        commit = Call('commit', self.account, root=self.pool_tree().root)
        return Plan('sealed %d' % len(self.pool), note=SEAL, offers=[commit])

    def plan_bundle(self, chain, coin, tip):
        refuse_if(coin not in chain.coins, 'no-coin')
        deposit = chain.coins[coin].block
        if tip == 0:
            # No block is numbered 0; `make` asks for this one, so it stands for the last link.
            tip = self.link_tip(chain, coin)[0]
        refuse_if(tip != deposit and (tip < deposit or chain.root_of(tip) is None), 'unknown-block', tip)
        return Plan('bundled %d' % tip, item=self.bundle_bytes(chain, coin, deposit, tip))

    def plan_prove(self, chain, coin, block):
        self.refuse_unknown(chain, [block])
        return Plan('proved', item=self.tree_of(chain, block).opening(coin))

    def plan_absences(self, chain, coin, after, last):
        refuse_if(last > len(chain.blocks), 'unknown-block', last)
        return Plan('bundled %d' % last, item=self.bundle_bytes(chain, coin, after, last))

    def plan_receipt(self, chain, data, due):
        refuse_if(self.key is None, 'no-key')
        issued = len(chain.blocks)
        refuse_if(due <= issued, 'bad-due', issued)
        refuse_if(not self.leaves.marked, 'old-journal')
        refuse_if(self.leaves.full(), 'key-spent', len(self.leaves.messages))
        transfer = self.checked_offer(chain, data)
        promise = promise_bytes(self.tag, transfer.coin, transfer.parent, data, issued, due)
        signature = self.key.sign(len(self.leaves.messages), promise)
        return Plan('promised %d %d' % (issued, due), note=OFFER + data, leaf=self.leaves.record_of(promise),
                    item=promise + signature)

    def plan_migrate(self, chain):
        refuse_if(self.key is None, 'no-key')
        refuse_if(self.leaves.marked, 'already-new')
        return Plan('migrated', leaf=LEAVES_MARKER)
