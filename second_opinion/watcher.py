"""The watcher's node (PROTOCOL, "Nodes"; FORMATS, "The journal of a node")."""
from histories import kept_links, read_history
from journals import BadRecord
from lms import number_bytes
from nodes import coin_and_tip, due_calls, Node, Plan, refuse_claimed, refuse_long_note, watch_answer
from refusals import refuse_if
GUARD = b'\x12'
RELEASED = b'\x13'

def watcher_identity(tag, account):
    return b'\x11' + tag + number_bytes(account, 8)

def read_watcher(identity):
    if identity[:1] != b'\x11' or len(identity) != 41:
        raise BadRecord
    return Watcher(identity[1:33], int.from_bytes(identity[33:], 'big'))

class Watcher(Node):
    def __init__(self, tag, account):
        super().__init__(tag, account)
        # Coin and tip of each guard, with its links.
        self.guards = {}

    def read_note(self, record):
        kind, rest = record[:1], record[1:]
        if kind == GUARD:
            bundle, links = kept_links(self.tag, rest)
            if bundle is None:
                raise BadRecord
            self.guards.setdefault((bundle.coin, bundle.tip), links)
        elif kind == RELEASED and len(rest) == 16:
            self.guards.pop((int.from_bytes(rest[:8], 'big'), int.from_bytes(rest[8:], 'big')), None)
        else:
            raise BadRecord

    def plan_guard(self, chain, data):
        history = read_history(chain, data)
        refuse_claimed(chain, history)
        note = GUARD + history.kept_bytes()
        refuse_long_note(note)
        if (history.coin, history.tip) in self.guards:
            note = None
        return Plan('guarded %d %d' % (history.coin, history.tip), note=note, bundle=history.bundle)

    def plan_release(self, chain, coin, tip):
        refuse_if((coin, tip) not in self.guards, 'no-guard')
        return Plan('released', note=RELEASED + coin_and_tip(coin, tip))

    def plan_watch(self, chain):
        offers = []
        for coin, tip in sorted(self.guards):
            offers += due_calls(chain, self.account, coin, self.guards[coin, tip])
        return Plan(watch_answer(offers), offers=offers)
