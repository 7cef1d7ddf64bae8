"""Verdicts and the exhibit (PROTOCOL, "What is held, attended, safe and exhibited")."""
import lms
from contract import ANSWER_TIME, CHALLENGE_TIME
from transfers import spelled_transfer
from trees import read_opening
VERDICTS = ('held', 'paid', 'away', 'lost', 'unattended')

class Tracker:
    """Looks at each event of a trace. A holding is a wallet's name, a coin and a block."""
    def __init__(self, chain, parties):
        self.chain = chain
        self.parties = parties
        self.ever_held = set()
        self.paid = set()
        self.losses = {}
        self.unattended = {}
        self.forgery = None
        self.looked_at = set()

    def wallets(self):
        return [party for party in self.parties.values() if party.kind == 'wallet']

    def holds(self, wallet, coin, block):
        return (block in wallet.node.tips(self.chain, coin) and coin not in self.chain.withdrawn
                and wallet.node.binding_leaf(coin, block) is None)

    def holdings(self, coin):
        return [(wallet.name, coin, block) for wallet in self.wallets()
                for block in sorted(wallet.node.tips(self.chain, coin)) if self.holds(wallet, coin, block)]

    def note_holdings(self, coin):
        self.ever_held.update(self.holdings(coin))

    def look_ahead(self, call):
        """What to note of this call where it is accepted: a list of functions of the answer and the line."""
        if call.kind == 'tick':
            missed = [holding for coin in self.met_coins(call.time) for holding in self.holdings(coin)
                      if not self.attended(holding)]
            return lambda answer, line: [self.unattended.setdefault(holding, line) for holding in missed]
        found = self.chain.exits.get((call.coin, call.exit))
        if call.kind == 'finish' and found:
            holdings = self.holdings(call.coin)
            return lambda answer, line: self.finished(found, holdings, answer, line)
        if call.kind in ('after', 'between') and found:
            return lambda answer, line: self.own_exit_failed(found, line)
        if call.kind == 'deposit':
            return lambda answer, line: self.note_holdings(len(self.chain.coins))
        return lambda answer, line: None

    def met_coins(self, time):
        """The coins of which a tick to this time meets a deadline."""
        met = set()
        for found in self.chain.exits.values():
            ends = [found.start + CHALLENGE_TIME]
            ends += [challenge.time + ANSWER_TIME for challenge in found.open_challenges()]
            if any(self.chain.clock < end <= time for end in ends):
                met.add(found.coin)
        return sorted(met)

    def attended(self, holding):
        name, coin, block = holding
        for party in self.parties.values():
            guards = party.kind == 'watcher' and (coin, block) in party.node.guards
            if (party.name == name or guards) and party.watched:
                accepted, coins = party.watched
                if accepted == self.chain.accepted and coin not in coins:
                    return True
        return False

    def own_exit_failed(self, found, line):
        for wallet in self.wallets():
            if wallet.account == found.account:
                self.losses.setdefault((wallet.name, found.coin, found.block), line)

    def finished(self, found, holdings, answer, line):
        if answer == 'dropped':
            self.own_exit_failed(found, line)
            return
        for wallet in self.wallets():
            if wallet.account == found.account:
                self.paid.add((wallet.name, found.coin, found.block))
        for holding in holdings:
            if self.parties[holding[0]].account != found.account:
                self.losses.setdefault(holding, line)

    def see_openings(self, coin, openings, line):
        wallets = self.wallets()
        for block, opening in openings:
            place = (coin, block, opening, len(wallets))
            if self.forgery is not None or place in self.looked_at:
                continue
            self.looked_at.add(place)
            leaf = read_opening(opening)[0]
            transfer = spelled_transfer(leaf, self.chain.tag, coin, block)
            if transfer and any(self.forged(wallet, transfer) for wallet in wallets):
                self.forgery = line

    def forged(self, wallet, transfer):
        if transfer.body in wallet.node.leaves.messages:
            return False
        return lms.verify(wallet.node.key.public, transfer.body, transfer.signature)

    def exhibit(self):
        # A collision of SHA-256 can't be written down, so none is looked for.
        return 'no exhibit' if self.forgery is None else 'forgery %d' % self.forgery

    def verdict(self, name, coin, block):
        holding = (name, coin, block)
        if self.parties[name].node.binding_leaf(coin, block) is not None:
            return 'away'
        if holding in self.paid:
            return 'paid'
        if holding in self.losses:
            line = self.unattended.get(holding)
            return 'lost' if line is None or line >= self.losses[holding] else 'unattended %d' % line
        return 'held'

    def verdicts(self):
        """A wallet, a coin and a verdict each: by declaration, then by rising coin, at the greatest block."""
        greatest = {}
        for name, coin, block in self.ever_held:
            greatest[name, coin] = max(block, greatest.get((name, coin), 0))
        return [(wallet.name, coin, self.verdict(wallet.name, coin, greatest[wallet.name, coin]))
                for wallet in self.wallets()
                for coin in sorted(coin for name, coin in greatest if name == wallet.name)]
