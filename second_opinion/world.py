"""The world of a schedule, line by line (PROTOCOL, "The world of a schedule"; FORMATS, "The lines of a schedule")."""
from dataclasses import dataclass, field
import grammar
import lms
from calls import Call
from contract import Contract
from grammar import bad_if, read_name, read_number
from lms import number_bytes
from operator_node import Operator
from refusals import Ended, Refused
from transfers import owner_bytes, transfer_body
from verdicts import Tracker
from wallet import Wallet
from watcher import Watcher
MOST_WALLETS = 64
MOST_MAIL = 268435456
LARGEST_LEAF = 1023
APPEND_CALLS = 4
OPENING_CALLS = 3

@dataclass
class Party:
    """Who has a name: a node with what it offers, or a rogue with a key."""
    name: str
    kind: str
    account: int
    node: object = None
    key: object = None
    seed: bytes = b''
    down: bool = False
    offers: list = field(default_factory=list)
    # Of a last command that was a watch: the number of accepted calls, and the coins of its offers.
    watched: object = None

def schedule_tag(number):
    return bytes(24) + number_bytes(number, 8)

class World:
    def __init__(self):
        self.chain = None
        self.parties = {}
        self.call_accounts = set()
        self.mail = []
        self.mail_length = 0
        self.tracker = None

    def answer(self, number, line):
        """The answer of the line with this number, or BadLine, or Ended for a mail that is too large."""
        words = grammar.words_of(line)
        self.item = b''
        try:
            answer = self.step(words)
        except Refused as refused:
            answer = refused.answer
        self.mail_length += len(self.item)
        if self.mail_length > MOST_MAIL:
            raise Ended(8, 'too long %d' % number)
        self.mail.append(self.item)
        return answer

    @property
    def line_number(self):
        return len(self.mail) + 1

    def step(self, words):
        bad_if((words[0] == 'chain') != (self.chain is None))
        own = getattr(self, 'line_' + words[0], None) if words[0] in OWN_LINES else None
        if own:
            return own(words[1:])
        if words[0] in ('fund', 'tick', 'call'):
            return self.enter_call(self.read_call(words))
        return self.run_command(*self.read_command(words))

    def owner_of_name(self, word):
        party = self.parties.get(word)
        bad_if(party is None or party.kind not in ('wallet', 'rogue'))
        return owner_bytes(party.account, party.key.public)

    def key(self, word):
        return grammar.read_hex(word, 56) if word.startswith('0x') else self.owner_of_name(word)[8:]

    def owner(self, word):
        return grammar.read_hex(word, 64) if word.startswith('0x') else self.owner_of_name(word)

    def bytes(self, word):
        if not word.startswith('#'):
            return grammar.read_hex(word)
        number = read_number(word[1:])
        return self.mail[number - 1] if 1 <= number <= len(self.mail) else b''

    def node_named(self, word):
        bad_if(word not in self.parties or self.parties[word].node is None)
        return self.parties[word]

    def read_call(self, words):
        call = grammar.read_call(words, self)
        if words[0] == 'call':
            bad_if(self.is_wallet_account(call.account))
            self.call_accounts.add(call.account)
        return call

    def enter_call(self, call):
        note = self.tracker.look_ahead(call)
        answer = self.chain.call(call)
        note(answer, self.line_number)
        self.tracker.see_openings(call.coin, call.openings(), self.line_number)
        return answer

    def line_chain(self, words):
        bad_if(len(words) != 3)
        tag, operator = read_number(words[0]), read_number(words[1])
        self.chain = Contract(schedule_tag(tag), operator,
                              grammar.read_most(words[2], grammar.MOST_BLOCKS_OF_A_SCHEDULE))
        self.parties['op'] = Party('op', 'operator', operator, Operator(self.chain.tag, operator))
        self.tracker = Tracker(self.chain, self.parties)
        return 'chain'

    def line_money(self, words):
        bad_if(len(words) != 1)
        return 'money %d' % self.chain.balance(read_number(words[0]))

    def read_declaration(self, words):
        """Name, account, seed and types; the name has to be new."""
        bad_if(len(words) not in (3, 5))
        name, account, seed = read_name(words[0]), read_number(words[1]), read_number(words[2])
        types = grammar.read_types(words[3:])
        bad_if(name in self.parties)
        return name, account, number_bytes(seed, 32), types

    def line_wallet(self, words):
        name, account, seed, types = self.read_declaration(words)
        wallets = self.tracker.wallets()
        bad_if(len(wallets) >= MOST_WALLETS)
        # The operator is declared as `op`, so its account is among these. A key of another seed is another key.
        bad_if(any(party.account == account for party in self.parties.values()) or account in self.call_accounts)
        bad_if(any(wallet.seed == seed for wallet in wallets))
        node = Wallet(self.chain.tag, account, seed, types)
        self.parties[name] = Party(name, 'wallet', account, node, node.key, seed)
        return 'wallet'

    def is_wallet_account(self, account):
        return any(wallet.account == account for wallet in self.tracker.wallets())

    def line_watcher(self, words):
        bad_if(len(words) != 2)
        name, account = read_name(words[0]), read_number(words[1])
        bad_if(name in self.parties or self.is_wallet_account(account))
        self.parties[name] = Party(name, 'watcher', account, Watcher(self.chain.tag, account))
        return 'watcher'

    def line_rogue(self, words):
        name, account, seed, types = self.read_declaration(words)
        bad_if(self.is_wallet_account(account))
        self.parties[name] = Party(name, 'rogue', account, key=lms.key_of_seed(seed, *types), seed=seed)
        return 'rogue'

    def line_deposit(self, words):
        bad_if(len(words) != 2)
        party, amount = self.parties.get(words[0]), read_number(words[1])
        bad_if(party is None or party.kind != 'wallet')
        return self.enter_call(Call('deposit', party.account, amount=amount, key=party.key.public))

    def line_enter(self, words):
        bad_if(len(words) != 2)
        party, number = self.node_named(words[0]), read_number(words[1])
        if not 1 <= number <= len(party.offers):
            return 'nothing'
        return self.enter_call(party.offers[number - 1])

    def line_sign(self, words):
        bad_if(len(words) not in (5, 6))
        party = self.parties.get(words[0])
        leaf = read_number(words[1], LARGEST_LEAF)
        coin, parent, owner = read_number(words[2]), read_number(words[3]), self.owner(words[4])
        last = read_number(words[5]) if len(words) == 6 else None
        bad_if(party is None or party.kind != 'rogue' or leaf >= party.key.leaves)
        body = transfer_body(self.chain.tag, coin, parent, owner, last)
        self.item = body + party.key.sign(leaf, body)
        return 'signed'

    def line_crash(self, words):
        bad_if(not words)
        party = self.node_named(words[0])
        bad_if(grammar.read_outcome(words[1:])[1] != [])
        self.take_down(party)
        return 'crashed'

    def take_down(self, party):
        party.down = True
        party.offers, party.watched = [], None

    def read_command(self, words):
        """The node, the verb and its arguments."""
        verb, rest = words[0], words[1:]
        if verb in grammar.OPERATOR_COMMANDS:
            party = self.parties['op']
        else:
            bad_if(not rest)
            party, rest = self.node_named(rest[0]), rest[1:]
        bad_if(verb not in grammar.SCHEDULE_COMMANDS[party.kind])
        return party, verb, grammar.read_arguments(verb, rest, self)

    def run_command(self, party, verb, arguments):
        if verb == 'open':
            return self.open_node(party)
        if party.down:
            return 'down'
        plan = self.plan(party, verb, arguments)
        return self.carry_out(party, verb, plan)

    def open_node(self, party):
        party.offers, party.watched = [], None
        if not party.down:
            return 'up'
        party.down = False
        return party.node.opened()

    def plan(self, party, verb, arguments):
        """Each command takes the offers away, and so does a refusal."""
        party.offers, party.watched = [], None
        return party.node.plan(self.chain, verb, arguments)

    def carry_out(self, party, verb, plan):
        """A command that is done: its records, its event, its offers and its item."""
        party.node.take(plan)
        self.note_event(party, verb, plan)
        party.offers = plan.offers
        self.item = plan.item
        return plan.answer

    def note_event(self, party, verb, plan):
        if verb == 'watch':
            party.watched = (self.chain.accepted, {call.coin for call in plan.offers})
        if plan.bundle is not None:
            self.tracker.note_holdings(plan.bundle.coin)
            self.tracker.see_openings(plan.bundle.coin, plan.bundle.items, self.line_number)

    def line_cut(self, words):
        bad_if(len(words) < 3)
        party, calls = self.node_named(words[0]), read_number(words[1])
        gate_open, command = grammar.read_outcome(words[2:])
        bad_if(not command or command[0] not in grammar.COMMANDS)
        named, verb, arguments = self.read_command(command)
        bad_if(named is not party)
        if party.down and verb != 'open':
            return 'down'
        try:
            return self.cut_command(party, verb, arguments, calls, gate_open)
        finally:
            self.take_down(party)

    def cut_command(self, party, verb, arguments, calls, gate_open):
        """PROTOCOL, "Nodes": an append makes four device calls, and the opening of a node that is down three."""
        if verb == 'open':
            return 'stopped' if party.down and calls < OPENING_CALLS else 'done ' + self.open_node(party)
        try:
            plan = self.plan(party, verb, arguments)
        except Refused as refused:
            return 'done ' + refused.answer
        if not plan.adds_record() or calls >= APPEND_CALLS:
            return 'done ' + self.carry_out(party, verb, plan)
        if calls >= 2 and gate_open:
            self.carry_out(party, verb, plan)
            self.item = b''
        return 'stopped'

OWN_LINES = ('chain', 'money', 'wallet', 'watcher', 'rogue', 'deposit', 'enter', 'sign', 'crash', 'cut')
