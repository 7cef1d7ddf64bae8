"""What the three nodes have in common: plans, records and the calls that are due (PROTOCOL, "Nodes")."""
from dataclasses import dataclass, field
from typing import Optional
from calls import Call
from contract import ANSWER_TIME, CHALLENGE_TIME
from journals import LONGEST_RECORD
from lms import number_bytes
from refusals import refuse_if

@dataclass
class Plan:
    """What a command does when it isn't refused: its answer, the records that it adds, what it makes and offers."""
    answer: str
    note: Optional[bytes] = None
    leaf: Optional[bytes] = None
    item: bytes = b''
    offers: list = field(default_factory=list)
    # The bundle that was taken, for those who look at its openings.
    bundle: Optional[object] = None

    def adds_record(self):
        return self.note is not None or self.leaf is not None

class Node:
    """A node over its records. A command is planned first, then its records are taken."""
    leaves = None

    def __init__(self, tag, account):
        self.tag = tag
        self.account = account
        self.notes = 0

    def plan(self, chain, verb, arguments):
        return getattr(self, 'plan_' + verb)(chain, *arguments)

    def take(self, plan):
        if plan.note is not None:
            self.take_note(plan.note)
        if plan.leaf is not None:
            self.leaves.take(plan.leaf)

    def take_note(self, record):
        self.read_note(record)
        self.notes += 1

    def fits(self, record):
        """Whether a note fits what the leaves have bound."""
        return True

    def opened(self):
        return 'opened %d %d' % (self.notes, len(self.leaves.messages) if self.leaves else 0)

def coin_and_tip(coin, tip):
    return number_bytes(coin, 8) + number_bytes(tip, 8)

def refuse_claimed(chain, history):
    """A coin that is withdrawn, or has a standing exit, is neither accepted nor guarded."""
    refuse_if(history.coin in chain.withdrawn, 'withdrawn')
    refuse_exits(chain, history.coin)

def refuse_exits(chain, coin):
    for standing in chain.exits_of(coin):
        refuse_if(True, 'exit-stands', standing.block)

def refuse_long_note(note):
    refuse_if(len(note) > LONGEST_RECORD, 'note-too-long', len(note))

def due_calls(chain, account, coin, links):
    """The calls that are due for a coin with these links: by standing exit, and then in the order of the challenges.
    The first rule that speaks of an exit counts, whether its time is over or not.
    """
    if coin not in chain.coins:
        return []
    blocks = [chain.coins[coin].block] + [link.block for link in links]
    behind = dict(reversed([*zip(blocks, links)]))
    offers = []
    for standing in chain.exits_of(coin):
        challenge = due_challenge(account, standing, blocks[-1], links, behind)
        if challenge is None and standing.block == blocks[-1]:
            offers += due_answers(chain, account, standing, behind)
        elif challenge and chain.clock < standing.start + CHALLENGE_TIME:
            offers.append(challenge)
    return offers

def due_answers(chain, account, standing, behind):
    offers = []
    for challenge in standing.open_challenges():
        link = behind.get(challenge.block)
        if link and chain.clock < challenge.time + ANSWER_TIME:
            offers.append(Call('respond', account, coin=standing.coin, exit=standing.block,
                               challenged=challenge.block, block=link.block, opening=link.opening))
    return offers

def due_challenge(account, standing, tip, links, behind):
    place, parent = {'account': account, 'coin': standing.coin, 'exit': standing.block}, standing.parent or 0
    after, between = behind.get(standing.block), behind.get(parent)
    if after:
        return Call('after', block=after.block, opening=after.opening, **place)
    if standing.block > tip and between:
        return Call('between', block=between.block, opening=between.opening, **place)
    if parent > tip and not standing.challenge_at(tip):
        return Call('before', block=tip, shown=links[-1].opening if links else None, **place)
    return None

def watch_answer(offers):
    return ' '.join(['offers %d' % len(offers)] + [call.kind for call in offers])
