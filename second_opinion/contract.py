"""The root contract: the calls' refusals, answers and effects (PROTOCOL, "The calls", "Money of an exit")."""
from collections import namedtuple
import lms
from refusals import refuse_if
from transfers import owner_account, owner_bytes, spelled_transfer
from trees import opened_leaf, read_opening
EXIT_BOND = 100
CHALLENGE_BOND = 40
CHALLENGE_TIME = 604800
ANSWER_TIME = 302400
EXIT_TIME = 907200
MOST_MONEY = 1 << 62
LAST_TIME = 1 << 40

Coin = namedtuple('Coin', 'amount block owner')

class Exit:
    def __init__(self, call, start, parent, owner, parent_owner):
        self.account = call.account
        self.coin = call.coin
        self.block = call.exit
        self.start = start
        self.parent = parent
        self.owner = owner
        self.parent_owner = parent_owner
        self.challenges = []

    def challenge_at(self, block):
        return next((challenge for challenge in self.challenges if challenge.block == block), None)

    def open_challenges(self):
        return [challenge for challenge in self.challenges if not challenge.answered]

class Challenge:
    def __init__(self, account, block, time, owner):
        self.account = account
        self.block = block
        self.time = time
        self.owner = owner
        self.answered = False

class Contract:
    def __init__(self, tag, operator, most):
        self.tag = tag
        self.operator = operator
        self.most = most
        self.clock = 0
        self.funded = 0
        self.balances = {}
        # Number n is at n - 1: the root of a committed block, or None for a deposit's.
        self.blocks = []
        self.coins = {}
        self.exits = {}
        # Coin, exit and block of each response since the exit was last started, cancelled or finished.
        self.responses = set()
        self.withdrawn = set()
        self.accepted = 0

    def balance(self, account):
        return self.balances.get(account, 0)

    def pay(self, account, amount):
        self.balances[account] = self.balance(account) + amount

    def root_of(self, block):
        """The root of a committed block, or None."""
        return self.blocks[block - 1] if 1 <= block <= len(self.blocks) else None

    def committed_between(self, after, last):
        """The committed blocks above `after` and up to `last`, rising."""
        return [block for block in range(after + 1, min(last, len(self.blocks)) + 1)
                if self.root_of(block) is not None]

    def exits_of(self, coin):
        """The coin's standing exits, in the order in which they were started."""
        return [self.exits[place] for place in self.exits if place[0] == coin]

    def has_root(self, root):
        return root in self.blocks

    def shown_transfer(self, coin, block, opening):
        """The transfer that an opening shows (PROTOCOL, "Words"), or None."""
        root = self.root_of(block)
        leaf = None if root is None else opened_leaf(root, coin, opening)
        return None if leaf is None else spelled_transfer(leaf, self.tag, coin, block)

    def followed_transfer(self, coin, block, opening):
        """That of an accepted call: the opening was tested already, so it is only read."""
        parts = read_opening(opening)
        return None if parts is None else spelled_transfer(parts[0], self.tag, coin, block)

    def shown_owner(self, coin, block, shown):
        """The owner after what is shown: of the deposit where it is None."""
        if shown is None:
            return self.coins[coin].owner if coin in self.coins else None
        transfer = self.followed_transfer(coin, block, shown)
        return transfer.owner if transfer else None

    def call(self, call):
        """The answer, and the effect; a refused call changes nothing."""
        getattr(self, 'refuse_' + call.kind)(call)
        return self.follow(call)

    def follow(self, call):
        """The effect of a call that a log has: a log is the accepted calls, and is taken at its word."""
        self.accepted += 1
        return getattr(self, 'effect_' + call.kind)(call)

    def refuse_fund(self, call):
        refuse_if(self.funded + call.amount > MOST_MONEY, 'sum-too-large')

    def effect_fund(self, call):
        self.funded += call.amount
        self.pay(call.account, call.amount)
        return 'funded'

    def refuse_tick(self, call):
        refuse_if(call.time < self.clock, 'clock-back', self.clock)
        refuse_if(call.time > LAST_TIME, 'clock-too-large')

    def effect_tick(self, call):
        self.clock = call.time
        return 'ticked'

    def refuse_deposit(self, call):
        refuse_if(call.amount == 0, 'bad-amount')
        refuse_if(lms.public_types(call.key) is None, 'bad-key')
        self.refuse_poor(call.account, call.amount)
        refuse_if(len(self.blocks) >= self.most, 'too-many-blocks')

    def effect_deposit(self, call):
        self.pay(call.account, -call.amount)
        self.blocks.append(None)
        coin = len(self.coins) + 1
        self.coins[coin] = Coin(call.amount, len(self.blocks), owner_bytes(call.account, call.key))
        return 'deposited %d %d' % (coin, len(self.blocks))

    def refuse_commit(self, call):
        refuse_if(call.account != self.operator, 'not-operator')
        refuse_if(len(self.blocks) >= self.most, 'too-many-blocks')

    def effect_commit(self, call):
        self.blocks.append(call.root)
        return 'committed %d' % len(self.blocks)

    def refuse_poor(self, account, needs):
        refuse_if(self.balance(account) < needs, 'no-funds', self.balance(account), needs)

    def refuse_absent(self, coin):
        refuse_if(coin not in self.coins, 'no-coin')
        refuse_if(coin in self.withdrawn, 'withdrawn')

    def refuse_start(self, call):
        self.refuse_absent(call.coin)
        coin = self.coins[call.coin]
        refuse_if(call.exit != coin.block, 'bad-block')
        refuse_if(call.account != owner_account(coin.owner), 'not-owner')
        refuse_if((call.coin, call.exit) in self.exits, 'exit-stands')
        self.refuse_poor(call.account, EXIT_BOND)

    def effect_start(self, call):
        return self.begin_exit(call, None, self.shown_owner(call.coin, call.exit, None), None)

    def begin_exit(self, call, parent, owner, parent_owner):
        self.pay(call.account, -EXIT_BOND)
        self.end_exit(call)
        self.exits[call.coin, call.exit] = Exit(call, self.clock, parent, owner, parent_owner)
        return 'started %d' % (self.clock + EXIT_TIME)

    def refuse_exit(self, call):
        self.refuse_absent(call.coin)
        deposit = self.coins[call.coin].block
        refuse_if(self.root_of(call.exit) is None or call.exit <= deposit, 'bad-block')
        if call.shown is None:
            refuse_if(call.parent != deposit, 'bad-block')
            owner = self.coins[call.coin].owner
        else:
            refuse_if(self.root_of(call.parent) is None or not deposit < call.parent < call.exit, 'bad-block')
            shown = self.shown_transfer(call.coin, call.parent, call.shown)
            refuse_if(shown is None, 'bad-opening')
            owner = shown.owner
        transfer = self.shown_transfer(call.coin, call.exit, call.opening)
        refuse_if(transfer is None, 'bad-opening')
        refuse_if(transfer.parent != call.parent, 'not-child')
        refuse_if(not transfer.signed_by(owner), 'bad-signature')
        refuse_if(owner_account(transfer.owner) != call.account, 'not-owner')
        refuse_if((call.coin, call.exit) in self.exits, 'exit-stands')
        self.refuse_poor(call.account, EXIT_BOND)

    def effect_exit(self, call):
        return self.begin_exit(call, call.parent, self.shown_owner(call.coin, call.exit, call.opening),
                               self.shown_owner(call.coin, call.parent, call.shown))

    def standing_exit(self, call):
        refuse_if((call.coin, call.exit) not in self.exits, 'no-exit')
        return self.exits[call.coin, call.exit]

    def challengeable_exit(self, call):
        found = self.standing_exit(call)
        refuse_if(self.clock >= found.start + CHALLENGE_TIME, 'late')
        return found

    def refuse_spend(self, call, spent, owner):
        """The refusals of an opening that has to show a spend of a block by its owner."""
        spend = self.shown_transfer(call.coin, call.block, call.opening)
        refuse_if(spend is None, 'bad-opening')
        refuse_if(spend.parent != spent, 'not-child')
        refuse_if(not spend.signed_by(owner), 'bad-signature')

    def refuse_after(self, call):
        found = self.challengeable_exit(call)
        refuse_if(self.root_of(call.block) is None or call.block <= found.block, 'bad-block')
        self.refuse_spend(call, found.block, found.owner)

    def refuse_between(self, call):
        found = self.challengeable_exit(call)
        refuse_if(found.parent is None or self.root_of(call.block) is None
                  or not found.parent < call.block < found.block, 'bad-block')
        self.refuse_spend(call, found.parent, found.parent_owner)

    def end_exit(self, call):
        """Takes out the exit of this name, or gives None; in a log, whose word is taken, a start does so too."""
        self.responses = {place for place in self.responses if place[:2] != (call.coin, call.exit)}
        return self.exits.pop((call.coin, call.exit), None)

    def effect_after(self, call):
        found = self.end_exit(call)
        if found:
            self.pay(call.account, EXIT_BOND)
            self.give_back(found)
        return 'cancelled'
    effect_between = effect_after

    def give_back(self, found):
        for challenge in found.open_challenges():
            self.pay(challenge.account, CHALLENGE_BOND)

    def refuse_before(self, call):
        found = self.challengeable_exit(call)
        deposit = self.coins[call.coin].block
        refuse_if(found.parent is None, 'bad-block')
        if call.shown is None:
            refuse_if(call.block != deposit or deposit >= found.parent, 'bad-block')
        else:
            refuse_if(self.root_of(call.block) is None or not deposit < call.block < found.parent, 'bad-block')
            refuse_if(self.shown_transfer(call.coin, call.block, call.shown) is None, 'bad-opening')
        refuse_if(found.challenge_at(call.block) is not None, 'challenge-stands')
        self.refuse_poor(call.account, CHALLENGE_BOND)

    def effect_before(self, call):
        self.pay(call.account, -CHALLENGE_BOND)
        found = self.exits.get((call.coin, call.exit))
        if found and found.challenge_at(call.block) is None:
            owner = self.shown_owner(call.coin, call.block, call.shown)
            found.challenges.append(Challenge(call.account, call.block, self.clock, owner))
            found.challenges[-1].answered = (call.coin, call.exit, call.block) in self.responses
        return 'challenged %d' % (self.clock + ANSWER_TIME)

    def refuse_respond(self, call):
        found = self.standing_exit(call)
        challenge = found.challenge_at(call.challenged)
        refuse_if(challenge is None, 'no-challenge')
        refuse_if(challenge.answered, 'answered')
        refuse_if(self.clock >= challenge.time + ANSWER_TIME, 'late')
        refuse_if(self.root_of(call.block) is None or not call.challenged < call.block <= found.parent, 'bad-block')
        self.refuse_spend(call, call.challenged, challenge.owner)

    def effect_respond(self, call):
        self.responses.add((call.coin, call.exit, call.challenged))
        found = self.exits.get((call.coin, call.exit))
        challenge = found.challenge_at(call.challenged) if found else None
        if challenge:
            challenge.answered = True
            self.pay(call.account, CHALLENGE_BOND)
        return 'responded'

    def refuse_finish(self, call):
        found = self.standing_exit(call)
        refuse_if(self.clock < found.start + EXIT_TIME, 'early', found.start + EXIT_TIME)

    def effect_finish(self, call):
        found = self.end_exit(call)
        if found is None:
            # In a log, whose word is taken: no challenge is open.
            found = Exit(call, 0, None, None, None)
        challenges = found.open_challenges()
        if challenges:
            self.pay(challenges[0].account, EXIT_BOND)
            self.give_back(found)
            return 'dropped'
        self.pay(found.account, EXIT_BOND)
        if call.coin in self.withdrawn:
            return 'dropped'
        self.withdrawn.add(call.coin)
        self.pay(found.account, self.coins[call.coin].amount if call.coin in self.coins else 0)
        return 'paid'
