"""The runs of nodes, and those over a log (FORMATS, "The runs of nodes", "Runs over a log")."""
import lms
from contract import Contract
from grammar import bad_if, HexReader, read_call, read_hex, read_most, read_number, read_run_command, words_of
from grammar import MOST_BLOCKS_OF_A_LOG
from histories import Bundle, handed_bundle, link_walk, opened_items
from journals import BadRecord, FileJournal, LEAVES_FILE, NotJournal, NOTES_FILE
from operator_node import read_operator
from refusals import BadLine, Ended, Refused, refuse_if
from streams import read_lines
from transfers import Promise, PROMISE_LENGTH, PROMISE_MARK
from trees import opened_leaf
from wallet import read_wallet
from watcher import read_watcher
ROLES = {'wallet': read_wallet, 'operator': read_operator, 'watcher': read_watcher}

class Input:
    """The lines of a run in their parts: the log, the line `--`, and what stands behind it."""
    def __init__(self, output):
        self.output = output
        self.lines = read_lines(output)
        self.number = 0

    def each(self, read):
        """What `read` makes of each further line; the end of the run where it is a bad one."""
        for self.number, line in self.lines:
            yield self.checked(lambda: read(line))

    def checked(self, read):
        try:
            return read()
        except BadLine:
            raise Ended(3, 'bad line %d' % self.number)

    def missing(self):
        """Where the input ends before a part does, the line after the last is the bad one."""
        return Ended(3, 'bad line %d' % (self.number + 1))

    def read_log(self, tag=None):
        chain = None
        for part in self.each(lambda line: None if line == b'--' and chain else read_log_line(chain, line)):
            if part is None:
                return chain
            if chain:
                chain.follow(part)
                continue
            chain = part
            if tag is not None and chain.tag != tag:
                raise Refused('other-chain')
        raise self.missing()

def read_log_line(chain, line):
    """The first line is the contract, each further one a call, which is followed since a log has accepted ones."""
    words = words_of(line)
    if chain:
        return read_call(words, HexReader())
    bad_if(len(words) != 4 or words[0] != 'chain')
    return Contract(read_hex(words[1], 32), read_number(words[2]), read_most(words[3], MOST_BLOCKS_OF_A_LOG))

def refused_ends(output, work):
    """A refusal ends the run with its line and the status 1."""
    try:
        return work()
    except Refused as refused:
        raise Ended(1, refused.answer)

class Files:
    """A node and its journals in the current folder."""
    def __init__(self, role):
        self.notes = FileJournal(NOTES_FILE)
        if not self.notes.records:
            raise NotJournal(self.notes.end)
        place, identity = self.notes.records[0]
        try:
            self.node = ROLES[role](identity)
        except BadRecord:
            raise NotJournal(place)
        self.notes.take_all(self.node.take_note, skip=1)
        # Where the node has no key the file of leaves isn't touched.
        self.leaves = None
        if self.node.leaves is not None:
            self.leaves = FileJournal(LEAVES_FILE)
            self.leaves.take_all(self.node.leaves.take)
        for place, record in self.notes.records:
            if not self.node.fits(record):
                raise NotJournal(place)

    def keep(self, plan):
        if plan.note is not None:
            self.notes.append(plan.note)
        if plan.leaf is not None:
            self.leaves.append(plan.leaf)
        self.node.take(plan)

def run_node(output, role):
    try:
        files = Files(role)
    except NotJournal as bad:
        raise Ended(9, 'not a journal %d' % bad.place)
    return refused_ends(output, lambda: answer_commands(output, role, files))

def answer_commands(output, role, files):
    source = Input(output)
    chain = source.read_log(files.node.tag)
    for verb, arguments in source.each(lambda line: read_run_command(role, line)):
        plan = files.node.plan(chain, verb, arguments)
        files.keep(plan)
        output.line(plan.answer)
        if plan.item:
            output.line('0x' + plan.item.hex())
        for call in plan.offers:
            output.line(call.line())
        output.flush()
    return 0

def audit(output, key, receipt):
    return refused_ends(output, lambda: answer_audit(output, key, receipt))

def answer_audit(output, key, receipt):
    source, answers = Input(output), []
    chain = source.read_log()
    for data in source.each(lambda line: bad_if(answers) or read_hex(line.decode('latin-1'))):
        answers.append(audit_answer(chain, key, receipt, data))
        output.line(answers[0])
    if not answers:
        raise source.missing()
    return 0

def audit_answer(chain, key, receipt, data):
    promise = Promise(receipt)
    refuse_if(len(receipt) < PROMISE_LENGTH or receipt[:4] != PROMISE_MARK or promise.tag != chain.tag, 'bad-receipt')
    refuse_if(lms.public_types(key) is None, 'bad-key')
    refuse_if(not lms.verify(key, receipt[:PROMISE_LENGTH], receipt[PROMISE_LENGTH:]), 'not-signed')
    refuse_if(len(chain.blocks) < promise.due, 'not-yet', promise.due)
    bundle = handed_bundle(data)
    refuse_if(bundle.coin != promise.coin, 'other-coin', bundle.coin)
    refuse_if(bundle.tip != promise.due, 'unknown-block', bundle.tip)
    for block, _, leaf in opened_items(chain, bundle, promise.issued):
        refuse_if(leaf != b'' and lms.sha256(leaf) == promise.digest, 'honoured', block)
    return 'convicted %d %d' % (promise.coin, promise.due)

class Archive:
    """The openings that were put, by coin and block, over a log that grows by events."""
    def __init__(self, chain):
        self.chain = chain
        self.kept = {}

    def leaf_at(self, coin):
        def leaf(block):
            opening = self.kept.get((coin, block))
            return opened_leaf(self.chain.root_of(block), coin, opening) if opening else b''
        return leaf

    def walk(self, coin, last):
        return link_walk(self.chain, coin, self.leaf_at(coin), last, ends_broken=True)

    def event(self, call):
        self.chain.follow(call)
        return ['followed']

    def put(self, coin, block, opening):
        refuse_if(coin not in self.chain.coins, 'no-coin')
        deposit = self.chain.coins[coin].block
        refuse_if(block <= deposit or self.chain.root_of(block) is None, 'unknown-block', block)
        refuse_if((coin, block) in self.kept, 'have-block', block)
        for before in self.chain.committed_between(deposit, block - 1):
            refuse_if((coin, before) not in self.kept, 'gap', before)
        refuse_if(opened_leaf(self.chain.root_of(block), coin, opening) is None, 'bad-opening', block)
        self.kept[coin, block] = opening
        return ['kept %d' % block]

    def tip(self, coin):
        refuse_if(coin not in self.chain.coins, 'no-coin')
        return ['tip %d' % self.walk(coin, len(self.chain.blocks))[0]]

    def broken(self, coin):
        broken = self.walk(coin, len(self.chain.blocks))[2] if coin in self.chain.coins else None
        return ['whole' if broken is None else 'broken %d' % broken]

    def bundle(self, coin, tip):
        refuse_if(coin not in self.chain.coins, 'no-coin')
        refuse_if(self.walk(coin, tip)[0] != tip, 'not-tip', tip)
        blocks = self.chain.committed_between(self.chain.coins[coin].block, tip)
        bundle = Bundle(coin, tip, [(block, self.kept[coin, block]) for block in blocks])
        return ['bundled %d' % tip, '0x' + bundle.bytes().hex()]

ARCHIVE_COMMANDS = {
    'put': (read_number, read_number, read_hex),
    'tip': (read_number,),
    'broken': (read_number,),
    'bundle': (read_number, read_number),
}

def read_archive_command(line):
    words = words_of(line)
    if words[0] == 'event':
        bad_if(len(words) < 2)
        return 'event', [read_call(words[1:], HexReader())]
    readers = ARCHIVE_COMMANDS.get(words[0])
    bad_if(readers is None or len(words) != 1 + len(readers))
    return words[0], [read(word) for read, word in zip(readers, words[1:])]

def archive(output):
    return refused_ends(output, lambda: answer_archive(output))

def answer_archive(output):
    source = Input(output)
    kept = Archive(source.read_log())
    for verb, arguments in source.each(read_archive_command):
        for text in getattr(kept, verb)(*arguments):
            output.line(text)
        output.flush()
    return 0
