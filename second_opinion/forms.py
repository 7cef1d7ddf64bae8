"""The words of the program, and `init` (FORMATS, "Words of the program")."""
import replay
import runs
import signer
from grammar import bad_if, read_hex, read_number, read_types
from journals import begin_file, file_bytes, FileJournal, is_taken, LEAVES_FILE, NOTES_FILE
from operator_node import operator_identity
from refusals import BadLine, Ended
from wallet import wallet_identity
from watcher import watcher_identity
USAGE = 'usage: plasma replay | brief | wallet | operator | watcher | init | make | verify | hss | audit | archive'
MOST_ROUNDS = 10000

def make_node(output, identity, has_leaves):
    """Makes the files of a node, unless one of them has something in it: the leaves first."""
    for path in [NOTES_FILE] + ([LEAVES_FILE] if has_leaves else []):
        if is_taken(file_bytes(path)):
            raise Ended(10, 'already made %d' % len(file_bytes(path)))
    if has_leaves:
        begin_file(LEAVES_FILE)
    begin_file(NOTES_FILE)
    FileJournal(NOTES_FILE).append(identity)
    output.line('made')
    return 0

def form_init(output, words):
    bad_if(len(words) < 3)
    role, tag, account, rest = words[0], read_hex(words[1], 32), read_number(words[2]), words[3:]
    if role == 'wallet':
        bad_if(not rest)
        identity = wallet_identity(tag, account, read_hex(rest[0], 32), read_types(rest[1:]))
        return lambda: make_node(output, identity, True)
    if role == 'operator':
        bad_if(len(rest) > 1)
        identity = operator_identity(tag, account, read_hex(rest[0], 32) if rest else None)
        return lambda: make_node(output, identity, bool(rest))
    bad_if(role != 'watcher' or rest)
    return lambda: make_node(output, watcher_identity(tag, account), False)

def form_hss(output, words):
    bad_if(not words)
    if words[0] == 'init':
        bad_if(len(words) != 2)
        identity = signer.SIGNER + read_hex(words[1], 32)
        return lambda: make_node(output, identity, True)
    if words[0] == 'sign':
        bad_if(len(words) != 2)
        message = read_hex(words[1])
        return lambda: signer.sign(output, message)
    bad_if(words[0] != 'verify' or len(words) != 4)
    key, message, signature = [read_hex(word) for word in words[1:]]
    return lambda: signer.verify_two_levels(output, key, message, signature)

def form_make(output, words):
    bad_if(len(words) != 2)
    seed, count = read_number(words[0]), read_number(words[1], MOST_ROUNDS)
    return lambda: replay.make(output, seed, count)

def form_verify(output, words):
    bad_if(len(words) != 3)
    key, message, signature = [read_hex(word) for word in words]
    return lambda: signer.verify(output, key, message, signature)

def form_audit(output, words):
    bad_if(len(words) != 2)
    key, receipt = read_hex(words[0], 56), read_hex(words[1])
    return lambda: runs.audit(output, key, receipt)

def plain_form(work):
    """A form without further words."""
    def form(output, words):
        bad_if(words)
        return lambda: work(output)
    return form

FORMS = {
    'replay': plain_form(replay.replay),
    'brief': plain_form(replay.brief),
    'wallet': plain_form(lambda output: runs.run_node(output, 'wallet')),
    'operator': plain_form(lambda output: runs.run_node(output, 'operator')),
    'watcher': plain_form(lambda output: runs.run_node(output, 'watcher')),
    'archive': plain_form(runs.archive),
    'init': form_init,
    'hss': form_hss,
    'make': form_make,
    'verify': form_verify,
    'audit': form_audit,
}

def read_form(output, words):
    """What the words after the program's name ask for; the usage line where they are no form."""
    try:
        bad_if(not words or words[0] not in FORMS)
        return FORMS[words[0]](output, words[1:])
    except BadLine:
        raise Ended(2, USAGE)
