"""The forms `verify` and `hss` (FORMATS, "Words of the program", "A signer's journals")."""
import lms
from journals import BadRecord, FileJournal, LEAVES_FILE, LONGEST_MESSAGE, NotJournal, NOTES_FILE
from lms import number_bytes, PUBLIC_LENGTH
from refusals import Ended, Refused, refuse_if
SIGNER, BEGUN, BOUND = b'\x31', b'\x01', b'\x02'
LEAVES = 32

def say_valid(output, valid):
    output.line('valid' if valid else 'invalid')
    return 0

def verify(output, key, message, signature):
    return say_valid(output, lms.verify(key, message, signature))

def verify_two_levels(output, key, message, signature):
    return say_valid(output, lms.two_level_verify(key, message, signature))

class Signer:
    """How many bottom keys were begun, and how many leaves of the last one are bound."""
    def __init__(self, seed):
        self.seed = seed
        self.begun = 0
        self.bound = 0

    def take(self, record):
        kind, number, rest = record[:1], int.from_bytes(record[1:5], 'big'), record[5:]
        if kind == BEGUN and len(rest) == PUBLIC_LENGTH and number == self.begun < LEAVES:
            if rest != lms.bottom_key(self.seed, number).public:
                raise BadRecord
            self.begun, self.bound = self.begun + 1, 0
        elif kind == BOUND and 5 <= len(rest) <= 4 + LONGEST_MESSAGE and number == self.begun - 1:
            if int.from_bytes(rest[:4], 'big') != self.bound or self.bound >= LEAVES:
                raise BadRecord
            self.bound += 1
        else:
            raise BadRecord

def open_signer():
    notes = FileJournal(NOTES_FILE)
    if not notes.records:
        raise NotJournal(notes.end)
    place, identity = notes.records[0]
    if identity[:1] != SIGNER or len(identity) != 33:
        raise NotJournal(place)
    if len(notes.records) > 1:
        raise NotJournal(notes.records[1][0])
    signer, leaves = Signer(identity[1:]), FileJournal(LEAVES_FILE)
    leaves.take_all(signer.take)
    return signer, leaves

def keep(signer, leaves, record):
    leaves.append(record)
    signer.take(record)

def sign(output, message):
    try:
        signer, leaves = open_signer()
    except NotJournal as bad:
        raise Ended(9, 'not a journal %d' % bad.place)
    try:
        refuse_if(not 1 <= len(message) <= LONGEST_MESSAGE, 'bad-length', len(message))
        needs_key = signer.begun == 0 or signer.bound == LEAVES
        refuse_if(needs_key and signer.begun == LEAVES, 'key-spent', LEAVES)
    except Refused as refused:
        raise Ended(1, refused.answer)
    if needs_key:
        number = number_bytes(signer.begun, 4)
        keep(signer, leaves, BEGUN + number + lms.bottom_key(signer.seed, signer.begun).public)
    number, leaf = signer.begun - 1, signer.bound
    keep(signer, leaves, BOUND + number_bytes(number, 4) + number_bytes(leaf, 4) + message)
    output.line('signed %d %d' % (number, leaf))
    output.line('0x' + lms.two_level_signature(signer.seed, number, leaf, message).hex())
    return 0
