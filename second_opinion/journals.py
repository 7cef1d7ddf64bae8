"""Journals as bytes and as files (FORMATS, "A journal", "The journal of a key's leaves")."""
import os
from lms import number_bytes
MARK = b'PGJ1'
GATE = 0xa5
LONGEST_RECORD = 16777216
LEAVES_MARKER = b'PGL2'
LONGEST_MESSAGE = 128
OLD_MESSAGE = 116
NOTES_FILE = 'notes.journal'
LEAVES_FILE = 'leaves.journal'
EMPTY_LENGTH = 5

class NotJournal(Exception):
    """Bytes that aren't a journal, or not one of the role, and the place where that shows."""
    def __init__(self, place):
        super().__init__(place)
        self.place = place

class BadRecord(Exception):
    """A record that is none of its journal's role; the reader knows the place of its gate."""

def read_journal(data):
    """The records, each with the place of its gate, and the place of the end."""
    if data[:4] != MARK:
        raise NotJournal(0)
    records, at = [], 4
    while True:
        if at >= len(data):
            raise NotJournal(at)
        if data[at] != GATE:
            return records, at
        length = int.from_bytes(data[at + 1:at + 5], 'big')
        if at + 5 + length > len(data) or length > LONGEST_RECORD:
            raise NotJournal(at)
        records.append((at, data[at + 5:at + 5 + length]))
        at += 5 + length

class FileJournal:
    """A journal in a file of the current folder; a file that isn't there has no bytes."""
    def __init__(self, path):
        self.path = path
        self.records, self.end = read_journal(file_bytes(path))

    def take_all(self, take, skip=0):
        """Hands each record behind the first `skip` to `take`, which raises BadRecord for one of no role."""
        for place, record in self.records[skip:]:
            try:
                take(record)
            except BadRecord:
                raise NotJournal(place)

    def append(self, record):
        """Behind the end byte with a 00 after it, and synced; then the end byte is made a5, and synced."""
        descriptor = os.open(self.path, os.O_RDWR)
        try:
            write_all(descriptor, number_bytes(len(record), 4) + record + b'\x00', self.end + 1)
            os.fsync(descriptor)
            write_all(descriptor, bytes((GATE,)), self.end)
            os.fsync(descriptor)
        finally:
            os.close(descriptor)
        self.end += 5 + len(record)

def write_all(descriptor, data, place):
    while data:
        done = os.pwrite(descriptor, data, place)
        data, place = data[done:], place + done

def file_bytes(path):
    try:
        with open(path, 'rb') as file:
            return file.read()
    except FileNotFoundError:
        return b''

def is_taken(data):
    """Whether a file has something that an `init` leaves alone."""
    try:
        return bool(read_journal(data)[0])
    except NotJournal:
        return len(data) > EMPTY_LENGTH

def begin_file(path):
    """Makes a journal without records, unless that stands there."""
    data = file_bytes(path)
    if data[:4] == MARK and len(data) >= EMPTY_LENGTH and data[4] != GATE:
        return
    descriptor = os.open(path, os.O_RDWR | os.O_CREAT, 0o666)
    try:
        os.ftruncate(descriptor, 0)
        write_all(descriptor, MARK + b'\x00', 0)
        os.fsync(descriptor)
    finally:
        os.close(descriptor)

class KeyLeaves:
    """What the leaves of a key have bound: messages, and the marker between the two forms of record."""
    def __init__(self, capacity):
        self.capacity = capacity
        self.messages = []
        self.marked = False

    def take(self, record):
        if not self.marked and record == LEAVES_MARKER:
            self.marked = True
            return
        message = record[4:] if self.marked else record
        if self.marked:
            number = int.from_bytes(record[:4], 'big')
            if len(record) < 4 or number != len(self.messages) or not 1 <= len(message) <= LONGEST_MESSAGE:
                raise BadRecord
        elif len(message) != OLD_MESSAGE:
            raise BadRecord
        if self.full():
            raise BadRecord
        self.messages.append(message)

    def full(self):
        return len(self.messages) >= self.capacity

    def record_of(self, message):
        """The record that binds the next leaf to the message."""
        return number_bytes(len(self.messages), 4) + message if self.marked else message
