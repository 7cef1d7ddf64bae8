"""The input by lines and the output by texts (FORMATS, "Limits"; OUTPUT, the table)."""
import os
from refusals import Ended
LONGEST_LINE = 8388608
LONGEST_INPUT = 67108864
MOST_LINES = 200000
CHUNK = 65536

class WriteFault(Exception):
    pass

class Output:
    def __init__(self):
        self.texts = []
        self.length = 0

    def line(self, text):
        self.texts.append(text + '\n')
        self.length += len(text) + 1
        if self.length > CHUNK:
            self.flush()

    def flush(self):
        data = ''.join(self.texts).encode('ascii')
        self.texts, self.length = [], 0
        try:
            while data:
                data = data[os.write(1, data):]
        except OSError:
            raise WriteFault

def read_lines(output):
    """Each line with its number, without its line feed. What was answered is written before more is read.
    At one line a limit comes before a failed read. The last line may lack its line feed.
    """
    waiting, start, number, ended = b'', 0, 1, False
    while True:
        end = waiting.find(b'\n')
        complete = end >= 0
        length = end if complete else len(waiting)
        last_byte = start + length + (1 if complete else 0)
        exists = complete or bool(waiting)
        if exists and (number > MOST_LINES or length > LONGEST_LINE or last_byte > LONGEST_INPUT):
            raise Ended(8, 'too long %d' % number)
        if complete or (ended and waiting):
            line, waiting = waiting[:length], waiting[length + 1:]
            yield number, line
            start, number = last_byte, number + 1
        elif ended:
            return
        else:
            waiting, ended = read_more(output, waiting)

def read_more(output, waiting):
    output.flush()
    try:
        chunk = os.read(0, CHUNK)
    except OSError:
        raise Ended(4, 'read fault')
    return waiting + chunk, not chunk
