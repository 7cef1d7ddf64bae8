"""A second, plain implementation from the pages: python3 main.py WORDS < input."""
import os
import sys
from forms import read_form
from refusals import Ended
from streams import Output, WriteFault
WRITE_FAULT, DEVICE_FAULT, NO_MEMORY = 5, 6, 7

def run(words):
    output = Output()
    try:
        try:
            status = read_form(output, words)()
        except Ended as ended:
            status = ended.status
            output.line(ended.last_line)
        except OSError:
            status = DEVICE_FAULT
            output.line('device fault')
        output.flush()
        return status
    except WriteFault:
        return WRITE_FAULT
    except MemoryError:
        return NO_MEMORY

if __name__ == '__main__':
    sys.exit(run([os.fsencode(word).decode('latin-1') for word in sys.argv[1:]]))
