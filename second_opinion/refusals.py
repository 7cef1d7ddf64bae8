"""What ends a call, a command or a run."""
class Refused(Exception):
    """A call or a command that is refused: the cause and its numbers (FORMATS, "What is written")."""

    def __init__(self, cause, *numbers):
        super().__init__(' '.join([cause] + [str(number) for number in numbers]))

    @property
    def answer(self):
        return 'refused ' + str(self)

class BadLine(Exception):
    """A line that is in none of the tables, or breaks a rule of declarations."""

class Ended(Exception):
    """The end of a run before its last line: the status and the last line (OUTPUT, the table)."""
    def __init__(self, status, last_line=None):
        super().__init__(last_line)
        self.status = status
        self.last_line = last_line

def refuse_if(applies, cause, *numbers):
    if applies:
        raise Refused(cause, *numbers)
