"""Reads a log of a root contract, and what a node's run, an audit and an archive read behind it: for tools/why. It says
which line isn't as it should be, and why, by the tables of docs/FORMATS.md.
"""
from grammar import count, near, shown
from lines import Found, Wrong, look, no_room, read_tokens

END = "--"
# A log's `chain` line, and the most that it may name.
CHAIN, MOST = "chain <tag> <operator> <most>", 4_294_967_295
TAG_BYTES = 32
OF_A_LOG = ("fund", "tick", "call")
# Whose commands they are, as a person says it.
WHOSE = {"wallet": "a wallet's", "operator": "an operator's", "watcher": "a watcher's", "archive": "an archive's"}
# What a schedule has in place of bytes and of owners.
NAMES = "a run over a log has no names"


def is_log(data):
    """Whether a file begins as a log does, and not as a schedule."""
    first = data[:200].split(b"\n")[0].lstrip(b"\xef\xbb\xbf").split()
    return first[:1] == [b"chain"] and len(first) > 1 and first[1].lower().startswith(b"0x") or END.encode() in (
        line.rstrip(b"\r") for line in data.split(b"\n"))


class Reader:
    """The lines of an input, one after the other, for a form; without one, for any."""

    def __init__(self, grammar, form=None):
        self.grammar, self.form, self.behind, self.left = grammar, form, False, 1

    def take(self, text, number):
        """A line that is as it should be; else what is wrong with it."""
        if text.lstrip(" \t").startswith("#") or (text.startswith(END) and text.strip() != END):
            raise Wrong(f"there are no comments here, and this line begins with {shown(text.split()[0][:2])}")
        if text.rstrip("\r") != END:
            look(text)
        if number == 1:
            self.chain(text.split(" "))
        elif not self.behind:
            self.of_log(text)
        elif text.rstrip() == END:
            raise Wrong("a second line '--': it stands once, between the log and the commands")
        elif self.form == "audit":
            self.bundle(text)
        else:
            self.command(text.split(" "))

    # ---- the log

    def chain(self, words):
        if words[0] != "chain":
            raise Wrong("the input begins with the log of the root chain, whose first line is a 'chain' line", CHAIN)
        if len(words) != 4:
            raise Wrong(f"the line has {count(len(words), 'word')}, and it has 4", CHAIN)
        if words[1].isdigit() and len(words[1]) < 20:
            raise Wrong(f"<tag>: '{words[1]}' is a number, as in a schedule, and a log has the hex of 32 bytes: "
                        f"{'0x' + '0' * 8}..{int(words[1]):x}, by  printf '0x%064x' {words[1]}", CHAIN)
        for token, wrong in (("tag", self.grammar.no_hex(words[1], TAG_BYTES)),
                             ("operator", self.grammar.no_number(words[2])),
                             ("most", self.grammar.no_number(words[3], 1, MOST))):
            if wrong:
                raise Wrong(f"<{token}>: {wrong}", CHAIN)

    def of_log(self, text):
        if text.rstrip("\r") == END:
            if text != END:
                raise Wrong("the line '--' ends with a carriage return, as files of Windows have it: take them off "
                            "with  sed -i 's/\\r$//' FILE")
            self.behind = True
            return
        words = text.split(" ")
        if words[0] == "chain":
            raise Wrong("a second 'chain' line: a log's first line makes the chain")
        if words[0] not in OF_A_LOG:
            raise Wrong(self.no_log_line(words))
        if words[0] == "call":
            self.call(words)
        else:
            tokens, form = self.grammar.lines[words[0]]
            self.tokens(words[0], words[1:], tokens, form)

    def no_log_line(self, words):
        """Why a word begins no line of a log."""
        if words[0].isdigit():
            return f"it begins with a number, {shown(words[0])}: answers are no part of a log, which has the calls"
        if any(words[0] in commands for commands in self.grammar.runs.values()):
            return f"'{words[0]}' is a command: commands stand behind the line '--', which ends the log"
        if words[0] in self.grammar.calls:
            return f"'{words[0]}' is a call of an account: write 'call <account> {words[0]} ..'"
        best = near(words[0], OF_A_LOG)
        return f"no line of a log begins with {shown(words[0])}: a log has {', '.join(OF_A_LOG)}" + (
            f". Did you mean '{best}'?" if best else "")

    def call(self, words):
        if len(words) < 3 or words[2] not in self.grammar.calls:
            best = near(words[2], self.grammar.calls) if len(words) > 2 else None
            raise Wrong(f"behind 'call' stand an account and a form: {', '.join(self.grammar.calls)}" +
                        (f". Did you mean '{best}'?" if best else ""), "call <account> ..")
        tokens, form = self.grammar.calls[words[2]]
        wrong = self.grammar.no_number(words[1])
        if wrong:
            raise Wrong(f"<account>: {wrong}", form)
        self.tokens("call", words[3:], tokens, form)

    def tokens(self, name, words, tokens, form):
        """The words are tokens of this form, and none of them is a name or a `#` with a number."""
        line = read_tokens(name, words, tokens, form, self.grammar)
        for token, word in line.tokens:
            if word.startswith("#"):
                raise Wrong(f"<{token}>: {shown(word)} stands for what an earlier line made, in a schedule alone; here "
                            "the hex itself stands", form)
            if token in ("key", "to") and not word.startswith("0x"):
                raise Wrong(f"<{token}>: {shown(word)} is a name, and {NAMES}: a hex stands here", form)

    # ---- what stands behind it

    def bundle(self, text):
        if not self.left:
            raise Wrong("an audit reads one line behind '--', a bundle, and this is one more")
        self.left = 0
        wrong = self.grammar.no_hex(text)
        if wrong:
            raise Wrong(f"the line behind '--' is a bundle: {wrong}")

    def command(self, words):
        forms = [self.form] if self.form else list(self.grammar.runs)
        found = [self.grammar.runs[form][words[0]] for form in forms if words[0] in self.grammar.runs[form]]
        if not found:
            raise Wrong(self.no_command(words[0], forms))
        wrongs = [wrong for wrong in (self.wrong(words, *it) for it in found)]
        if all(wrongs):
            raise wrongs[0]

    def no_command(self, word, forms):
        others = [form for form, commands in self.grammar.runs.items() if word in commands]
        if others and self.form:
            return f"'{word}' is {WHOSE[others[0]]} command, and this run is {WHOSE[self.form]}"
        known = [name for form in forms for name in self.grammar.runs[form]]
        best = word.lower() if word.lower() in known else near(word, known)
        whose = WHOSE[self.form] if self.form else "any node's"
        hint = f"did you mean '{best}'?" if best else f"they are {', '.join(dict.fromkeys(known))}"
        return f"{shown(word)} is no command, and {whose} stand here: {hint}"

    def wrong(self, words, tokens, typed):
        """What is wrong with the words of this command, or nothing."""
        if tokens == ["<line>"]:
            try:
                self.of_log(" ".join(words[1:]))
            except Wrong as wrong:
                return Wrong(f"<line>: {wrong.reason}", typed)
            return None
        try:
            read_tokens(words[0], words[1:], tokens, typed, self.grammar)
        except Wrong as wrong:
            return Wrong(wrong.reason + self.given(words, tokens), typed)
        return None

    def given(self, words, tokens):
        """What has to be given in place of a name or a `#` and a number, as a schedule has them."""
        for token, word in zip((it.strip("<>[]") for it in tokens), words[1:]):
            if token == "owner" and self.grammar.token(token, word):
                return f". {NAMES.capitalize()}: give what 'who' answers in the receiver's folder"
            if token == "hex" and word.startswith("#"):
                return ". # and a number stand in a schedule alone: give the hex itself"
            if token in ("coin", "tip", "block") and word[:1].isalpha():
                return f". {NAMES.capitalize()}, and the node is that of the folder: give the number of the {token}"
        named = len(words) > 1 + len(tokens) and words[-1][:1].isalpha()
        return f". {NAMES.capitalize()}: the node is that of the folder" if named else ""


def first_wrong_input(data, grammar, form=None):
    """The first line that ends the run, if there is one."""
    reader, at, number = Reader(grammar, form), 0, 0
    while at < len(data):
        end = data.find(b"\n", at)
        stop, after = (end, end + 1) if end >= 0 else (len(data), len(data))
        text, number = data[at:stop].decode("latin-1"), number + 1
        passed = no_room(text, number, after, grammar)
        if passed:
            return Found(number, text, Wrong(passed), too_long=True)
        try:
            reader.take(text, number)
        except Wrong as wrong:
            return Found(number, text, wrong)
        at = after
    if not reader.behind and (form or not number):
        return Found(number + 1, "", Wrong("the input ends here, and the line '--' isn't there: it ends the log, and "
                                           "the commands stand behind it"))
    if form == "audit" and reader.left:
        return Found(number + 1, "", Wrong("behind '--' a line with a bundle stands, and the input ends"))
    return None


