"""Reads signals texts and rule texts that docs/RULES.md serves, and says when a rule fails. Python's own library only."""
import re
import typing

WORD = re.compile(r"[a-z][a-z0-9]*|[XGR&|!()]|(?P<strange>[^ \n])")


class Rule(typing.NamedTuple):
    """A rule: the operator, then the name of a literal or the sides. The operators are true, false, on, off, X, R, & and |."""

    op: str
    left: typing.Any = None
    right: typing.Any = None


def words_of(text):
    """The words of a text."""
    words = []
    for found in WORD.finditer(text):
        if found["strange"]:
            raise SystemExit(f"strange byte at {found.start()}")
        words.append(found[0])
    return words


def read_signals(text):
    """The names of the inputs and those of the outputs."""
    words = words_of(text)
    out = words.index("out")
    assert words[0] == "in"
    return words[1:out], words[out + 1 :]


class Reader:
    """The descent: rule, choice, join, unit."""

    def __init__(self, text, names):
        self.words = [*words_of(text), "the end"]
        self.at = 0
        self.names = names

    def take(self):
        self.at += 1
        return self.words[self.at - 1]

    def takes(self, word):
        """Whether the next word is this one, which is then taken."""
        if self.words[self.at] != word:
            return False
        self.at += 1
        return True

    def rule(self):
        left = self.choice()
        return Rule("R", left, self.rule()) if self.takes("R") else left

    def choice(self):
        left = self.join()
        while self.takes("|"):
            left = Rule("|", left, self.join())
        return left

    def join(self):
        left = self.unit()
        while self.takes("&"):
            left = Rule("&", left, self.unit())
        return left

    def unit(self):
        word = self.take()
        if word in ("true", "false"):
            return Rule(word)
        if word == "X":
            return Rule("X", self.unit())
        if word == "G":
            return Rule("R", Rule("false"), self.unit())
        if word == "(":
            inner = self.rule()
            self.expect(self.takes(")"))
            return inner
        if word == "!":
            return Rule("off", self.name(self.take()))
        return Rule("on", self.name(word))

    def name(self, word):
        self.expect(word in self.names)
        return word

    def expect(self, right):
        if not right:
            raise SystemExit(f"no rule: word {self.at}, before or at '{self.words[self.at]}'")


def read_rule(text, names):
    """The rule that the text says."""
    reader = Reader(text, names)
    rule = reader.rule()
    reader.expect(reader.takes("the end"))
    return rule


def fails_behind(rule):
    """Whether the rule fails just behind the last round."""
    if rule.op == "&":
        return fails_behind(rule.left) or fails_behind(rule.right)
    if rule.op == "|":
        return fails_behind(rule.left) and fails_behind(rule.right)
    return rule.op == "false"


def fails(rule, rounds, p=0):
    """Whether the rule fails at place p of the rounds, each the set of the names that are on."""
    here = p < len(rounds)
    match rule.op:
        case "on":
            return here and rule.left not in rounds[p]
        case "off":
            return here and rule.left in rounds[p]
        case "X":
            return here and fails(rule.left, rounds, p + 1)
        case "R":
            js = range(p, len(rounds))
            return any(
                fails(rule.right, rounds, j) and all(fails(rule.left, rounds, k) for k in range(p, j)) for j in js
            )
        case "&":
            return fails(rule.left, rounds, p) or fails(rule.right, rounds, p)
        case "|":
            return fails(rule.left, rounds, p) and fails(rule.right, rounds, p)
    return rule.op == "false"
