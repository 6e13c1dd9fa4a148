"""Reads a source of docs/LANGUAGE.md that keeps its rules into a tree, in which each part has its token's number, from 0."""
import re
from types import SimpleNamespace as Node

BLANK = re.compile(r"(?:[ \t\r\n]|//[^\n]*|/\*.*?\*/)+", re.S)
NUMBER = r"0[xX][0-9a-fA-F]+[uU]?|[0-9]+[uU]?"
SIGN = r"<<|>>|<=|>=|==|!=|&&|\|\||[-(){}\[\];,=+*/%&|^~!<>]"
TOKEN = re.compile(rf"{NUMBER}|[A-Za-z_][A-Za-z0-9_]*|{SIGN}")
COMPARED = ["<", "<=", ">", ">="]
LEVELS = [["||"], ["&&"], ["|"], ["^"], ["&"], ["==", "!="], COMPARED, ["<<", ">>"], ["+", "-"], ["*", "/", "%"]]
CLASSES = ("__verified", "__private", "__shared", "__logged")
END = ""  # stands after the last token


def tokens(text):
    """The tokens of the text."""
    found, at = [], 0
    while True:
        blank = BLANK.match(text, at)
        at = blank.end() if blank else at
        if at == len(text):
            return found
        token = TOKEN.match(text, at)
        if token is None:
            raise SyntaxError(f"byte {at} begins no token")
        found.append(token[0])
        at = token.end()


class Reader:
    """The tokens of a source and the place of the next one."""

    def __init__(self, text):
        self.tokens = tokens(text) + [END, END, END]
        self.at = 0

    @property
    def next(self):
        return self.tokens[self.at]

    def take(self, *wanted):
        """Takes a token, one of these where some are named, and gives its number."""
        if wanted and self.next not in wanted:
            raise SyntaxError(f"token {self.at}: {self.next} in the place of {wanted}")
        self.at += 1
        return self.at - 1

    def took(self, token):
        """Takes the next token where it is this one, and says whether it was."""
        if self.next != token:
            return False
        self.at += 1
        return True

    def name(self):
        """Takes a name, and gives it with its token."""
        return self.tokens[self.at], self.take()

    def is_unsigned(self):
        """Takes a type, and says whether it is unsigned."""
        if self.tokens[self.take("int", "unsigned")] == "int":
            return False
        self.took("int")
        return True

    def number(self):
        """Takes a number, and gives its value and whether it is unsigned."""
        text = self.tokens[self.take()]
        digits = text.rstrip("uU")
        value = int(digits, 16 if digits[:2] in ("0x", "0X") else 10)
        return value, digits != text or value > 0x7FFFFFFF

    def listed(self, part, end):
        """Takes parts with commas between them, and the token behind them."""
        parts = []
        while not self.took(end):
            if parts:
                self.take(",")
            parts.append(part())
        return parts

    # Items

    def program(self):
        items = []
        while self.next != END:
            items.append(self.item())
        return items

    def item(self):
        if self.took("const"):
            return self.constant()
        if self.took("__untrusted"):
            self.take("void")
            name, token = self.name()
            for word in ("(", "void", ")", ";"):
                self.take(word)
            return Node(kind="untrusted", name=name, token=token)
        storage = self.tokens[self.take()] if self.next in CLASSES else None
        unsigned = not self.took("void") and self.is_unsigned()
        name, token = self.name()
        if self.next == "(":
            return self.function(name, token, unsigned, storage == "__private")
        length = self.length()
        self.take(";")
        return Node(kind="object", name=name, token=token, unsigned=unsigned, length=length, storage=storage)

    def length(self):
        """Takes the length of an array, if there is one."""
        if not self.took("["):
            return None
        length, _ = self.number()
        self.take("]")
        return length

    def constant(self):
        unsigned = self.is_unsigned()
        name, token = self.name()
        length = self.length()
        self.take("=")
        values = self.listed(self.value, "}") if self.took("{") else [self.value()]
        self.take(";")
        return Node(kind="constant", name=name, token=token, unsigned=unsigned, length=length, values=values)

    def value(self):
        negative = self.took("-")
        value, _ = self.number()
        return (-value if negative else value) % 2**32

    def function(self, name, token, unsigned, private):
        self.take("(")
        if self.took("void"):
            self.take(")")
            parameters = []
        else:
            parameters = self.listed(self.parameter, ")")
        body = self.block()
        return Node(kind="function", name=name, token=token, unsigned=unsigned, parameters=parameters, body=body, private=private)

    def parameter(self):
        unsigned = self.is_unsigned()
        name, token = self.name()
        return Node(name=name, token=token, unsigned=unsigned)

    # Statements

    def block(self):
        self.take("{")
        body = []
        while not self.took("}"):
            body.append(self.statement())
        return body

    def statement(self):
        token, word = self.at, self.next
        if word == "{":
            return Node(kind="block", token=token, body=self.block())
        if word in ("if", "while", "for"):
            self.take()
            return getattr(self, word + "_")(token)
        if self.took(";"):
            return Node(kind="empty", token=token)
        if word in ("return", "break", "continue"):
            self.take()
            value = self.expression() if word == "return" and self.next != ";" else None
            found = Node(kind=word, token=token, value=value)
        else:
            found = self.local() if word in ("int", "unsigned") else self.simple()
        self.take(";")
        return found

    def if_(self, token):
        self.take("(")
        test = self.expression()
        self.take(")")
        body = self.statement()
        other = self.statement() if self.took("else") else None
        return Node(kind="if", token=token, test=test, body=body, other=other)

    def while_(self, token):
        self.take("(")
        test = self.expression()
        self.take(")")
        return Node(kind="while", token=token, test=test, body=self.statement())

    def for_(self, token):
        self.take("(")
        first = step = test = None
        if self.next != ";":
            first = self.local() if self.next in ("int", "unsigned") else self.simple()
        self.take(";")
        if self.next != ";":
            test = self.expression()
        self.take(";")
        if self.next != ")":
            step = self.simple()
        self.take(")")
        return Node(kind="for", token=token, first=first, test=test, step=step, body=self.statement())

    def local(self):
        unsigned = self.is_unsigned()
        name, token = self.name()
        value = self.expression() if self.took("=") else None
        return Node(kind="local", token=token, name=name, unsigned=unsigned, value=value)

    def simple(self):
        name, token = self.name()
        if name == "release":
            self.take("(")
            value = self.expression()
            self.take(")")
            return Node(kind="release", token=token, value=value)
        if name == "check":
            self.take("(")
            self.take(")")
            return Node(kind="check", token=token)
        if self.took("("):
            return Node(kind="call", token=token, name=name, arguments=self.listed(self.expression, ")"))
        index = None
        if self.next == "[":
            token = self.take()
            index = self.expression()
            self.take("]")
        self.take("=")
        return Node(kind="assign", token=token, name=name, index=index, value=self.expression())

    # Expressions

    def expression(self, level=0):
        if level == len(LEVELS):
            return self.unary()
        left = self.expression(level + 1)
        while self.next in LEVELS[level]:
            operator, token = self.name()
            right = self.expression(level + 1)
            left = Node(kind="binary", token=token, operator=operator, left=left, right=right)
        return left

    def unary(self):
        if self.next not in ("-", "~", "!"):
            return self.primary()
        operator, token = self.name()
        return Node(kind="unary", token=token, operator=operator, inner=self.unary())

    def primary(self):
        if self.next[0].isdigit():
            token = self.at
            value, unsigned = self.number()
            return Node(kind="number", token=token, value=value, unsigned=unsigned)
        if self.took("("):
            inner = self.expression()
            self.take(")")
            return inner
        name, token = self.name()
        if self.took("("):
            kind = "input" if name == "input" else "call"
            return Node(kind=kind, token=token, name=name, arguments=self.listed(self.expression, ")"))
        if self.next == "[":
            token = self.take()
            index = self.expression()
            self.take("]")
            return Node(kind="index", token=token, name=name, index=index)
        return Node(kind="name", token=token, name=name)


def read(text):
    """The items of the source."""
    return Reader(text).program()
