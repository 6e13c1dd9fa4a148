"""Runs the tree of a source by itself, and tells each part of what it means: how it ends, its work, and all that comes and goes."""
from types import SimpleNamespace as Node

WORD = 2**32
CLASSES = {None: "Verified", "__verified": "Verified", "__private": "Private", "__shared": "Open", "__logged": "Logged"}


class Over(Exception):
    """The run is over before its end, for this reason."""


class Left(Exception):
    """A statement is left by `break`, `continue` or `return`."""


class Run:
    """A run with the classes that are loose, the words that come from outside and the turns that may still begin."""

    def __init__(self, items, loose_classes, data, loose, turns, change=None):
        self.loose_classes, self.turns, self.change = loose_classes, turns, change
        self.data, self.loose, self.given = list(data), list(loose), []
        self.work = self.taken = self.releases = self.checks = self.suspensions = 0
        self.bytes, self.writes = [], []
        self.words = {}
        self.scopes = [{}]
        for item in items:
            self.declare(item)

    def declare(self, item):
        """A global name is known from its declaration on."""
        if item.kind in ("object", "constant"):
            item.kept = CLASSES[item.storage] if item.kind == "object" else "Constant"
            for i, value in enumerate(getattr(item, "values", [])):
                self.words[item.token, i] = value
        if item.kind == "function":
            item.around = dict(self.scopes[0])
        self.scopes[0][item.name] = item

    def known(self, name):
        return next(scope[name] for scope in reversed(self.scopes) if name in scope)

    def ends(self):
        """Runs `main`, and gives how the run ends."""
        try:
            self.call(self.known("main"), [])
        except Over as over:
            return over.args[0]
        return ("Ended",)

    # Words

    def read(self, thing, index):
        """The word of an element: from outside where its class is loose."""
        word = self.words.get((thing.token, index), 0)
        if getattr(thing, "kept", None) not in self.loose_classes:
            return word
        if self.change is not None:
            self.loose = [(thing.token, index, self.change(len(self.given), word))]
            self.given += self.loose
        if not self.loose or self.loose[0][:2] != (thing.token, index):
            raise Over(("Starved",))
        self.taken += 1
        return self.loose.pop(0)[2] % WORD

    def write(self, thing, index, word):
        self.words[thing.token, index] = word
        if getattr(thing, "kept", None) == "Open":
            self.writes.append((thing.token, index, word))

    def place(self, part):
        """The thing that is named, and its tested index."""
        thing = self.known(part.name)
        if getattr(part, "index", None) is None:
            return thing, 0
        index = self.value(part.index)
        if index >= thing.length:
            raise Over(("Index", part.token))
        return thing, index

    # Functions

    def call(self, function, words):
        self.work += 1
        scopes, self.scopes = self.scopes, [function.around, {}]
        for parameter, word in zip(function.parameters, words):
            self.write(parameter, 0, word)
            self.scopes[-1][parameter.name] = parameter
        value = 0
        try:
            self.all(function.body)
        except Left as left:
            value = left.args[1]
        self.scopes = scopes
        return value

    # Statements

    def all(self, statements):
        for statement in statements:
            self.statement(statement)

    def statement(self, statement):
        self.work += 1
        getattr(self, statement.kind + "_statement")(statement)

    def scoped(self, *statements):
        depth = len(self.scopes)
        self.scopes.append({})
        try:
            self.all(statements)
        finally:
            del self.scopes[depth:]

    def empty_statement(self, statement):
        pass

    def block_statement(self, statement):
        self.scoped(*statement.body)

    def local_statement(self, statement):
        word = self.value(statement.value) if statement.value else 0
        self.write(statement, 0, word)
        self.scopes[-1][statement.name] = statement

    def assign_statement(self, statement):
        thing, index = self.place(statement)
        self.write(thing, index, self.value(statement.value))

    def call_statement(self, statement):
        function = self.known(statement.name)
        if function.kind == "untrusted":
            self.suspensions += 1
        else:
            self.call(function, [self.value(argument) for argument in statement.arguments])

    def release_statement(self, statement):
        self.bytes.append(self.value(statement.value) % 256)
        self.releases += 1

    def check_statement(self, statement):
        self.checks += 1

    def return_statement(self, statement):
        raise Left("return", self.value(statement.value) if statement.value else 0)

    def break_statement(self, statement):
        raise Left("break")

    def continue_statement(self, statement):
        raise Left("continue")

    def if_statement(self, statement):
        if self.value(statement.test):
            self.scoped(statement.body)
        elif statement.other:
            self.scoped(statement.other)

    def while_statement(self, statement):
        self.loop(statement.test, statement.body, None)

    def for_statement(self, statement):
        depth = len(self.scopes)
        self.scopes.append({})
        try:
            if statement.first:
                self.statement(statement.first)
            self.loop(statement.test, statement.body, statement.step)
        finally:
            del self.scopes[depth:]

    def loop(self, test, body, step):
        while test is None or self.value(test):
            if self.turns == 0:
                raise Over(("Turns",))
            self.turns -= 1
            self.work += 1
            try:
                self.scoped(body)
            except Left as left:
                if left.args[0] == "break":
                    return
                if left.args[0] == "return":
                    raise
            if step:
                self.statement(step)

    # Expressions

    def value(self, e):
        self.work += 1
        return getattr(self, e.kind + "_value")(e) % WORD

    def number_value(self, e):
        return e.value

    def name_value(self, e):
        return self.read(*self.place(e))

    index_value = name_value

    def input_value(self, e):
        return self.data.pop(0) if self.data else -1

    def call_value(self, e):
        return self.call(self.known(e.name), [self.value(argument) for argument in e.arguments])

    def unary_value(self, e):
        value = self.value(e.inner)
        return {"-": -value, "~": ~value, "!": int(value == 0)}[e.operator]

    def binary_value(self, e):
        if e.operator in ("&&", "||"):
            left = self.value(e.left)
            if (left == 0) == (e.operator == "&&"):
                return int(left != 0)
            return int(self.value(e.right) != 0)
        return computed(e.operator, self.value(e.left), self.value(e.right), self.is_unsigned(e), e.token)

    # Types

    def is_unsigned(self, e):
        """Whether an operator takes its operands, and other expressions their value, as unsigned."""
        if e.kind == "binary":
            if e.operator in ("&&", "||"):
                return False
            left = self.type_of(e.left)
            return left or (e.operator not in ("<<", ">>") and self.type_of(e.right))
        return self.type_of(e)

    def type_of(self, e):
        """Whether a value is unsigned."""
        if e.kind == "binary":
            return e.operator not in ("==", "!=", "<", ">", "<=", ">=") and self.is_unsigned(e)
        if e.kind == "unary":
            return e.operator != "!" and self.type_of(e.inner)
        if e.kind == "number":
            return e.unsigned
        return e.kind != "input" and self.known(e.name).unsigned


def signed(word):
    return word - WORD if word >= WORD // 2 else word


def computed(operator, left, right, unsigned, token):
    """The value of an operator of two operands."""
    a, b = (left, right) if unsigned else (signed(left), signed(right))
    if operator in ("/", "%"):
        if b == 0:
            raise Over(("Divide", token))
        quotient = abs(a) // abs(b) * (1 if (a < 0) == (b < 0) else -1)
        return quotient if operator == "/" else a - b * quotient
    if operator in ("<<", ">>"):
        return left << right % 32 if operator == "<<" else a >> right % 32
    arithmetic = {"+": a + b, "-": a - b, "*": a * b, "&": left & right, "|": left | right, "^": left ^ right}
    compared = {"==": a == b, "!=": a != b, "<": a < b, ">": a > b, "<=": a <= b, ">=": a >= b}
    return arithmetic[operator] if operator in arithmetic else int(compared[operator])


def evaluate(items, loose_classes, data, loose, turns):
    """All parts of what a source means."""
    run = Run(items, loose_classes, data, loose, turns)
    end = run.ends()
    return Node(end=end, work=run.work, input=run.data, loose=run.loose, taken=run.taken, bytes=run.bytes, writes=run.writes,
                releases=run.releases, checks=run.checks, suspensions=run.suspensions)


def words_asked(items, loose_classes, data, turns, change):
    """The entries that a run asks for, where each word is what `change` makes of its number and the word in memory."""
    run = Run(items, loose_classes, data, [], turns, change)
    run.ends()
    return run.given
