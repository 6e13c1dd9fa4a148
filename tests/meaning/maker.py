"""Makes sources that keep the grammar and the typing rules of docs/LANGUAGE.md, each from a number of its own."""
import random
from types import SimpleNamespace as Node

INTS = "0 1 2 3 4 5 7 8 15 16 31 32 33 63 100 127 128 255 256 1000 65535 65536 0x7fff 0XABCDEF 2147483647 123456789".split()
UNSIGNED = "0u 1u 2U 31u 0x20u 0x7fffffffU 2147483648 0x80000000 0xffffffff 4294967295 4294967294 3000000000u".split()
BINARY = "+ - * / % & | ^ << >> == != < <= > >= && ||".split()
NAMES = "a b c d e f g h i j k m n x y z sum sums word _t T0 at next".split()
PUT = "void put ( unsigned v ) { release ( v >> 24 ) ; release ( v >> 16 ) ; release ( v >> 8 ) ; release ( v ) ; }"
WORK = 1200  # the most tokens that one call of a function may run without loops


def needs_gap(before, after):
    """Whether two tokens with nothing between them would be read as others."""
    words = (before[-1] + after[0]).replace("_", "a").isalnum()
    return words or (before[-1] in "<>=!&|/" and after[0] in "<>=&|/*")


class Maker:
    """The tokens made so far, and the names that are known, the innermost scope last."""

    def __init__(self, number):
        self.chance = random.Random(number)
        self.risk = self.chance.choice((0, 0, 0.04, 0.15))
        self.endless = self.chance.choice((0, 0, 0.1))
        self.unsigned = self.chance.choice((0.05, 0.3, 0.7))
        self.tokens = []
        self.scopes = [{}]
        self.function = None
        self.loops = 0
        self.work = 0
        self.locals = 0

    def put(self, text):
        found = text.split()
        self.work += len(found)
        self.tokens += found

    def pick(self, *choices):
        return self.chance.choice(choices)

    def likely(self, chance):
        return self.chance.random() < chance

    def new_name(self):
        """A name that the innermost scope does not have; it may hide one further out."""
        while True:
            name = self.chance.choice(NAMES) + (str(self.chance.randrange(100)) if self.likely(0.6) else "")
            if name not in self.scopes[-1]:
                return name

    def declare(self, name, **thing):
        self.scopes[-1][name] = Node(name=name, **thing)

    def known(self, test):
        """The things that can be named here, may be used here and meet the test."""
        things = {}
        for scope in self.scopes:
            things.update(scope)
        return [thing for thing in things.values() if test(thing) and self.may_use(thing)]

    def may_use(self, thing):
        return thing.kind != "object" or not thing.private or self.function.private

    # Items

    def program(self):
        self.put(PUT)
        for _ in range(self.chance.randint(2, 9)):
            self.item()
        for _ in range(self.chance.randint(1, 5)):
            self.make_function(self.likely(0.35))
            if self.likely(0.4):
                self.item()
        for private in (True, False):
            self.show(private)
        self.main()
        return self.tokens

    def kind_of_type(self):
        return self.pick("unsigned", "unsigned int") if self.likely(self.unsigned) else "int"

    def number(self):
        return self.chance.choice(UNSIGNED if self.likely(self.unsigned) else INTS)

    def item(self):
        self.pick(self.object, self.object, self.object, self.constant, self.untrusted)()

    def object(self):
        word = self.pick("", "", "__verified", "__private", "__shared", "__logged")
        name, length = self.new_name(), self.length()
        self.put(f"{word} {self.kind_of_type()} {name} {f'[ {length} ]' if length else ''} ;")
        self.declare(name, kind="object", length=length, private=word == "__private", held=False)

    def length(self):
        return self.pick(None, None, None, None, 1, 2, 3, 4, 5, 8, 8, 16, 100, 65536)

    def constant(self):
        name, length = self.new_name(), self.pick(None, 1, 2, 4, 7, 8)
        values = [f"{self.pick('', '', '-')} {self.number()}" for _ in range(self.chance.randint(1, length or 1))]
        if length is None:
            self.put(f"const {self.kind_of_type()} {name} = {values[0]} ;")
        else:
            self.put(f"const {self.kind_of_type()} {name} [ {length} ] = {{ {' , '.join(values)} }} ;")
        self.declare(name, kind="constant", length=length)

    def untrusted(self):
        name = self.new_name()
        self.put(f"__untrusted void {name} ( void ) ;")
        self.declare(name, kind="untrusted")

    def open_function(self, head, name, count, private, returns):
        """Begins a function with so many parameters."""
        parameters = []
        self.put(f"{'__private' if private else ''} {head} {name} (")
        this = Node(name=name, kind="function", count=count, private=private, returns=returns, work=0)
        self.scopes.append({})
        for _ in range(count):
            parameter = self.new_name()
            parameters.append(f"{self.kind_of_type()} {parameter}")
            self.declare(parameter, kind="local", length=None, held=False)
        self.put(" , ".join(parameters) or self.pick("void", ""))
        self.put(") {")
        self.function, self.work, self.locals = this, 10, count

    def close_function(self):
        self.put("}")
        self.scopes.pop()
        self.function.work = self.work
        self.scopes[0][self.function.name] = self.function

    def make_function(self, private):
        returns = self.likely(0.8)
        head = self.kind_of_type() if returns else "void"
        count = self.chance.randint(0, 6 if self.likely(0.2) else 3)
        self.open_function(head, self.new_name(), count, private, returns)
        self.body(self.chance.randint(2, 6), 0)
        if returns and self.likely(0.8):
            self.put("return")
            self.expression(2)
            self.put(";")
        self.close_function()

    def show(self, private):
        """A function that releases the variables and arrays that a private function alone may use, or the others."""
        name = "show_private" if private else "show"
        self.open_function("void", name, 0, private, False)
        self.put("unsigned h ; int k ;")
        self.locals += 2
        self.scopes[-1].update(h=Node(name="h", kind="other"), k=Node(name="k", kind="other"))
        for thing in self.known(lambda thing: thing.kind == "object" and thing.private == private):
            if thing.length:
                count = min(thing.length, 8)
                self.put(f"h = 0 ; for ( k = 0 ; k < {count} ; k = k + 1 ) h = h * 31 + {thing.name} [ k ] ;")
            else:
                self.put(f"h = {thing.name} ;")
            self.put("put ( h ) ;")
        self.close_function()

    def main(self):
        self.open_function("int", "main", 0, False, True)
        self.body(self.chance.randint(5, 12), 0)
        self.put("show_private ( ) ; show ( ) ;")
        self.put(self.pick("", "return 0 ;", "return 4294967295 ;"))
        self.close_function()

    # Statements

    def body(self, count, depth):
        for _ in range(count):
            if self.likely(0.25) and self.locals < 200:
                self.local()
                self.put(";")
            else:
                self.statement(depth)

    def block(self, depth):
        self.put("{")
        self.scopes.append({})
        self.body(self.chance.randint(1, 4), depth + 1)
        self.scopes.pop()
        self.put("}")

    def statement(self, depth):
        choices = [self.assign, self.assign, self.element, self.release, self.release, self.call]
        choices += [self.untrusted_call, self.check]
        if self.work > WORK:
            choices = [self.release]
        elif depth < 4:
            choices += [self.if_, self.if_, self.for_, self.for_, self.while_, self.block, self.leave]
        self.chance.choice(choices)(depth)

    def local(self):
        self.locals += 1
        outer = [thing.name for thing in self.variables(False) if thing.name not in self.scopes[-1]]
        if outer and self.likely(0.15):  # its own value is of the outer one
            name = self.chance.choice(outer)
            self.put(f"{self.kind_of_type()} {name} = {name} +")
            self.operand(2)
        elif self.likely(0.75):
            name = self.new_name()
            self.put(f"{self.kind_of_type()} {name} =")
            self.expression(2)
        else:
            name = self.new_name()
            self.put(f"{self.kind_of_type()} {name}")
        self.declare(name, kind="local", length=None, held=False)

    def variables(self, array, kinds=("local", "object")):
        """The arrays, or the others, of these kinds."""
        return self.known(lambda thing: thing.kind in kinds and (thing.length is not None) == array)

    def assign(self, depth):
        self.simple_assign()
        self.put(";")

    def simple_assign(self):
        free = [thing for thing in self.variables(False) if not thing.held or self.likely(0.02)]
        if not free:
            return self.put("check ( )")
        self.put(f"{self.chance.choice(free).name} =")
        self.expression(3)

    def element(self, depth):
        arrays = self.variables(True)
        if arrays:
            thing = self.chance.choice(arrays)
            self.put(f"{thing.name} [")
            self.index(thing.length)
            self.put("] =")
            self.expression(3)
        self.put(";")

    def release(self, depth):
        self.put(self.pick("release (", "put (", "put ("))
        self.expression(3)
        self.put(") ;")

    def check(self, depth):
        self.put(self.pick("check ( ) ;", ";"))

    def untrusted_call(self, depth):
        found = self.known(lambda thing: thing.kind == "untrusted")
        self.put(f"{self.chance.choice(found).name} ( ) ;" if found else ";")

    def call(self, depth):
        self.call_of(False, 2)
        self.put(";")

    def call_of(self, as_value, depth):
        """A call of a function that is known and does not take too long, if there is one."""
        found = [
            thing
            for thing in self.known(lambda thing: thing.kind == "function")
            if self.work + thing.work < WORK and thing.name != "show" and (thing.returns or not as_value)
        ]
        if not found:
            return False
        thing = self.chance.choice(found)
        self.work += thing.work
        self.put(f"{thing.name} (")
        for argument in range(thing.count):
            self.put("," if argument else "")
            self.expression(depth - 1)
        self.put(")")
        return True

    def leave(self, depth):
        """Leaves a loop or the function, mostly under a condition."""
        words = (["break", "continue"] * 2 if self.loops else []) + ["return"]
        if self.function.name == "main" and self.likely(0.9):
            words.remove("return")
        if not words:
            return self.put(";")
        if self.likely(0.85):
            self.put("if (")
            self.expression(2)
            self.put(")")
        word = self.chance.choice(words)
        self.put(word)
        if word == "return" and self.function.returns:
            self.expression(1)
        self.put(";")

    def if_(self, depth):
        self.put("if (")
        self.expression(3)
        self.put(")")
        if self.likely(0.5):
            return self.branch(depth)
        self.block(depth)  # so that the `else` is of this one
        self.put("else")
        self.branch(depth)

    def branch(self, depth):
        self.block(depth) if self.likely(0.6) else self.statement(depth + 1)

    def loop_body(self, depth, counter):
        """The body of a loop, in which its counter is left alone."""
        self.loops += 1
        counter.held = True
        self.branch(depth)
        counter.held = False
        self.loops -= 1

    def for_(self, depth):
        self.scopes.append({})
        name, count = self.new_name(), self.chance.randint(1, 9)
        down = self.likely(0.3)
        self.put(f"for ( {self.kind_of_type()} {name} = {count if down else 0} ;")
        self.declare(name, kind="local", length=None, held=True)
        self.locals += 1
        if not self.likely(self.endless):
            self.put(name if down else f"{name} {self.pick('<', '!=')} {count}")
        self.put(f"; {name} = {name} - 1 )" if down else f"; {name} = {name} + 1 )")
        self.loop_body(depth, self.scopes[-1][name])
        self.scopes.pop()

    def while_(self, depth):
        """A loop over a counter that is known before it, in each form that a loop has."""
        counters = [thing for thing in self.variables(False) if not thing.held]
        if not counters or self.likely(self.endless):
            self.put(self.pick("while ( 1 )", "for ( ; ; )", "for ( ; 1 ; check ( ) )"))
            return self.loop_body(depth, Node())
        counter = self.chance.choice(counters)
        name, count = counter.name, self.chance.randint(1, 7)
        form = self.pick("while", "step", "bare")
        if form == "while":
            self.put(f"{{ {name} = {count} ; while ( {name} ) {{ {name} = {name} - 1 ;")
        elif form == "step":
            self.put(f"for ( {name} = {count} ; {name} > 0 ; {name} = {name} - 1 )")
        else:
            self.put(f"{{ {name} = {count} ; for ( ; {name} != 0 ; ) {{ {name} = {name} - 1 ;")
        self.loop_body(depth, counter)
        if form != "step":
            self.put("} }")

    # Expressions

    def expression(self, depth):
        if depth <= 0 or self.likely(0.2):
            return self.leaf()
        if self.likely(0.2):
            return self.unary(depth)
        operator = self.chance.choice(BINARY)
        if operator in ("/", "%"):
            return self.quotient(operator, depth)
        self.operand(depth)
        self.put(operator)
        self.operand(depth)

    def operand(self, depth):
        if self.likely(0.5):
            return self.inner(depth - 1)
        self.expression(depth - 1)

    def inner(self, depth):
        self.put("(")
        self.expression(depth)
        self.put(")")

    def unary(self, depth):
        self.put(self.pick("-", "~", "!", "- -", "! !", "~ -"))
        self.inner(depth - 1) if self.likely(0.5) else self.leaf()

    def quotient(self, operator, depth):
        """A quotient or a remainder, by a divisor that is mostly not zero."""
        if self.likely(0.1):
            least = self.pick("( 0 - 2147483647 - 1 )", "( - 2147483647 - 1 )", "0x80000000")
            return self.put(f"{least} {operator} {self.pick('( 0 - 1 )', '~ 0', '4294967295', '- 1')}")
        self.operand(depth)
        self.put(operator)
        if self.likely(self.risk):
            return self.inner(depth - 1)
        if self.likely(0.5):
            return self.put(self.pick("1", "3", "7", "10u", "( - 3 )", "- 7", "255", "0x80000000", "65537"))
        self.put("(")
        self.inner(depth - 1)
        self.put(f"| {self.pick('1', '1u', '0x80000000', '8')} )")

    def leaf(self):
        kind = self.pick("number", "number", "name", "name", "name", "name", "index", "index", "call", "call", "input")
        if kind == "input":
            return self.put("input ( )")
        if kind == "call" and self.call_of(True, 1):
            return None
        array = kind == "index"
        found = self.variables(array, ("local", "object", "constant"))
        if kind == "number" or not found:
            return self.put(self.number())
        thing = self.chance.choice(found)
        self.put(thing.name)
        if array:
            self.put("[")
            self.index(thing.length)
            self.put("]")

    def index(self, length):
        """An index that is mostly below the length."""
        if self.likely(self.risk):
            return self.expression(1)
        if self.likely(0.4):
            return self.put(str(self.chance.randrange(min(length, 20))))
        self.inner(1)
        self.put(f"& {length - 1}" if length & (length - 1) == 0 else f"% {length}u")


class MakerOfMain(Maker):
    """Makes programs whose one function is `main`, and which have no untrusted function."""

    def program(self):
        for _ in range(self.chance.randint(2, 9)):
            self.pick(self.object, self.object, self.object, self.constant)()
        self.main()
        return self.tokens

    def main(self):
        self.open_function("int", "main", 0, False, True)
        self.body(self.chance.randint(5, 12), 0)
        self.put("{ unsigned h ; int k ;")
        self.scopes.append({"h": Node(name="h", kind="other"), "k": Node(name="k", kind="other")})
        for thing in self.known(lambda thing: thing.kind == "object"):
            if thing.length:
                count = min(thing.length, 8)
                self.put(f"h = 0 ; for ( k = 0 ; k < {count} ; k = k + 1 ) h = h * 31 + {thing.name} [ k ] ;")
            else:
                self.put(f"h = {thing.name} ;")
            self.put("release ( h >> 24 ) ; release ( h >> 16 ) ; release ( h >> 8 ) ; release ( h ) ;")
        self.scopes.pop()
        self.put("}")
        self.put(self.pick("", "return 0 ;", "return 4294967295 ;"))
        self.close_function()

    def release(self, depth):
        self.put("release ( (")
        self.expression(3)
        self.put(f") {self.pick('', '>> 8', '>> 16', '>> 24')} ) ;")


def spelled(chance, tokens):
    """The text of the tokens, with blanks and comments of each kind between them."""
    text = tokens[0]
    for before, after in zip(tokens, tokens[1:]):
        gap = chance.choice((" ", " ", " ", "", "", "", "\n", "\t", "\r\n", " /* i */ ", " // * ;\n", " /***/ "))
        if before in (";", "{", "}") and chance.random() < 0.8:
            gap = "\n"
        text += (" " if gap == "" and needs_gap(before, after) else gap) + after
    return text


def make(number):
    """The source of this number."""
    maker = Maker(number)
    return spelled(maker.chance, maker.program())


def make_main(number):
    """The source of this number among those whose one function is `main`."""
    maker = MakerOfMain(number)
    return spelled(maker.chance, maker.program())


def make_input(number):
    """Bytes for the source of this number to read."""
    chance = random.Random(-number - 1)
    return chance.randbytes(chance.choice((0, 1, 5, 20, 40)))
