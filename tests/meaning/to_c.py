"""Writes the tree of a source anew as C over meaning.h: one operator a line, in the order of evaluation."""
from types import SimpleNamespace as Node

# The helper of each operator: one for both types, or a pair for int and unsigned by the operands' types.
BINARY = {
    "+": ["add"], "-": ["subtract"], "*": ["multiply"], "&": ["both"], "|": ["either"], "^": ["differ"],
    "/": ["divide_int", "divide_unsigned"], "%": ["remainder_int", "remainder_unsigned"],
    "<<": ["shift_left"], ">>": ["shift_right_int", "shift_right_unsigned"],
    "==": ["equal"], "!=": ["unequal"], "<": ["less_int", "less_unsigned"], ">": ["greater_int", "greater_unsigned"],
    "<=": ["at_most_int", "at_most_unsigned"], ">=": ["at_least_int", "at_least_unsigned"],
}
UNARY = {"-": "negate", "~": "complement", "!": "is_zero"}
COMPARISONS = ("==", "!=", "<", "<=", ">", ">=")


class Writer:
    """The lines written so far, and the names that are known, the innermost scope last."""

    def __init__(self, prefix):
        self.prefix = prefix
        self.lines = []
        self.scopes = [{}]
        self.zeroed = []
        self.variables = []
        self.loops = []
        self.count = 0

    def fresh(self, word):
        """A name of C that no other part has."""
        self.count += 1
        return f"{self.prefix}{word}{self.count}"

    def variable(self, word="t"):
        """A variable of the function that is being written."""
        name = self.fresh(word)
        self.variables.append(name)
        return name

    def put(self, line):
        self.lines.append(line)

    def known(self, name):
        return next(scope[name] for scope in reversed(self.scopes) if name in scope)

    def declare(self, name, **thing):
        self.scopes[-1][name] = Node(**thing)

    # Items

    def program(self, items):
        """Writes all items, and a function that runs the source from its start."""
        for item in items:
            getattr(self, item.kind + "_item")(item)
        self.put(f"void {self.prefix}run(void) {{")
        for name in self.zeroed:
            self.put(f"memset({name}, 0, sizeof {name});")
        self.put(f"{self.known('main').c}();\n}}")
        return "\n".join(self.lines)

    def object_item(self, item):
        name = self.fresh("g")
        self.put(f"static uint32_t {name}[{item.length or 1}];")
        self.zeroed.append(name)
        self.kept_in(name, item)

    def constant_item(self, item):
        name = self.fresh("c")
        values = ", ".join(f"{value}u" for value in item.values)
        self.put(f"static const uint32_t {name}[{item.length or 1}] = {{{values}}};")
        self.kept_in(name, item)

    def kept_in(self, array, item):
        """Declares a global variable or array that an array of C keeps."""
        place = array if item.length else f"{array}[0]"
        self.declare(item.name, c=place, length=item.length, unsigned=item.unsigned)

    def untrusted_item(self, item):
        self.declare(item.name, c=None)

    def function_item(self, item):
        name = self.fresh("f")
        self.declare(item.name, c=name, unsigned=item.unsigned)
        self.scopes.append({})
        parameters = []
        for parameter in item.parameters:
            parameters.append(self.fresh("p"))
            self.declare(parameter.name, c=parameters[-1], length=None, unsigned=parameter.unsigned)
        before, self.lines, self.variables = self.lines, [], []
        for statement in item.body:
            self.statement(statement)
        self.scopes.pop()
        body, self.lines = self.lines, before
        head = ", ".join(f"uint32_t {parameter}" for parameter in parameters)
        self.put(f"static uint32_t {name}({head or 'void'}) {{")
        if self.variables:
            self.put(f"uint32_t {', '.join(self.variables)};")
        self.lines += body
        self.put("return 0u;\n}")

    # Statements

    def statement(self, statement):
        getattr(self, statement.kind + "_statement")(statement)

    def scoped(self, statements):
        self.scopes.append({})
        for statement in statements:
            self.statement(statement)
        self.scopes.pop()

    def block_statement(self, statement):
        self.scoped(statement.body)

    def empty_statement(self, statement):
        pass

    def check_statement(self, statement):
        pass

    def local_statement(self, statement):
        value = self.value(statement.value) if statement.value else "0u"
        name = self.variable("v")
        self.put(f"{name} = {value};")
        self.declare(statement.name, c=name, length=None, unsigned=statement.unsigned)

    def assign_statement(self, statement):
        target = self.known(statement.name)
        place = self.place(target, statement)
        self.put(f"{place} = {self.value(statement.value)};")

    def place(self, thing, part):
        """Where a variable or an element is kept, once its index, if there is one, is tested."""
        if thing.length is None:
            return thing.c
        index = self.value(part.index)
        self.put(f"test_index({index}, {thing.length}u, {part.token}u);")
        return f"{thing.c}[{index}]"

    def call_statement(self, statement):
        if self.known(statement.name).c is not None:
            self.call(statement)

    def release_statement(self, statement):
        self.put(f"release_byte({self.value(statement.value)});")

    def return_statement(self, statement):
        value = self.value(statement.value) if statement.value else "0u"
        self.put(f"return {value};")

    def break_statement(self, statement):
        self.put(f"goto {self.loops[-1]}_end;")

    def continue_statement(self, statement):
        self.put(f"goto {self.loops[-1]}_next;")

    def if_statement(self, statement):
        self.put(f"if ({self.value(statement.test)}) {{")
        self.scoped([statement.body])
        self.put("} else {")
        self.scoped([statement.other] if statement.other else [])
        self.put("}")

    def while_statement(self, statement):
        self.loop(statement.test, statement.body, None)

    def for_statement(self, statement):
        self.scopes.append({})
        if statement.first:
            self.statement(statement.first)
        self.loop(statement.test, statement.body, statement.step)
        self.scopes.pop()

    def loop(self, test, body, step):
        """A turn begins where the test holds, and `continue` goes on with the step."""
        self.loops.append(self.fresh("l"))
        self.put("for (;;) {")
        if test:
            self.put(f"if (!{self.value(test)}) break;")
        self.put("begin_turn();")
        self.scoped([body])
        self.put(f"{self.loops[-1]}_next: ;")
        if step:
            self.statement(step)
        self.put(f"}}\n{self.loops.pop()}_end: ;")

    # Expressions

    def value(self, expression):
        return self.typed(expression)[0]

    def typed(self, expression):
        """Writes the lines of an expression, and gives the C of its value and whether it is unsigned."""
        return getattr(self, expression.kind + "_value")(expression)

    def kept(self, text):
        """A new variable with this value."""
        name = self.variable()
        self.put(f"{name} = {text};")
        return name

    def number_value(self, expression):
        return f"{expression.value}u", expression.unsigned

    def name_value(self, expression):
        thing = self.known(expression.name)
        return self.kept(self.place(thing, expression)), thing.unsigned

    index_value = name_value

    def input_value(self, expression):
        return self.kept("next_input()"), False

    def call_value(self, expression):
        return self.call(expression), self.known(expression.name).unsigned

    def call(self, part):
        arguments = [self.value(argument) for argument in part.arguments]
        return self.kept(f"{self.known(part.name).c}({', '.join(arguments)})")

    def unary_value(self, expression):
        value, unsigned = self.typed(expression.inner)
        return self.kept(f"{UNARY[expression.operator]}({value})"), unsigned and expression.operator != "!"

    def binary_value(self, expression):
        operator = expression.operator
        if operator in ("&&", "||"):
            return self.decided(expression), False
        left, left_unsigned = self.typed(expression.left)
        right, right_unsigned = self.typed(expression.right)
        unsigned = left_unsigned or (right_unsigned and operator not in ("<<", ">>"))
        if operator in ("/", "%"):
            self.put(f"test_divisor({right}, {expression.token}u);")
        helpers = BINARY[operator]
        value = self.kept(f"{helpers[-1 if unsigned else 0]}({left}, {right})")
        return value, unsigned and operator not in COMPARISONS

    def decided(self, expression):
        """The right side of `&&` and `||` is evaluated only where it decides."""
        value = self.kept(f"{self.value(expression.left)} != 0u")
        self.put(f"if ({'!' if expression.operator == '||' else ''}{value}) {{")
        self.put(f"{value} = {self.value(expression.right)} != 0u;")
        self.put("}")
        return value


def to_c(items, prefix):
    """The C of a source, whose function PREFIXrun runs it."""
    return Writer(prefix).program(items)
