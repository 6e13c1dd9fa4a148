"""Writes the tree of a source as the resolved program of the definitions, and what the source means as a record of theirs."""
from evaluate import CLASSES, Run

ARITHMETIC = {"+": "Add", "-": "Sub", "*": "Mul", "&": "And", "|": "Or", "^": "Xor", "<<": "Shl", "==": "Eq", "!=": "Ne"}
BY_TYPE = {"/": "Div", "%": "Rem", ">>": "Shr", "<": "Lt", "<=": "Le", ">": "Gt", ">=": "Ge"}
UNARY = {"-": "Neg", "~": "Inv", "!": "Not"}


def listed(parts):
    return " ∷ ".join(list(parts) + ["[]"])


def option(text):
    return "None" if text is None else f"(Some {text})"


class Writer:
    """The names that are known, the innermost scope last, and the numbers of the functions."""

    def __init__(self, items):
        self.run = Run(items, (), b"", [], 0)
        functions = [item for item in items if item.kind == "function"]
        self.numbers = {item.token: number for number, item in enumerate(functions)}
        self.items, self.functions = items, functions

    @property
    def scopes(self):
        return self.run.scopes

    def variable(self, thing):
        return f"(variable {thing.token} {'(Some ' + thing.kept + ')' if hasattr(thing, 'kept') else 'None'})"

    def program(self):
        main = self.numbers[self.run.known("main").token]
        objects = [self.object(item) for item in self.items if item.kind in ("object", "constant")]
        functions = [self.function(item) for item in self.functions]
        return (f"record {{\n  objects = {listed(objects)};\n  functions = {listed(functions)};\n  main = {main};\n}}")

    def object(self, item):
        first = listed(str(value) for value in getattr(item, "values", []))
        return f"record {{ variable = {self.variable(item)}; length = {option(item.length)}; first = {first} }}"

    def function(self, item):
        self.run.scopes = [item.around, {parameter.name: parameter for parameter in item.parameters}]
        parameters = listed(self.variable(parameter) for parameter in item.parameters)
        body = self.body(item.body)
        return f"record {{\n    private = {str(item.private).lower()};\n    parameters = {parameters};\n    body = {body};\n  }}"

    # Statements

    def body(self, statements):
        """Statements one after the other."""
        return "".join(f"(Then {self.statement(s)} " for s in statements) + "Nothing" + ")" * len(statements)

    def scoped(self, statements):
        self.scopes.append({})
        text = self.body(statements)
        self.scopes.pop()
        return text

    def alone(self, statement):
        """A statement in a scope of its own, which need not be there."""
        if statement is None:
            return "Nothing"
        self.scopes.append({})
        text = self.statement(statement)
        self.scopes.pop()
        return text

    def statement(self, s):
        return getattr(self, s.kind + "_statement")(s)

    def empty_statement(self, s):
        return "Empty"

    def block_statement(self, s):
        return f"(Block {self.scoped(s.body)})"

    def local_statement(self, s):
        text = f"(Local {self.variable(s)} {option(s.value and self.value(s.value))})"
        self.scopes[-1][s.name] = s
        return text

    def assign_statement(self, s):
        thing = self.run.known(s.name)
        if s.index is None:
            return f"(Assign {self.variable(thing)} {self.value(s.value)})"
        return f"(Store {s.token} {self.variable(thing)} {thing.length} {self.value(s.index)} {self.value(s.value)})"

    def call_statement(self, s):
        function = self.run.known(s.name)
        return "Suspend" if function.kind == "untrusted" else f"(Call {self.called(function, s)})"

    def release_statement(self, s):
        return f"(Release {self.value(s.value)})"

    def check_statement(self, s):
        return "Check"

    def return_statement(self, s):
        return f"(Return {option(s.value and self.value(s.value))})"

    def break_statement(self, s):
        return "Break"

    def continue_statement(self, s):
        return "Continue"

    def if_statement(self, s):
        return f"(If {self.value(s.test)} {self.alone(s.body)} {self.alone(s.other)})"

    def while_statement(self, s):
        return f"(While {self.value(s.test)} {self.alone(s.body)})"

    def for_statement(self, s):
        self.scopes.append({})
        first = self.statement(s.first) if s.first else "Nothing"
        test = option(s.test and self.value(s.test))
        step = self.statement(s.step) if s.step else "Nothing"
        text = f"(For {first} {test} {step} {self.alone(s.body)})"
        self.scopes.pop()
        return text

    # Expressions

    def called(self, function, part):
        arguments = "".join(f"(Argument {self.value(a)} " for a in part.arguments)
        return f"{self.numbers[function.token]} {arguments}NoArguments{')' * len(part.arguments)}"

    def value(self, e):
        return getattr(self, e.kind + "_value")(e)

    def number_value(self, e):
        return f"(Number {e.value})"

    def name_value(self, e):
        return f"(Scalar {self.variable(self.run.known(e.name))})"

    def index_value(self, e):
        thing = self.run.known(e.name)
        return f"(Indexed {e.token} {self.variable(thing)} {thing.length} {self.value(e.index)})"

    def input_value(self, e):
        return "Input"

    def call_value(self, e):
        return f"(Called {self.called(self.run.known(e.name), e)})"

    def unary_value(self, e):
        return f"(Unary {UNARY[e.operator]} {self.value(e.inner)})"

    def binary_value(self, e):
        left, right = self.value(e.left), self.value(e.right)
        if e.operator in ("&&", "||"):
            return f"({'Both' if e.operator == '&&' else 'Either'} {left} {right})"
        if e.operator in BY_TYPE:
            name = BY_TYPE[e.operator] + ("U" if self.run.is_unsigned(e) else "S")
        else:
            name = ARITHMETIC[e.operator]
        return f"(Binary {e.token} {name} {left} {right})"


def entries(found):
    return listed(f"entry {variable} {index} {word}" for variable, index, word in found)


def program_text(items):
    return Writer(items).program()


def meaning_text(means):
    """What a source means, field by field."""
    numbers = "taken releases checks suspensions".split()
    fields = [f"input = {listed(map(str, means.input))}", f"loose = {entries(means.loose)}",
              f"bytes = {listed(map(str, means.bytes))}", f"writes = {entries(means.writes)}"]
    fields += [f"{name} = {getattr(means, name)}" for name in numbers]
    traffic = "; ".join(fields)
    end = " ".join(map(str, means.end))
    return f"record {{ end = {end}; work = {means.work}; traffic = record {{ {traffic} }} }}"
