"""Random scripts of variables, operators, loops and throws: the trees, and a text of them with gaps at random."""

from evaluation import LARGEST, NAN, UNDEFINED

ARITHMETIC = ["+"] * 6 + ["-", "-", "*", "*", "/", "%", "**", "|", "^", "&", "<<", ">>", ">>>"]
BINARY = ARITHMETIC + ["==", "!=", "===", "!==", "<", ">", "<=", ">="]
ASSIGNMENTS = "= = = += -= *= /= %= **= <<= >>= >>>= &= |= ^= &&= ||= ??=".split()
NUMBERS = [0, 1, 2, 3, 5, 7, 10, 31, 32, 33, 255, 256, 1000, 2**31, 2**32, LARGEST, LARGEST - 1]
TEXTS = ["", "a", "b", "ab", "B", "10", " 7 ", "-0", "0x1F", "1.5", "1e3", "Infinity", "-Infinity", "-12", "+5", "\n", "\u00e9"]
TEXTS += ["\ud83d\ude00", "\u2028 3", "1_0", ".", ".5", "5.", "0b102", "-0x1", "--1", "true", "null", "e5", "9007199254740992"]
TEXTS += ["x" * length for length in (1, 255, 256, 300, 700)]

# How tight an expression binds; a tighter one may stand where a looser one may.
SEQUENCE, ASSIGNMENT, CONDITIONAL, COALESCE, OR, AND = range(6)
ROWS = ["|", "^", "&", "== != === !==", "< > <= >=", "<< >> >>>", "+ -", "* / %", "**"]
TIGHTNESS = {operator: AND + 1 + row for row, operators in enumerate(ROWS) for operator in operators.split()}
TIGHTNESS.update({"??": COALESCE, "||": OR, "&&": AND})
POWER = TIGHTNESS["**"]
UNARY, UPDATE, PRIMARY = POWER + 1, POWER + 2, POWER + 3


class Tree:
    """A statement or an expression. Its start is the place of its first token that is no parenthesis, in code units."""

    def __init__(self, kind, *parts, **more):
        self.kind, self.parts, self.start = kind, list(parts), 0
        self.__dict__.update(more)


def literal(value, text):
    return Tree("literal", value=value, text=text)


def name(called):
    return Tree("name", name=called)


class Programs:
    """Makes programs from random numbers."""

    def __init__(self, random):
        self.random = random
        self.names = ["a", "b", "c", "i", "s", "$x_1"][: random.randint(2, 6)]

    def target(self):
        return name(self.random.choice(self.names))

    def number(self):
        value = self.random.choice([*NUMBERS, self.random.randint(0, 100), self.random.randint(0, 2**33)])
        digits = str(value)
        forms = [digits] * 8 + [hex(value), f"0o{value:o}", f"0B{value:b}"]
        if len(digits) > 2:
            forms.append(f"{digits[0]}_{digits[1:]}")
        return literal(value, self.random.choice(forms))

    def text(self):
        value, quote = self.random.choice(TEXTS), self.random.choice("'\"")

        def written(unit):
            if unit == "\n":
                return "\\n"
            if "\ud800" <= unit <= "\udfff":
                return f"\\u{ord(unit):04x}"
            if self.random.random() < 0.05:
                return f"\\x{ord(unit):02x}" if ord(unit) < 256 else f"\\u{{{ord(unit):x}}}"
            return unit

        return literal(value, quote + "".join(map(written, value)) + quote)

    def leaf(self):
        constants = [(True, "true"), (False, "false"), (None, "null")]
        turn = self.random.random()
        if turn < 0.55:
            return self.target()
        if turn < 0.75:
            return self.number()
        if turn < 0.88:
            return self.text()
        return self.random.choice([literal(*self.random.choice(constants)), name("undefined"), name("NaN")])

    def expression(self, depth):
        if depth <= 0 or self.random.random() < 0.18:
            return self.leaf()
        below = lambda: self.expression(depth - 1)
        pick = self.random.choice
        forms = {
            lambda: Tree("binary", below(), below(), operator=pick(BINARY)): 32,
            lambda: Tree("logical", below(), below(), operator=pick(["&&", "||", "??"])): 8,
            lambda: Tree("unary", below(), operator=pick(["!", "-", "+", "~", "typeof", "void"])): 8,
            lambda: Tree("conditional", below(), below(), below()): 6,
            lambda: Tree("update", self.target(), operator=pick(["++", "--"]), is_before=pick([True, False])): 8,
            lambda: Tree("assignment", self.target(), below(), operator=pick(ASSIGNMENTS)): 11,
            lambda: Tree("sequence", *[below() for _ in range(self.random.randint(2, 3))]): 3,
            lambda: self.call(depth): 6,
        }
        return self.random.choices(list(forms), list(forms.values()))[0]()

    def call(self, depth):
        arguments = [self.expression(depth - 1) for _ in range(self.random.randint(0, 3))]
        return Tree("print", *arguments, callee=name("print"))

    def declarations(self):
        value = lambda: self.expression(2) if self.random.random() < 0.8 else None
        count = self.random.choice([1, 1, 1, 2, 3])
        return Tree("var", declarations=[(self.random.choice(self.names), value()) for _ in range(count)])

    def loop(self, depth):
        counter, most = self.random.choice(self.names), self.random.randint(1, 4)
        below = lambda: Tree("binary", name(counter), literal(most, str(most)), operator="<")
        step = lambda: Tree("update", name(counter), operator="++", is_before=self.random.random() < 0.5)
        test = self.random.choice([below, below, below, lambda: self.expression(2)])()
        body = Tree("block", self.statement(depth - 1), Tree("expression", step()))
        zero = lambda: literal(0, "0")
        firsts = [
            lambda: Tree("var", declarations=[(counter, zero())]),
            lambda: Tree("assignment", name(counter), zero(), operator="="),
            lambda: None,
            self.declarations,
            lambda: self.expression(2),
        ]
        kind = self.random.choice(["while", "do", "for", "for"])
        if kind == "while":
            return Tree("while", test, body)
        if kind == "do":
            return Tree("do", body, test)
        update = self.random.choice([step, step, lambda: self.expression(2), lambda: None])()
        return Tree("for", self.random.choice(firsts)(), self.random.choice([test, test, test, None]), update, self.statement(depth - 1))

    def statement(self, depth):
        if depth <= 0 or self.random.random() < 0.35:
            return Tree("expression", self.expression(3))
        below = lambda: self.statement(depth - 1)
        forms = {
            lambda: Tree("expression", self.call(3)): 15,
            self.declarations: 12,
            lambda: Tree("block", *[below() for _ in range(self.random.randint(0, 3))]): 7,
            lambda: Tree("empty"): 3,
            lambda: Tree("debugger"): 2,
            lambda: Tree("throw", self.expression(2)): 2,
            lambda: Tree("if", self.expression(2), below(), self.random.choice([below(), None])): 9,
            lambda: self.loop(depth): 19,
        }
        return self.random.choices(list(forms), list(forms.values()))[0]()

    def program(self):
        """A program as its text and its statements. Each name that it has is declared."""
        statements = [self.statement(3) for _ in range(self.random.randint(1, 7))]
        declared = Tree("var", declarations=[(called, None) for called in self.names])
        statements.insert(self.random.randint(0, len(statements)), declared)
        if statements[0].kind == "expression":
            # no text of the built form begins with a string
            statements.insert(0, Tree("empty"))
        writer = Writer(self.random)
        for statement in statements:
            writer.statement(statement)
        return writer.end(), statements


class Writer:
    """Writes trees as tokens with gaps between them, and notes where each tree starts."""

    def __init__(self, random):
        self.random, self.pieces, self.units, self.last = random, [], 0, ""
        self.lacks_semicolon, self.may_end_do, self.starting = False, False, []

    def put(self, text):
        self.pieces.append(text)
        self.units += len(text.encode("utf-16-le", "surrogatepass")) // 2

    def needs_gap(self, token):
        """Whether the last token and this one would be another token side by side."""
        if not self.last:
            return False
        is_word = lambda unit: unit.isalnum() or unit in "_$"
        before, behind = self.last[-1], token[0]
        together = [set("+-"), set("<>=!&|*?"), set("/*")]
        return (is_word(before) and is_word(behind)) or any(before in them and behind in them for them in together) or (before == "?" and behind.isdigit())

    def gap(self):
        gaps = [" "] * 6 + ["  ", "\t", "/*c*/", "/**/"] + ["\n", " // x\n", "/*\n*/", "\r\n", "\u2028"]
        return self.random.choice(gaps[:10] if self.random.random() < 0.9 else gaps)

    def end_statement(self, token):
        """A semicolon, or a line end before a token that cannot go on with what stands before it, or a closing brace."""
        self.lacks_semicolon = False
        turn = self.random.random()
        if token == "}" and turn < 0.5:
            return
        if token not in ("(", "+", "-", "++", "--", ";") and turn < 0.35:
            self.put(self.random.choice(["\n", " // z\n", "/*\n*/", "\r", "\u2029"]))
            self.last = ""
        else:
            self.put(";")
            self.last = ";"

    def token(self, token, is_parenthesis=False, may_break=True):
        if self.lacks_semicolon:
            self.end_statement(token)
        if self.needs_gap(token) or self.random.random() < 0.35:
            gap = self.gap()
            is_unfit = gap.strip()[:1] == "/" and self.last[-1:] == "/"
            breaks = any(unit in gap for unit in "\n\r\u2028")
            self.put(" " if is_unfit or (breaks and not may_break) else gap)
        if not is_parenthesis:
            for tree in self.starting:
                tree.start = self.units
            self.starting = []
        self.put(token)
        self.last, self.may_end_do = token, False

    def in_parentheses(self, write, times=1):
        for _ in range(times):
            self.token("(", is_parenthesis=True)
        write()
        for _ in range(times):
            self.token(")", is_parenthesis=True)

    def expression(self, tree, loosest):
        """Writes an expression where one that binds as tight as this, or tighter, may stand."""
        own = self.tightness(tree)
        if own < loosest or self.random.random() < 0.05:
            self.in_parentheses(lambda: self.bare(tree), self.random.choice([1] * 9 + [2]))
        else:
            self.bare(tree)

    def tightness(self, tree):
        kinds = {"sequence": SEQUENCE, "assignment": ASSIGNMENT, "conditional": CONDITIONAL, "unary": UNARY, "update": UPDATE}
        return TIGHTNESS[tree.operator] if tree.kind in ("binary", "logical") else kinds.get(tree.kind, PRIMARY)

    def bare(self, tree):
        self.starting.append(tree)
        getattr(self, f"write_{tree.kind}")(tree)

    def write_literal(self, tree):
        self.token(tree.text)

    def write_name(self, tree):
        self.token(tree.name)

    def listed(self, trees):
        for place, tree in enumerate(trees):
            if place:
                self.token(",")
            self.expression(tree, ASSIGNMENT)

    def write_sequence(self, tree):
        self.listed(tree.parts)

    def write_assignment(self, tree):
        self.target(tree.parts[0])
        self.token(tree.operator)
        self.expression(tree.parts[1], ASSIGNMENT)

    def write_conditional(self, tree):
        self.expression(tree.parts[0], COALESCE)
        self.token("?")
        self.expression(tree.parts[1], ASSIGNMENT)
        self.token(":")
        self.expression(tree.parts[2], ASSIGNMENT)

    def write_logical(self, tree):
        own = TIGHTNESS[tree.operator]
        for place, part in enumerate(tree.parts):
            if place:
                self.token(tree.operator)
            self.expression(part, self.beside(tree.operator, part, own + place))

    def beside(self, operator, part, loosest):
        """`??` stands beside `||` and `&&` in parentheses alone."""
        if part.kind == "logical" and (operator == "??") != (part.operator == "??"):
            return PRIMARY + 1
        return loosest

    def write_binary(self, tree):
        own = TIGHTNESS[tree.operator]
        is_power = tree.operator == "**"
        self.expression(tree.parts[0], UPDATE if is_power else own)
        self.token(tree.operator)
        self.expression(tree.parts[1], own if is_power else own + 1)

    def write_unary(self, tree):
        self.token(tree.operator)
        self.expression(tree.parts[0], UNARY)

    def write_update(self, tree):
        if tree.is_before:
            self.token(tree.operator)
        self.target(tree.parts[0])
        if not tree.is_before:
            self.token(tree.operator, may_break=False)

    def write_print(self, tree):
        self.starting.append(tree.callee)
        self.token("print")
        self.token("(", is_parenthesis=True)
        self.listed(tree.parts)
        if tree.parts and self.random.random() < 0.1:
            self.token(",")
        self.token(")", is_parenthesis=True)

    def target(self, tree):
        if self.random.random() < 0.05:
            self.in_parentheses(lambda: self.bare(tree))
        else:
            self.bare(tree)

    def head(self, word, tree):
        self.token(word)
        self.token("(")
        self.expression(tree, SEQUENCE)
        self.token(")")

    def statement(self, tree):
        self.starting.append(tree)
        getattr(self, f"state_{tree.kind}")(tree)

    def state_expression(self, tree):
        self.expression(tree.parts[0], SEQUENCE)
        self.lacks_semicolon = True

    def declared(self, tree):
        self.token("var")
        for place, (called, value) in enumerate(tree.declarations):
            if place:
                self.token(",")
            self.token(called)
            if value is not None:
                self.token("=")
                self.expression(value, ASSIGNMENT)

    def state_var(self, tree):
        self.declared(tree)
        self.lacks_semicolon = True

    def state_block(self, tree):
        self.token("{")
        for statement in tree.parts:
            self.statement(statement)
        self.token("}")

    def state_debugger(self, tree):
        self.token("debugger")
        self.lacks_semicolon = True

    def state_throw(self, tree):
        # no line may end between the word and the value
        self.token("throw")
        self.token("(", is_parenthesis=True, may_break=False)
        self.expression(tree.parts[0], SEQUENCE)
        self.token(")", is_parenthesis=True)
        self.lacks_semicolon = True

    def state_empty(self, tree):
        if self.may_end_do:
            # the first semicolon is that of the `do`
            self.starting.remove(tree)
            self.token(";")
            self.starting.append(tree)
        self.token(";")

    def state_if(self, tree):
        test, yes, no = tree.parts
        if no is not None and takes_else(yes):
            tree.parts[1] = yes = Tree("block", yes)
        self.head("if", test)
        self.statement(yes)
        if no is not None:
            self.token("else")
            self.statement(no)

    def state_while(self, tree):
        self.head("while", tree.parts[0])
        self.statement(tree.parts[1])

    def state_do(self, tree):
        self.token("do")
        self.statement(tree.parts[0])
        self.head("while", tree.parts[1])
        if self.random.random() < 0.7:
            self.token(";")
        else:
            self.may_end_do = True

    def state_for(self, tree):
        first, test, update, body = tree.parts
        self.token("for")
        self.token("(")
        if first is not None and first.kind == "var":
            self.starting.append(first)
            self.declared(first)
        elif first is not None:
            self.expression(first, SEQUENCE)
        for part in (test, update):
            self.token(";")
            if part is not None:
                self.expression(part, SEQUENCE)
        self.token(")")
        self.statement(body)

    def end(self):
        if self.lacks_semicolon and self.random.random() < 0.5:
            self.put(";")
        return "".join(self.pieces)


def takes_else(statement):
    """Whether an `else` behind this statement would belong to an `if` in it."""
    if statement.kind == "if":
        return statement.parts[2] is None or takes_else(statement.parts[2])
    return statement.kind in ("while", "for") and takes_else(statement.parts[-1])
