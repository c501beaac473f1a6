"""Random scripts of declarations, labels, functions and directives: the trees, and a text of them with a space behind each token."""

NAMES = list("abcdeghmnpquvwxyz")
STRICTLY_RESERVED = "implements interface package private protected public static".split()


class Name:
    """A name where it stands; its place is noted as it is written."""

    def __init__(self, text):
        self.text, self.at = text, None


class Tree:
    """A statement or an expression; its place is noted as it is written."""

    def __init__(self, kind, **parts):
        self.kind, self.at = kind, None
        self.__dict__.update(parts)


class Scripts:
    """Makes scripts from random numbers."""

    def __init__(self, random):
        self.random = random
        self.names = NAMES * 2 + ["a"] * random.choice([0, 6])
        if random.random() < 0.3:
            self.names += ["eval", "eval", *[random.choice(STRICTLY_RESERVED)] * 2]

    def happens(self, chance):
        return self.random.random() < chance

    def name(self):
        return Name(self.random.choice(self.names))

    def reference(self):
        return Tree("reference", name=self.name())

    def some(self, make, most):
        return [make() for _ in range(self.random.randint(0, most))]

    def one_of(self, forms):
        """Makes one of these forms, which have weights."""
        return self.random.choices(list(forms), list(forms.values()))[0]()

    def expression(self, depth):
        if depth <= 0 or self.happens(0.35):
            return self.reference() if self.happens(0.6) else Tree("number")
        below = lambda: self.expression(depth - 1)
        pick = self.random.choice
        return self.one_of(
            {
                lambda: Tree("assignment", target=self.reference(), operator=pick(["=", "+=", "&&="]), value=below()): 10,
                lambda: Tree("update", target=self.reference(), is_before=self.happens(0.5)): 5,
                lambda: Tree("delete", of=pick([self.reference, lambda: self.member(0)])(), is_wrapped=self.happens(0.3)): 5,
                lambda: Tree("sum", parts=[below(), below()]): 7,
                lambda: self.member(depth - 1): 6,
                lambda: Tree("call", callee=below(), arguments=self.some(below, 2)): 6,
                lambda: self.function(depth - 1, "function expression", has_name=self.happens(0.6)): 6,
                lambda: self.arrow(depth - 1): 6,
                lambda: Tree("object", properties=self.some(lambda: self.property(depth - 1), 3)): 6,
                lambda: Tree("array", elements=self.some(below, 2)): 8,
            }
        )

    def member(self, depth):
        return Tree("member", of=self.expression(depth), key=self.random.choice(["a", "eval", "static", "if"]))

    def function(self, depth, kind, has_name=True):
        return Tree(kind, name=self.name() if has_name else None, parameters=self.parameters(), rest=self.rest(), body=self.body(depth))

    def parameters(self):
        return self.some(self.name, 2)

    def rest(self):
        return self.name() if self.happens(0.15) else None

    def arrow(self, depth):
        if self.happens(0.3):
            return Tree("short arrow", parameters=[self.name()], rest=None, value=self.expression(depth))
        return self.function(depth, "arrow", has_name=False)

    def property(self, depth):
        key = lambda: self.random.choice(["a", "static", "eval"])
        return self.one_of(
            {
                lambda: Tree("shorthand", name=self.name()): 30,
                lambda: Tree("keyed", key=key(), value=self.expression(depth)): 25,
                lambda: self.method(depth, "method", key(), self.parameters(), self.rest()): 20,
                lambda: self.method(depth, "getter", key(), [], None): 12,
                lambda: self.method(depth, "setter", key(), [self.name()], None): 13,
            }
        )

    def method(self, depth, kind, key, parameters, rest):
        return Tree(kind, key=key, name=None, parameters=parameters, rest=rest, body=self.body(depth))

    def body(self, depth):
        """The items of a script or of a function, with directives before them or without."""
        directives = []
        if self.happens(0.15):
            directives = self.some(lambda: Tree("directive", text="'x'"), 1)
            forms = ["'use strict'", '"use strict"', "'use strict'", "'use\\x20strict'", "( 'use strict' )"]
            directives.append(Tree("directive", text=self.random.choice(forms)))
        return directives + self.items(depth)

    def items(self, depth):
        return self.some(lambda: self.item(depth), 3)

    def item(self, depth):
        forms = {lambda: self.declaration(self.random.choice(["let", "let", "const"]), 0.9): 20, lambda: self.statement(depth): 68}
        if depth > 0:
            forms[lambda: self.function(depth - 1, "function")] = 12
        return self.one_of(forms)

    def declaration(self, word, chance):
        value = lambda: self.expression(1) if self.happens(chance) else None
        return Tree("declaration", word=word, names=[(self.name(), value()) for _ in range(self.random.choice([1, 1, 2]))])

    def statement(self, depth):
        if depth <= 0 or self.happens(0.2):
            return Tree("expression statement", value=self.expression(2))
        below, test = lambda: self.statement(depth - 1), lambda: self.expression(1)
        label = lambda: Name(self.random.choice("abl"))
        target = lambda: self.random.choice([None, None, label()])
        return self.one_of(
            {
                lambda: self.declaration("var", 0.5): 13,
                lambda: Tree("block", items=self.items(depth - 1)): 12,
                lambda: Tree("if", test=test(), yes=below(), no=below() if self.happens(0.4) else None): 5,
                lambda: Tree("while", test=test(), body=below()): 4,
                lambda: Tree("do", test=test(), body=below()): 3,
                lambda: self.loop(depth): 7,
                lambda: self.loop_over(depth): 8,
                lambda: Tree("switch", value=test(), clauses=self.some(lambda: self.items(depth - 1), 3)): 6,
                lambda: self.attempt(depth): 8,
                lambda: Tree("label", label=label(), body=below()): 6,
                lambda: Tree("break", label=target()): 3,
                lambda: Tree("continue", label=target()): 3,
                lambda: Tree("return", value=test() if self.happens(0.5) else None): 5,
            }
        )

    def loop(self, depth):
        declared = lambda: self.declaration(self.random.choice(["var", "let", "const"]), 0.85)
        first = self.random.choice([lambda: None, lambda: self.expression(1), declared, declared, declared])()
        return Tree("for", first=first, test=self.expression(1), update=self.expression(1), body=self.statement(depth - 1))

    def loop_over(self, depth):
        word = self.random.choice(["var", "let", "const", None])
        preposition = self.random.choice(["of", "in"])
        return Tree("for each", word=word, name=self.name(), preposition=preposition, value=self.expression(1), body=self.statement(depth - 1))

    def attempt(self, depth):
        block = lambda: Tree("block", items=self.items(depth - 1))
        handler = block() if self.happens(0.8) else None
        parameter = self.name() if handler and self.happens(0.7) else None
        finalizer = block() if handler is None or self.happens(0.3) else None
        return Tree("try", tried=block(), parameter=parameter, handler=handler, finalizer=finalizer)

    def script(self):
        """A script as its text and its items."""
        items = self.body(self.random.randint(1, 4))
        writer = Writer()
        for item in items:
            writer.write(item)
        return writer.text, items


class Writer:
    """Writes trees, and notes where trees and names stand."""

    def __init__(self):
        self.text = ""

    def put(self, *tokens):
        """Writes tokens, names and trees, and leaves out what is None."""
        for token in tokens:
            if isinstance(token, Name):
                token.at = len(self.text)
                self.put(token.text)
            elif isinstance(token, Tree):
                self.write(token)
            elif token is not None:
                self.text += token + " "

    def write(self, tree):
        tree.at = len(self.text)
        getattr(self, "write_" + tree.kind.replace(" ", "_"))(tree)

    def listed(self, parts):
        for number, part in enumerate(parts):
            self.put("," if number else None, part)

    def wrapped(self, tree, *tokens):
        """Writes tokens in parentheses, which are no part of the tree."""
        self.put("(")
        tree.at = len(self.text)
        self.put(*tokens)
        self.put(")")

    def block(self, items):
        self.put("{", *items, "}")

    def write_reference(self, tree):
        self.put(tree.name)

    def write_number(self, tree):
        self.put("1")

    def write_assignment(self, tree):
        self.wrapped(tree, tree.target, tree.operator, tree.value)

    def write_update(self, tree):
        self.wrapped(tree, *["++", tree.target][:: 1 if tree.is_before else -1])

    def write_delete(self, tree):
        self.wrapped(tree, "delete", *(["(", tree.of, ")"] if tree.is_wrapped else [tree.of]))

    def write_sum(self, tree):
        self.wrapped(tree, tree.parts[0], "+", tree.parts[1])

    def write_member(self, tree):
        self.put("(", tree.of, ")", ".", tree.key)

    def write_call(self, tree):
        self.put("(", tree.callee, ")", "(")
        self.listed(tree.arguments)
        self.put(")")

    def head(self, tree):
        self.put("(")
        self.listed(tree.parameters)
        if tree.rest:
            self.put("," if tree.parameters else None, "...", tree.rest)
        self.put(")")

    def write_function(self, tree):
        self.put("function", tree.name)
        self.head(tree)
        self.block(tree.body)

    def write_function_expression(self, tree):
        self.put("(")
        self.write_function(tree)
        self.put(")")

    def write_arrow(self, tree):
        self.put("(")
        self.head(tree)
        self.put("=>")
        self.block(tree.body)
        self.put(")")

    def write_short_arrow(self, tree):
        self.wrapped(tree, *tree.parameters, "=>", "(", tree.value, ")")

    def write_object(self, tree):
        self.put("(", "{")
        self.listed(tree.properties)
        self.put("}", ")")

    def write_array(self, tree):
        self.put("[")
        self.listed(tree.elements)
        self.put("]")

    def write_shorthand(self, tree):
        self.put(tree.name)

    def write_keyed(self, tree):
        self.put(tree.key, ":", tree.value)

    def write_method(self, tree):
        self.put({"getter": "get", "setter": "set"}.get(tree.kind), tree.key)
        self.head(tree)
        self.block(tree.body)

    write_getter = write_setter = write_method

    def write_directive(self, tree):
        self.put(tree.text, ";")

    def write_expression_statement(self, tree):
        self.put("0", ",", tree.value, ";")

    def declared(self, tree):
        self.put(tree.word)
        for number, (name, value) in enumerate(tree.names):
            self.put("," if number else None, name, "=" if value else None, value)

    def write_declaration(self, tree):
        self.declared(tree)
        self.put(";")

    def write_block(self, tree):
        self.block(tree.items)

    def write_if(self, tree):
        self.put("if", "(", tree.test, ")")
        if tree.no is None:
            self.put(tree.yes)
        else:
            self.block([tree.yes])
            self.put("else", tree.no)

    def write_while(self, tree):
        self.put("while", "(", tree.test, ")", tree.body)

    def write_do(self, tree):
        self.put("do", tree.body, "while", "(", tree.test, ")", ";")

    def write_for(self, tree):
        self.put("for", "(")
        if tree.first and tree.first.kind == "declaration":
            self.declared(tree.first)
        else:
            self.put(tree.first)
        self.put(";", tree.test, ";", tree.update, ")", tree.body)

    def write_for_each(self, tree):
        self.put("for", "(", tree.word, tree.name, tree.preposition, tree.value, ")", tree.body)

    def write_switch(self, tree):
        self.put("switch", "(", tree.value, ")", "{")
        for number, items in enumerate(tree.clauses):
            self.put(*(["default"] if number == 1 else ["case", "1"]), ":", *items)
        self.put("}")

    def write_try(self, tree):
        self.put("try", tree.tried)
        if tree.handler:
            self.put("catch", *(["(", tree.parameter, ")"] if tree.parameter else []), tree.handler)
        if tree.finalizer:
            self.put("finally", tree.finalizer)

    def write_label(self, tree):
        self.put(tree.label, ":", tree.body)

    def write_break(self, tree):
        self.put(tree.kind, tree.label, ";")

    write_continue = write_break

    def write_return(self, tree):
        self.put("return", tree.value, ";")
