"""The grammar of scripts as a table, and a recognizer that knows nothing but the table: where a text fails, and by which marker.

It follows every way in which the tokens so far can be read at once (Earley's method), so the token at which no way is left is the
first one that cannot continue. A semicolon is inserted by the rule as the standard words it: where a token cannot continue.
"""

from collections import namedtuple

from tokens import Token, marker_of_failure, tokens_of

# ---- the table

RULES = {}


def rule(name, *forms):
    RULES.setdefault(name, []).extend(tuple(form.split()) for form in forms)


def rows(name, tighter, operators):
    rule(name, tighter, *[f"{name} {operator} {tighter}" for operator in operators.split()])


# In the head of a `for` an expression has no operator `in` (its rules end in O); elsewhere it may have one (they end in I).
for letter in "IO":
    here = lambda *names: [name + letter for name in names]
    Expr, Assign, Body, Cond, Short, Coalesce, Or, And = here("Expr", "Assign", "ArrowBody", "Cond", "Short", "Coalesce", "Or", "And")
    BitOr, BitXor, BitAnd, Equality, Relation = here("BitOr", "BitXor", "BitAnd", "Equality", "Relation")
    rows(Expr, Assign, ",")
    rule(Assign, f"NO-ARROW {Cond}", f"NO-ARROW Target = {Assign}", f"NO-ARROW Target Operate {Assign}")
    rule(Assign, f"IDENTIFIER SAME-LINE => {Body}", f"ARROW ( Params ) SAME-LINE => {Body}")
    rule(Body, "Body", f"NO-BRACE {Assign}")
    rule(Cond, Short, f"{Short} ? AssignI : {Assign}")
    rule(Short, Or, Coalesce)
    rule(Coalesce, f"{BitOr} ?? {BitOr}", f"{Coalesce} ?? {BitOr}")
    rows(Or, And, "||")
    rows(And, BitOr, "&&")
    rows(BitOr, BitXor, "|")
    rows(BitXor, BitAnd, "^")
    rows(BitAnd, Equality, "&")
    rows(Equality, Relation, "== != === !==")
    rows(Relation, "Shift", "< > <= >= instanceof" + " in" * (letter == "I"))
    rows(f"Decls{letter}", f"Decl{letter}", ",")
    rule(f"Decl{letter}", "BINDING", f"BINDING = {Assign}")
rule("Operate", *"+= -= *= /= %= **= <<= >>= >>>= &= |= ^= &&= ||= ??=".split())
rows("Shift", "Add", "<< >> >>>")
rows("Add", "Multiply", "+ -")
rows("Multiply", "Power", "* / %")
rule("Power", "Unary", "Update ** Power")
rule("Unary", "Update", *[f"{operator} Unary" for operator in "delete void typeof + - ~ !".split()])
rule("Update", "++ Target", "-- Target", "Target SAME-LINE ++", "Target SAME-LINE --", "Left")
# Arguments belong to the innermost `new`, and a `new` without them is followed by no part.
rule("Left", "BareNew", "Chain")
rule("BareNew", "new Member")
rule("Member", "BareNew", "Plain")
rule("Plain", "Primary", "new Plain Args", "Plain . NAME", "Plain [ ExprI ]")
rule("Called", "Plain", "Called Args", "Called . NAME", "Called [ ExprI ]")
rule("Chain", "Called", "Chain Args", "Chain . NAME", "Chain [ ExprI ]", "Chain ?. NAME", "Chain ?. [ ExprI ]", "Chain ?. Args")
rule("Target", "IDENTIFIER", "Called . NAME", "Called [ ExprI ]", "( NO-ARROW Target )")
rule("Args", "( List )")
rule("List", "", "Given", "Given , List")
rule("Given", "AssignI", "... AssignI")
rule("Primary", "this", "null", "true", "false", "IDENTIFIER", "NUMBER", "STRING", "Array", "Object", "Function", "Template", "( ExprI )")
rule("Primary", "function ( Params ) Body")
rule("Array", "[ Elements ]")
rule("Elements", "Element", "Element , Elements")
rule("Element", "", "Given")
rule("Object", "{ Properties }")
rule("Properties", "", "Property", "Property , Properties")
rule("Property", "KEY : AssignI", "IDENTIFIER", "[ AssignI ] : AssignI", "... AssignI", "KEY ( Params ) Body")
rule("Property", "[ AssignI ] ( Params ) Body", "get ACCESSED ( ) Body", "set ACCESSED ( PARAMETER ) Body")
rule("Function", "function BINDING ( Params ) Body")
rule("Params", "", "... PARAMETER", "PARAMETER", "PARAMETER , Params")
rule("Body", "{ Items }")
rule("Template", "WHOLE", "HEAD ExprI Pieces")
rule("Pieces", "TAIL", "MIDDLE ExprI Pieces")
rule("Items", "", "Items Item")
rule("Item", "Function", "let DeclsI END", "const DeclsI END", "Statement")
rule("Statement", "Block", ";", "var DeclsI END", "NO-BRACE NO-FUNCTION ExprI END", "If", "do Statement while ( ExprI ) DO-END")
rule("Statement", "while ( ExprI ) Statement", "for ( First ; Optional ; Optional ) Statement", "for ( Head in ExprI ) Statement")
rule("Statement", "for ( Head of AssignI ) Statement", "continue END", "continue SAME-LINE IDENTIFIER END", "break END")
rule("Statement", "break SAME-LINE IDENTIFIER END", "return END", "return SAME-LINE ExprI END", "throw SAME-LINE ExprI END")
rule("Statement", "debugger END", "switch ( ExprI ) { Cases }", "switch ( ExprI ) { Cases default : Items Cases }")
rule("Statement", "try Block Catch", "try Block Catch finally Block", "try Block finally Block", "IDENTIFIER : Statement")
rule("Block", "{ Items }")
rule("If", "if ( ExprI ) Statement", "if ( ExprI ) Statement else Statement")
rule("Optional", "", "ExprI")
rule("First", "", "var DeclsO", "let DeclsO", "const DeclsO", "ExprO")
rule("Head", "var BINDING", "let BINDING", "const BINDING", "Target")
rule("Cases", "", "Cases case ExprI : Items")
rule("Catch", "catch Block", "catch ( BINDING ) Block")

# What stands for no token: a test of the next one.
TESTS = {
    "SAME-LINE": lambda token: not token.is_behind_line_end,
    "NO-BRACE": lambda token: not token.is_punctuator("{"),
    "NO-FUNCTION": lambda token: not token.is_word("function"),
    "NO-ARROW": lambda token: not token.begins_arrow,
    "ARROW": lambda token: token.begins_arrow,
}
# What stands for a token of a kind; every other word stands for itself.
KINDS = {
    "IDENTIFIER": Token.is_identifier,
    "BINDING": Token.is_identifier,
    "PARAMETER": Token.is_identifier,
    "NAME": lambda token: token.kind == "word",
    "KEY": lambda token: token.kind in ("word", "string", "number"),
    "ACCESSED": lambda token: token.kind in ("word", "string", "number"),
    "END": lambda token: token.is_punctuator(";"),
    "DO-END": lambda token: token.is_punctuator(";"),
}
KINDS.update({kind.upper(): lambda token, kind=kind: token.kind == kind for kind in "number string whole head middle tail".split()})


def fits(symbol, token):
    return KINDS[symbol](token) if symbol in KINDS else token.is_word(symbol) or token.is_punctuator(symbol)


def that_may_be_empty():
    found = set()
    while True:
        more = {name for name, forms in RULES.items() if any(all(part in found for part in form) for form in forms)}
        if more == found:
            return found
        found = more


EMPTY = that_may_be_empty()

# A form of a rule, how many of its parts were read, and the set in which it began.
Way = namedtuple("Way", "name form read began")


class Ways:
    """The ways in which tokens can be read so far, closed under the rules. `at` is the place of the token that is next."""

    def __init__(self, earlier, found, token):
        self.earlier, self.token, self.at = earlier, token, token.at
        self.all, self.waiting, self.done, self.todo = set(), {}, set(), []
        self.add(found)
        while self.todo:
            self.follow(self.todo.pop())

    def add(self, ways):
        for way in ways:
            if way not in self.all:
                self.all.add(way)
                self.todo.append(way)

    def follow(self, way):
        if way.read == len(way.form):
            self.complete(way)
            return
        part = way.form[way.read]
        if part in RULES:
            self.waiting.setdefault(part, []).append(way)
            self.add(Way(part, form, 0, len(self.earlier)) for form in RULES[part])
            if part in EMPTY or part in self.done:
                self.add([way._replace(read=way.read + 1)])
        elif part in TESTS and TESTS[part](self.token):
            self.add([way._replace(read=way.read + 1)])

    def complete(self, way):
        if way.began == len(self.earlier):
            self.done.add(way.name)
            waiting = self.waiting
        else:
            waiting = self.earlier[way.began].waiting
        self.add([waits._replace(read=waits.read + 1) for waits in waiting.get(way.name, [])])

    def wanted(self):
        """The tokens that could come next, each with its way."""
        for way in self.all:
            if way.read < len(way.form) and way.form[way.read] not in RULES and way.form[way.read] not in TESTS:
                yield way.form[way.read], way

    def behind(self, takes):
        """The ways behind what is wanted here and taken."""
        return [way._replace(read=way.read + 1) for symbol, way in self.wanted() if takes(symbol)]


class Failure:
    """The token at which a script fails, by its number, and the ways that were open there."""

    def __init__(self, number, ways):
        self.number, self.ways = number, ways


def failure_of(tokens):
    """Where the tokens fail; None where they are a script."""
    start = Way("Script", ("Items",), 0, 0)
    found, sets, number, tried = [start], [], 0, []
    while True:
        token = tokens[number]
        ways = Ways(sets, found, token)
        if token.kind == "end" and start._replace(read=1) in ways.all:
            return None
        sets.append(ways)
        tried.append(ways)
        found = [] if token.kind == "end" else ways.behind(lambda symbol: fits(symbol, token))
        if found:
            number, tried = number + 1, []
            continue
        may_insert = token.is_behind_line_end or token.is_punctuator("}")
        found = ways.behind(lambda symbol: symbol == "DO-END" or (symbol == "END" and may_insert))
        if not found:
            return Failure(number, tried)


# ---- markers

BEFORE_EXPRESSION = "return typeof case in of delete void throw else do".split()
NAMED = "class async await yield super with arguments __proto__".split()


def markers_of_tokens(tokens):
    """What the tokens show of the things that are left out by name: places and markers."""
    start = Token("start", "", 0, True)
    for before, token, behind in zip([start, *tokens], tokens, tokens[1:]):
        if token.is_word(*NAMED):
            yield token.at, token.text
        if token.is_word("import") and behind.is_punctuator("(", "."):
            yield token.at, "import call"
        if token.is_word("new") and behind.is_punctuator("."):
            yield token.at, "new.target"
        if token.is_word("function") and behind.is_punctuator("*"):
            yield token.at, "generator"
        if token.is_punctuator("*") and before.is_punctuator("{", ","):
            yield token.at, "generator"
        is_behind_punctuator = before.kind == "punctuator" and before.text not in (")", "]", "}", "++", "--")
        if token.is_punctuator("/", "/=") and (before is start or is_behind_punctuator or before.is_word(*BEFORE_EXPRESSION)):
            yield token.at, "regular expression"
        is_behind_tag = before.is_identifier() or before.is_punctuator(")", "]") or before.kind in ("whole", "tail")
        if token.kind in ("whole", "head") and is_behind_tag:
            yield token.at, "tagged template"


def literals_as_targets(ways):
    """The places of the array and object literals that are all that stands before this token of an assignment."""
    conditions = {way.began for way in ways.all if way.name in ("CondI", "CondO") and way.read == len(way.form)}
    for way in ways.all:
        if way.name in ("Array", "Object") and way.read == len(way.form) and way.began in conditions:
            yield ways.earlier[way.began].at


def is_parameter(way):
    """Whether a parameter was read last."""
    return way.read > 0 and way.form[way.read - 1] == "PARAMETER"


def markers_of_place(token, failure):
    """What the token shows at which the grammar fails."""
    wanted = {symbol for ways in failure.ways for symbol, _ in ways.wanted()}
    if token.is_punctuator("[", "{") and wanted & {"BINDING", "PARAMETER"}:
        yield token.at, "pattern"
    if token.is_punctuator("[") and "ACCESSED" in wanted:
        yield token.at, "computed accessor"
    if token.is_punctuator("="):
        for ways in failure.ways:
            if any(map(is_parameter, ways.all)):
                yield token.at, "default parameter"
            yield from ((at, "pattern") for at in literals_as_targets(ways))


def judgement(text):
    """How reading a text of code units fails: its status and its error line for the file a.js. None where it is a script by the
    grammar."""
    tokens, place = tokens_of(text)
    if place is not None:
        marker = marker_of_failure(text, place)
        markers = [(place, marker)] if marker else []
        tokens.append(Token("failure", "", place, False))
    else:
        failure = failure_of(tokens)
        if failure is None:
            return None
        place = tokens[failure.number].at
        markers = [*markers_of_place(tokens[failure.number], failure)]
    markers += markers_of_tokens(tokens)
    if markers:
        at, marker = min(markers)
        return 3, f"stop: unsupported {marker} at {at}, realm 0, source 0, at 0\n"
    return 1, f"uncaught a.js: SyntaxError: syntax error at {place}\n"
