"""Random texts near the grammar: derived from its table, and then changed by a few tokens and characters."""

from grammar import RULES, TESTS

WORDS = {
    "IDENTIFIER": ["a", "b", "c", "x", "of", "get", "set", "as", "f"],
    "NAME": ["a", "b", "if", "new", "get", "of", "in"],
    "KEY": ["a", "b", "if", "1", "'k'", "get", "set"],
    "NUMBER": ["1", "0", "23", "1_0", "0xF_f", "0B1", "0o17", "9007199254740991"],
    "STRING": ["'s'", '""', "'\\x41\\u{1F600}\\0'", '"\\\n"', "'\u2028'", "'\U0001F600'"],
    "WHOLE": ["`t`", "`$\n\\``"],
    "HEAD": ["`a${", "`$${"],
    "MIDDLE": ["}m${", "}${"],
    "TAIL": ["}z`", "}`"],
    "END": [";", ";", ";", "\n"],
    "DO-END": [";", ""],
}
WORDS.update(BINDING=WORDS["IDENTIFIER"], PARAMETER=WORDS["IDENTIFIER"], ACCESSED=WORDS["KEY"])
GAPS = [" "] * 70 + ["\n"] * 4 + ["\t", "\ufeff", "\u00a0", "\u2003", "\r", "\r\n", "\u2029", "/*c*/", "/*\n*/", "/**\r*/", "// \U0001F600\n", "//*\u2028"]
CHARACTERS = [*"\"'`${}\\/*.?0189_xnebu#@!\n\r ab<=>+-&|", "\u00e9", "\u2028", "\u3000", "\U0001F600", "*/", "${", "\\u"]
STRAY = (
    "a b x of get set let var const function if else for while do ( ) [ ] { } , ; : = => ... . ?. ?? || && + - ++ -- ** ! typeof new in"
    " instanceof this 1 's' `t` return break continue throw case default switch try catch finally delete == < ? += null class async yield"
    " __proto__ import / * export `a${ }z` static enum"
).split() + ["\n"]


def shortest_forms():
    """The form of each rule that comes to the fewest tokens."""
    sizes = {}
    size = lambda part: 0 if part in TESTS else sizes.get(part, 1000) if part in RULES else 1
    for _ in RULES:
        for name, forms in RULES.items():
            sizes[name] = min(1 + sum(map(size, form)) for form in forms)
    return {name: min(forms, key=lambda form: sum(map(size, form))) for name, forms in RULES.items()}


SHORTEST = shortest_forms()


class Texts:
    """Makes texts from random numbers."""

    def __init__(self, random):
        self.random = random

    def form(self, name, depth):
        forms = RULES[name]
        is_row = forms[0] in ((part,) for part in RULES)
        if depth <= 0:
            return SHORTEST[name]
        if (is_row and self.random.random() < 0.6) or (name == "Items" and self.random.random() < 0.4):
            return forms[0]
        return self.random.choice(forms)

    def derived(self, part, depth):
        if part in TESTS:
            return []
        if part not in RULES:
            return [self.random.choice(WORDS.get(part, [part]))]
        return [token for below in self.form(part, depth) for token in self.derived(below, depth - 1)]

    def change(self, tokens):
        at, turn = self.random.randrange(len(tokens)), self.random.random()
        if turn < 0.35:
            del tokens[at]
        elif turn < 0.65:
            tokens.insert(at, self.random.choice(STRAY))
        elif turn < 0.9:
            tokens[at] = self.random.choice(STRAY)
        else:
            other = self.random.randrange(len(tokens))
            tokens[at], tokens[other] = tokens[other], tokens[at]

    def text(self):
        tokens = []
        for _ in range(self.random.randint(1, 3)):
            tokens += self.derived("Item", self.random.randint(4, 22))
        for _ in range(self.random.choice([0, 1, 1, 1, 2, 3])):
            if tokens:
                self.change(tokens)
        written = "".join(token + self.random.choice(GAPS) for token in tokens if token)
        return self.mangled(written) if self.random.random() < 0.4 else written

    def mangled(self, text):
        """The text with a few characters put in or put in the place of others, and perhaps without gaps."""
        if self.random.random() < 0.2:
            text = text.replace(" ", "")
        if self.random.random() < 0.1:
            text = "#!" + text
        for _ in range(self.random.randint(0, 2)):
            at = self.random.randint(0, len(text))
            text = text[:at] + self.random.choice(CHARACTERS) + text[at + self.random.randint(0, 1) :]
        return text
