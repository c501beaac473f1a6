"""The tokens of a text, by the table of tokens, and what a place is called at which none fits."""

import re

RESERVED = set(
    "break case catch const continue debugger default delete do else enum export extends false finally for function if import in"
    " instanceof let new null return switch this throw true try typeof var void while class super with yield await arguments".split()
)
PUNCTUATORS = (
    "{ } ( ) [ ] . ... ; , < > <= >= == != === !== + - * / % ** ++ -- << >> >>> & | ^ ! ~ && || ?? ? ?. : = += -= *= /= %= **= <<= >>="
    " >>>= &= |= ^= &&= ||= ??= =>"
)
PUNCTUATORS = sorted(PUNCTUATORS.split(), key=len, reverse=True)
LARGEST = 2**53 - 1

LINE_END = "\n\r\u2028\u2029"
SPACE = "\t\v\f \u00a0\u1680\u2000-\u200a\u202f\u205f\u3000\ufeff"
BLANK = re.compile(rf"[{SPACE}{LINE_END}]|//[^{LINE_END}]*|/\*.*?\*/", re.DOTALL)
HASHBANG = re.compile(rf"#![^{LINE_END}]*")
WORD = re.compile("[A-Za-z_$][A-Za-z_$0-9]*")
NUMBER = re.compile("0[xX][0-9a-fA-F]+(?:_[0-9a-fA-F]+)*|0[oO][0-7]+(?:_[0-7]+)*|0[bB][01]+(?:_[01]+)*|0(?!_)|[1-9][0-9]*(?:_[0-9]+)*")
DECIMALS = re.compile("[0-9]+(?:_[0-9]+)*")
NAME_PART = re.compile("[A-Za-z_$0-9]")

CONTINUATION = r"\\(?:\r\n|[\n\r\u2028\u2029])"
ESCAPE = r"\\0(?![0-9])|\\x[0-9a-fA-F]{2}|\\u[0-9a-fA-F]{4}|\\u\{0*(?:10[0-9a-fA-F]{4}|[0-9a-fA-F]{1,5})\}|" + CONTINUATION
ESCAPE += r"|\\[^0-9xu\n\r\u2028\u2029]"
STRING = re.compile(rf"'(?:[^'\\\n\r]|{ESCAPE})*'|" + rf'"(?:[^"\\\n\r]|{ESCAPE})*"')
PIECE = re.compile(rf"[`}}](?:[^`\\$]|\$(?!\{{)|{ESCAPE})*(?:`|\$\{{)", re.DOTALL)


class Token:
    """A token of a kind: word, number, string, punctuator, a piece of a template (whole, head, middle, tail), or the end."""

    def __init__(self, kind, text, at, is_behind_line_end):
        self.kind, self.text, self.at, self.is_behind_line_end = kind, text, at, is_behind_line_end
        # of a parenthesis: whether the one that closes it stands before an arrow
        self.begins_arrow = False

    def is_punctuator(self, *texts):
        return self.kind == "punctuator" and self.text in texts

    def is_word(self, *texts):
        return self.kind == "word" and self.text in texts

    def is_identifier(self):
        return self.kind == "word" and self.text not in RESERVED


def blank_length(text, at):
    """How much white space, line ends and comments stand at a place."""
    start = at
    found = HASHBANG.match(text) if at == 0 else None
    while found or (found := BLANK.match(text, at)):
        at, found = found.end(), None
    return at - start


def value_of(digits):
    return int(digits.replace("_", ""), 0)


def number_length(text, at):
    """How long the number is that stands at a place; none where what stands there is no number."""
    found = NUMBER.match(text, at)
    if not found or NAME_PART.match(text, found.end()) or value_of(found[0]) > LARGEST:
        return None
    is_decimal = found[0][:2].lower() not in ("0x", "0o", "0b")
    return None if is_decimal and text.startswith(".", found.end()) else len(found[0])


def piece(text, at, opened):
    """The kind and the length of a piece of a template. `opened` are the braces that are open, those of `${` among them."""
    found = PIECE.match(text, at)
    if not found:
        return None
    is_first, is_last = text[at] == "`", found[0].endswith("`")
    if not is_first:
        opened.pop()
    if not is_last:
        opened.append("${")
    kinds = {(True, True): "whole", (True, False): "head", (False, False): "middle", (False, True): "tail"}
    return kinds[is_first, is_last], len(found[0])


def punctuator(text, at, opened):
    for sign in PUNCTUATORS:
        is_before_digit = re.compile("[0-9]").match(text, at + len(sign))
        if text.startswith(sign, at) and not (sign in (".", "?.") and is_before_digit):
            if sign == "{":
                opened.append(sign)
            if sign == "}" and opened:
                opened.pop()
            return "punctuator", len(sign)
    return None


def kind_and_length(text, at, opened):
    """The kind and the length of the token at a place; none where none fits."""
    if text[at] == "`" or (text[at] == "}" and opened[-1:] == ["${"]):
        return piece(text, at, opened)
    if text[at].isascii() and text[at].isdigit():
        length = number_length(text, at)
        return length and ("number", length)
    for kind, form in (("word", WORD), ("string", STRING)):
        found = form.match(text, at)
        if found:
            return kind, len(found[0])
    return punctuator(text, at, opened)


def marker_of_failure(text, at):
    """What is left out by name at a place where no token fits; none where it is nothing of that kind."""
    decimals, number = DECIMALS.match(text, at), NUMBER.match(text, at)
    if (decimals and text[decimals.end() :][:1] in (".", "e", "E") and decimals.end() < len(text)) or re.compile(r"\.[0-9]").match(text, at):
        return "number form"
    if number and text.startswith("n", number.end()):
        return "bigint"
    if number and not NAME_PART.match(text, number.end()) and value_of(number[0]) > LARGEST:
        return "unsafe literal"
    if text[at] in "#@":
        return text[at]
    if text[at] == "\\":
        return "identifier escape"
    return None if text[at].isascii() else "non-ASCII identifier"


def match_parentheses(tokens):
    waiting = []
    for token, behind in zip(tokens, tokens[1:]):
        if token.is_punctuator("("):
            waiting.append(token)
        elif token.is_punctuator(")") and waiting:
            waiting.pop().begins_arrow = behind.is_punctuator("=>")


def tokens_of(text):
    """The tokens of a text of code units, with the end behind them; or those up to the first place where none fits, and that place."""
    tokens, opened, at = [], [], 0
    while True:
        blank = blank_length(text, at)
        is_behind_line_end = any(unit in LINE_END for unit in text[at : at + blank])
        at += blank
        if at == len(text):
            tokens.append(Token("end", "", at, True))
            match_parentheses(tokens)
            return tokens, None
        found = kind_and_length(text, at, opened)
        if not found:
            return tokens, at
        kind, length = found
        tokens.append(Token(kind, text[at : at + length], at, is_behind_line_end))
        at += length
