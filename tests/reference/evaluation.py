"""What a script of variables, operators and loops does: its lines, its steps, and the stop that ends it.

It walks the trees that `programs.py` makes, and was written from the rules alone: no part of it follows the program that is tested.
"""

import re

LARGEST = 2**53 - 1
LONGEST = 16_777_216
WHITE_SPACE = "\t\n\v\f\r \u00a0\u1680\u2000\u2001\u2002\u2003\u2004\u2005\u2006\u2007\u2008\u2009\u200a\u2028\u2029\u202f\u205f\u3000\ufeff"


class Stop(Exception):
    """The run stops by name."""


class OutOfSteps(Exception):
    """The bound has no room for a charge."""


class Thrown(Exception):
    """A value was thrown."""

    def __init__(self, value):
        super().__init__()
        self.value = value


class Undefined:
    """The value undefined. Null is None, and a string is a str of code units."""


class NotANumber:
    """The number NaN. Every other number is an int."""


UNDEFINED, NAN = Undefined(), NotANumber()


def type_of(value):
    if value is UNDEFINED:
        return "undefined"
    if value is None:
        return "object"
    if value is True or value is False:
        return "boolean"
    return "string" if isinstance(value, str) else "number"


def safe(number):
    if abs(number) > LARGEST:
        raise Stop("unsafe integer")
    return number


def number_of_text(text):
    text = text.strip(WHITE_SPACE)
    if text == "":
        return 0
    if re.fullmatch("-0+", text):
        raise Stop("negative zero")
    if re.fullmatch("[+-]?[0-9]+", text):
        return safe(int(text))
    for digits, radix in (("0[xX]([0-9a-fA-F]+)", 16), ("0[oO]([0-7]+)", 8), ("0[bB]([01]+)", 2)):
        found = re.fullmatch(digits, text)
        if found:
            return safe(int(found[1], radix))
    fraction = r"[0-9]+\.[0-9]*([eE][+-]?[0-9]+)?|\.[0-9]+([eE][+-]?[0-9]+)?|[0-9]+[eE][+-]?[0-9]+"
    if re.fullmatch(f"[+-]?({fraction}|Infinity)", text):
        raise Stop("number form")
    return NAN


def to_number(value):
    if value is UNDEFINED:
        return NAN
    if isinstance(value, str):
        return number_of_text(value)
    return value if value is NAN else int(value or 0)


def to_text(value):
    if value is UNDEFINED:
        return "undefined"
    if value is None:
        return "null"
    if value is True or value is False:
        return "true" if value else "false"
    return "NaN" if value is NAN else str(value)


def to_boolean(value):
    return not (value is UNDEFINED or value is NAN) and bool(value)


def to_uint32(number):
    return 0 if number is NAN else number % 2**32


def to_int32(number):
    number = to_uint32(number)
    return number - 2**32 if number >= 2**31 else number


def power(base, exponent):
    if exponent is NAN:
        return NAN
    if exponent == 0:
        return 1
    if base is NAN:
        return NAN
    if exponent < 0 and base == 0:
        raise Stop("infinite")
    if base in (-1, 0, 1):
        return base if exponent % 2 else abs(base)
    if exponent < 0:
        raise Stop("fraction")
    return safe(base ** min(exponent, 64))


def quotient(x, y):
    if y == 0:
        if x == 0:
            return NAN
        raise Stop("infinite")
    if x == 0 and y < 0:
        raise Stop("negative zero")
    if x % y:
        raise Stop("fraction")
    return safe(x // y)


def remainder(x, y):
    if y == 0:
        return NAN
    rest = abs(x) % abs(y)
    if x < 0 and rest == 0:
        raise Stop("negative zero")
    return -rest if x < 0 else rest


def product(x, y):
    if (x == 0 and y < 0) or (y == 0 and x < 0):
        raise Stop("negative zero")
    return safe(x * y)


def arithmetic(operator, x, y):
    bits = {
        "&": lambda: to_int32(x) & to_int32(y),
        "|": lambda: to_int32(x) | to_int32(y),
        "^": lambda: to_int32(x) ^ to_int32(y),
        "<<": lambda: to_int32(to_int32(x) << to_uint32(y) % 32),
        ">>": lambda: to_int32(x) >> to_uint32(y) % 32,
        ">>>": lambda: to_uint32(x) >> to_uint32(y) % 32,
        "**": lambda: power(x, y),
    }
    if operator in bits:
        return bits[operator]()
    if x is NAN or y is NAN:
        return NAN
    numbers = {
        "+": lambda: safe(x + y),
        "-": lambda: safe(x - y),
        "*": lambda: product(x, y),
        "/": lambda: quotient(x, y),
        "%": lambda: remainder(x, y),
    }
    return numbers[operator]()


def negated(number):
    if number is NAN:
        return NAN
    if number == 0:
        raise Stop("negative zero")
    return -number


def are_strictly_equal(x, y):
    if x is None or y is None:
        return x is y
    return type_of(x) == type_of(y) and x is not NAN and x == y


def are_loosely_equal(x, y):
    x_type, y_type = ("null" if v is None else type_of(v) for v in (x, y))
    if x_type == y_type:
        return are_strictly_equal(x, y)
    if {x_type, y_type} == {"null", "undefined"}:
        return True
    if (x_type, y_type) == ("number", "string"):
        return are_loosely_equal(x, to_number(y))
    if (x_type, y_type) == ("string", "number"):
        return are_loosely_equal(to_number(x), y)
    if x_type == "boolean":
        return are_loosely_equal(to_number(x), y)
    if y_type == "boolean":
        return are_loosely_equal(x, to_number(y))
    return False


def is_less(x, y):
    """Whether x is below y; None where one of them is NaN."""
    if isinstance(x, str) and isinstance(y, str):
        return x < y
    x, y = to_number(x), to_number(y)
    return None if x is NAN or y is NAN else x < y


COMPARISONS = {
    "===": are_strictly_equal,
    "!==": lambda x, y: not are_strictly_equal(x, y),
    "==": are_loosely_equal,
    "!=": lambda x, y: not are_loosely_equal(x, y),
    "<": lambda x, y: is_less(x, y) is True,
    ">": lambda x, y: is_less(y, x) is True,
    "<=": lambda x, y: is_less(y, x) is False,
    ">=": lambda x, y: is_less(x, y) is False,
}


def goes_on(operator, value):
    """Whether a logical operator evaluates its right operand."""
    if operator == "&&":
        return to_boolean(value)
    if operator == "||":
        return not to_boolean(value)
    return value is UNDEFINED or value is None


def told(value):
    """What is told of a primitive that was thrown and not caught, as a text of code points."""
    return to_text(value).encode("utf-16-le", "surrogatepass").decode("utf-16-le", "replace")


class Run:
    """A run of a script with a bound of steps."""

    def __init__(self, bound):
        self.bound, self.used, self.source, self.at = bound, 0, 0, 0
        self.lines, self.names = [], {}

    def charge(self, cost):
        if self.used + cost > self.bound and cost > 0:
            raise OutOfSteps(f"steps {self.used} of {self.bound}, charge {cost}")
        self.used += cost

    def begin(self, tree):
        """Pays the step of a tree as its evaluation begins."""
        self.charge(1)
        self.source, self.at = 1, tree.start

    def pay_for_text(self, units):
        if units > LONGEST:
            raise Stop("string length")
        self.charge(units // 256)

    def operate(self, operator, x, y):
        if operator in COMPARISONS:
            return COMPARISONS[operator](x, y)
        if operator == "+" and (isinstance(x, str) or isinstance(y, str)):
            x, y = to_text(x), to_text(y)
            self.pay_for_text(len(x) + len(y))
            return x + y
        x, y = to_number(x), to_number(y)
        return arithmetic(operator, x, y)

    def value(self, tree):
        self.begin(tree)
        return getattr(self, f"value_of_{tree.kind}")(tree)

    def value_of_literal(self, tree):
        return tree.value

    def value_of_name(self, tree):
        return {"undefined": UNDEFINED, "NaN": NAN}.get(tree.name, self.names.get(tree.name, UNDEFINED))

    def value_of_sequence(self, tree):
        return [self.value(part) for part in tree.parts][-1]

    def value_of_conditional(self, tree):
        test, yes, no = tree.parts
        return self.value(yes if to_boolean(self.value(test)) else no)

    def value_of_logical(self, tree):
        left = self.value(tree.parts[0])
        return self.value(tree.parts[1]) if goes_on(tree.operator, left) else left

    def value_of_binary(self, tree):
        left, right = [self.value(part) for part in tree.parts]
        return self.operate(tree.operator, left, right)

    def value_of_unary(self, tree):
        value = self.value(tree.parts[0])
        operators = {
            "!": lambda: not to_boolean(value),
            "typeof": lambda: type_of(value),
            "void": lambda: UNDEFINED,
            "+": lambda: to_number(value),
            "-": lambda: negated(to_number(value)),
            "~": lambda: ~to_int32(to_number(value)),
        }
        return operators[tree.operator]()

    def value_of_update(self, tree):
        target = tree.parts[0]
        self.begin(target)
        before = to_number(self.names.get(target.name, UNDEFINED))
        after = arithmetic(tree.operator[0], before, 1)
        self.names[target.name] = after
        return after if tree.is_before else before

    def value_of_assignment(self, tree):
        target, right = tree.parts
        operator = tree.operator[:-1]
        self.begin(target)
        before = self.names.get(target.name, UNDEFINED)
        if operator in ("&&", "||", "??"):
            if not goes_on(operator, before):
                return before
            value = self.value(right)
        elif operator:
            value = self.operate(operator, before, self.value(right))
        else:
            value = self.value(right)
        self.names[target.name] = value
        return value

    def value_of_print(self, tree):
        self.begin(tree.callee)
        arguments = [self.value(part) for part in tree.parts]
        self.charge(1)
        texts = []
        for argument in arguments:
            self.charge(1)
            texts.append(to_text(argument))
        line = " ".join(texts)
        self.pay_for_text(len(line))
        self.lines.append(line)
        return UNDEFINED

    def carry_out(self, tree):
        self.begin(tree)
        getattr(self, f"carry_out_{tree.kind}")(tree)

    def carry_out_expression(self, tree):
        self.value(tree.parts[0])

    def carry_out_var(self, tree):
        for name, value in tree.declarations:
            if value is not None:
                self.names[name] = self.value(value)

    def carry_out_block(self, tree):
        for statement in tree.parts:
            self.carry_out(statement)

    def carry_out_empty(self, tree):
        pass

    def carry_out_debugger(self, tree):
        pass

    def carry_out_throw(self, tree):
        raise Thrown(self.value(tree.parts[0]))

    def carry_out_if(self, tree):
        test, yes, no = tree.parts
        if to_boolean(self.value(test)):
            self.carry_out(yes)
        elif no is not None:
            self.carry_out(no)

    def carry_out_while(self, tree):
        test, body = tree.parts
        while to_boolean(self.value(test)):
            self.carry_out(body)

    def carry_out_do(self, tree):
        body, test = tree.parts
        self.carry_out(body)
        while to_boolean(self.value(test)):
            self.carry_out(body)

    def carry_out_for(self, tree):
        first, test, update, body = tree.parts
        if first is not None:
            (self.carry_out if first.kind == "var" else self.value)(first)
        while test is None or to_boolean(self.value(test)):
            self.carry_out(body)
            if update is not None:
                self.value(update)

    def ending(self, units, statements):
        """Runs the script, whose text has this many code units; returns its status and its error line."""
        try:
            self.charge(1)
            self.charge(units // 256)
            for statement in statements:
                self.carry_out(statement)
        except (Stop, OutOfSteps) as end:
            status = 3 if isinstance(end, Stop) else 4
            return status, f"stop: {end}, realm 0, source {self.source}, at {self.at}\n"
        except Thrown as thrown:
            return 1, f"uncaught a.js: {told(thrown.value)}\n"
        return 0, ""
