"""The tables of cases of 'define' and 'delete': python3 -B tests/reference/descriptors.py define|delete

Each row is worked out by the steps of ECMA-262 10.1.6.3 and 10.1.10.1 as they are written there, over properties that are
dictionaries of their fields. The columns are value, writable, get, set, enumerable, configurable, once of the property that is
there and once of the descriptor, with '.' for a field that is absent. Where there is no property, 'open' and 'closed' say whether
the object is extensible.
"""

import itertools
import sys

FIELDS = ["value", "writable", "get", "set", "enumerable", "configurable"]
DEFAULTS = {"value": "undefined", "writable": "-", "get": "undefined", "set": "undefined", "enumerable": "-", "configurable": "-"}
DATA = ["value", "writable", "enumerable", "configurable"]
ACCESSOR = ["get", "set", "enumerable", "configurable"]


def is_accessor(d):
    return "get" in d or "set" in d


def is_data(d):
    return "value" in d or "writable" in d


def filled(d, names):
    return {name: d.get(name, DEFAULTS[name]) for name in names}


def validate_and_apply(extensible, desc, current):
    """10.1.6.3: whether it succeeds, and the property after."""
    if current is None:  # 2
        if not extensible:  # 2.a
            return False, None
        return True, filled(desc, ACCESSOR if is_accessor(desc) else DATA)  # 2.c, 2.d
    if not desc:  # 4
        return True, current
    if current["configurable"] == "-":  # 5
        if desc.get("configurable") == "+":  # 5.a
            return False, current
        if "enumerable" in desc and desc["enumerable"] != current["enumerable"]:  # 5.b
            return False, current
        generic = not is_accessor(desc) and not is_data(desc)
        if not generic and is_accessor(desc) != is_accessor(current):  # 5.c
            return False, current
        if is_accessor(current):  # 5.d
            if any(name in desc and desc[name] != current[name] for name in ["get", "set"]):
                return False, current
        elif current["writable"] == "-":  # 5.e
            if desc.get("writable") == "+":
                return False, current
            if "value" in desc and desc["value"] != current["value"]:
                return False, current
    if is_data(current) and is_accessor(desc):  # 6.a
        kept = {name: current[name] for name in ["enumerable", "configurable"]}
        return True, filled({**kept, **desc}, ACCESSOR)
    if is_accessor(current) and is_data(desc):  # 6.b
        kept = {name: current[name] for name in ["enumerable", "configurable"]}
        return True, filled({**kept, **desc}, DATA)
    return True, {**current, **desc}  # 6.c


def cells(d):
    return "  ".join(d.get(name, ".").ljust(4) for name in FIELDS)


def answer(done, after):
    shown = "none" if after is None else " ".join(after.get(name, ".") for name in FIELDS)
    return f"{'true' if done else 'false'} {shown}"


def properties():
    """Each property, data or accessor, with each attribute on or off."""
    for w, e, c in itertools.product("+-", repeat=3):
        yield {"value": '"a"', "writable": w, "enumerable": e, "configurable": c}
    for e, c in itertools.product("+-", repeat=2):
        yield {"get": "1", "set": "2", "enumerable": e, "configurable": c}


def descriptors():
    """No field; each field alone, with each of two values; all fields of a sort, with what is there and with something else."""
    yield {}
    given = {"value": ['"a"', '@"a"'], "writable": "+-", "get": "13", "set": "23", "enumerable": "+-", "configurable": "+-"}
    for name in FIELDS:
        for value in given[name]:
            yield {name: value}
    for value, w in itertools.product(given["value"], "+-"):
        yield {"value": value, "writable": w}
    for get, set_ in itertools.product("13", "23"):
        yield {"get": get, "set": set_}
    for e, c in itertools.product("+-", repeat=2):
        yield {"enumerable": e, "configurable": c}
        yield {"value": "NaN", "writable": "-", "enumerable": e, "configurable": c}
        yield {"get": "1", "set": "undefined", "enumerable": e, "configurable": c}


def define():
    print("# the property that is there, or open or closed; a descriptor; whether it is defined, and the property after")
    print("# value, writable, get, set, enumerable, configurable; @ and a string is the registered symbol of it")
    for desc in descriptors():
        for extensible in [True, False]:
            done, after = validate_and_apply(extensible, desc, None)
            print(f"{'open' if extensible else 'closed':<34}  {cells(desc)}  {answer(done, after)}")
        for current in properties():
            done, after = validate_and_apply(True, desc, current)
            print(f"{cells(current)}  {cells(desc)}  {answer(done, after)}")


def delete():
    print("# the property that is there, or open or closed; whether it is deleted, and the property after")
    print("open  true none")
    print("closed  true none")
    for current in properties():
        gone = current["configurable"] == "+"  # 10.1.10.1, step 3
        print(f"{cells(current).rstrip()}  {answer(gone, None if gone else current)}")


if __name__ == "__main__":
    {"define": define, "delete": delete}[sys.argv[1]]()
