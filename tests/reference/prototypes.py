"""The table of cases of 'set_prototype': python3 -B tests/reference/prototypes.py

Each row is worked out by the steps of ECMA-262 10.1.2.1 and 10.4.7.2 as they are written there, over objects that are counted from
1 in the order in which they are made. The first cell has the prototype of each, with a '!' behind it where the object is not
extensible; the second one has the changes. The second object is Object.prototype.
"""

OBJECT_PROTOTYPE = 2

ROWS = [
    # the same prototype again, and none
    ("null null null 1", "4=1"),
    ("null null null 1!", "4=1"),
    ("null null null null", "4=null"),
    ("null null null null!", "4=null"),
    ("null null null 1", "4=2 4=2 4=1"),
    # another one, and none
    ("null null null null", "4=1"),
    ("null null null 1", "4=2"),
    ("null null null 1", "4=null"),
    ("null null null null null", "4=5"),
    ("null", "1=null"),
    ("null null", "1=2"),
    # the same of an object that is not extensible
    ("null null null null!", "4=1"),
    ("null null null 1!", "4=2"),
    ("null null null 1!", "4=null"),
    ("null null null 1!", "4=2 4=1 4=null"),
    ("null! null! null null", "4=1 4=2"),
    # cycles of one, two, three and five objects
    ("null", "1=1"),
    ("null null null 1", "4=4"),
    ("null 1", "1=2"),
    ("null null null null 4", "4=5"),
    ("null 1 null 2", "1=4"),
    ("null null null null 4 5", "4=6"),
    ("null null null null 4 5 6 7", "4=8"),
    ("null null null null null null null null", "4=5 5=6 6=7 7=8 8=4"),
    ("null null null null 4!", "5=4 4=5"),
    # the way to a cycle, and past it
    ("null null null null 4 5", "5=6 4=6 4=5 6=null 5=6"),
    ("null null null null 4", "4=5 5=null 4=5"),
    # a way that leads past the object
    ("null 1 null 2 null", "5=4"),
    ("null 1 null 2 2", "5=4 4=5 4=1 5=4"),
    ("null 1 null null", "4=2 1=3 2=3"),
    ("null null null 3 4 3", "6=5"),
    # Object.prototype
    ("null null null", "2=null"),
    ("null null null", "2=2"),
    ("null null null", "2=1"),
    ("null null null 2", "2=4"),
    ("null null! null", "2=null"),
    ("null null! null", "2=2"),
    ("null null! null", "2=1"),
    ("null 1", "2=1"),
    ("null 1 null", "2=null 2=3"),
    ("null null null 1", "1=2 4=2 3=4"),
]


class Object:
    def __init__(self, word):
        self.extensible = not word.endswith("!")
        self.word = word.rstrip("!")
        self.prototype = None


def set_immutable_prototype(o, v):
    """10.4.7.2"""
    return v is o.prototype


def ordinary_set_prototype_of(o, v):
    """10.1.2.1"""
    if v is o.prototype:  # 2
        return True
    if not o.extensible:  # 3, 4
        return False
    p = v  # 5
    while p is not None:  # 6, 7
        if p is o:  # 7.b
            return False
        p = p.prototype  # 7.c.ii
    o.prototype = v  # 8
    return True


def made(words):
    objects = [Object(word) for word in words.split(" ")]
    for o in objects:
        o.prototype = named(objects, o.word)
    return objects


def named(objects, word):
    return None if word == "null" else objects[int(word) - 1]


def answer(words, changes):
    objects = made(words)
    for change in changes.split(" "):
        number, to = change.split("=")
        o, v = named(objects, number), named(objects, to)
        immutable = int(number) == OBJECT_PROTOTYPE
        done = set_immutable_prototype(o, v) if immutable else ordinary_set_prototype_of(o, v)
        after = "null" if o.prototype is None else objects.index(o.prototype) + 1
        yield f"{'true' if done else 'false'} {after}"


def main():
    print("# the prototypes of objects, with a ! where one is not extensible; changes OBJECT=PROTOTYPE; whether each succeeds, and the")
    print("# prototype after; the second object is Object.prototype")
    for words, changes in ROWS:
        print(f"{words}  {changes}  {' '.join(answer(words, changes))}")


if __name__ == "__main__":
    main()
