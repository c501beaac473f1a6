"""The early errors of the scripts that `declarations.py` makes: the places where a rule is broken.

It was written from the list of rules alone: no part of it follows the program that is tested.
"""

from collections import namedtuple

from declarations import STRICTLY_RESERVED

LOOPS = ("while", "do", "for", "for each")

# What stands around a tree: strict code, the labels, those of them that are of loops, a loop, a loop or a switch, a function.
Around = namedtuple("Around", "is_strict labels loop_labels has_loop has_breakable has_function")


def inside_function(is_strict):
    return Around(is_strict, (), (), False, False, True)


def inside_loop(around):
    return around._replace(has_loop=True, has_breakable=True)


def names_by_var(trees, is_top):
    return [name for tree in trees if tree for name in names_by_var_of(tree, is_top)]


def names_by_var_of(tree, is_top=False):
    """The names that a statement declares by `var`; at the top of a script or a function, functions count as well."""
    if tree.kind == "declaration":
        return [name for name, _ in tree.names] if tree.word == "var" else []
    if tree.kind == "function":
        return [tree.name] if is_top else []
    own = [tree.name] if tree.kind == "for each" and tree.word == "var" else []
    inner = {
        "block": lambda: tree.items,
        "if": lambda: [tree.yes, tree.no],
        "for": lambda: [tree.first, tree.body],
        "switch": lambda: [item for items in tree.clauses for item in items],
        "try": lambda: [tree.tried, tree.handler, tree.finalizer],
        **{kind: lambda: [tree.body] for kind in ("while", "do", "for each", "label")},
    }
    return own + names_by_var(inner.get(tree.kind, lambda: [])(), False)


def lexical_names(items, is_top):
    names = []
    for item in items:
        if item.kind == "declaration" and item.word != "var":
            names += [name for name, _ in item.names]
        if item.kind == "function" and not is_top:
            names.append(item.name)
    return names


def strict_directive(items):
    """The directive `use strict` of a body, if it has one."""
    for item in items:
        if item.kind != "directive" or item.text.startswith("("):
            return None
        if item.text[1:-1] == "use strict":
            return item
    return None


class Checker:
    """Walks a script and notes the places where it breaks a rule."""

    def __init__(self):
        self.places = []

    def note(self, place, holds):
        if holds:
            self.places.append(place)

    def twice(self, names):
        seen = set()
        for name in sorted(names, key=lambda name: name.at):
            self.note(name.at, name.text in seen)
            seen.add(name.text)

    def apart(self, names, others):
        """Names that may not be among others; the later of the two is noted."""
        for name in names:
            for other in others:
                self.note(max(name.at, other.at), name.text == other.text)

    def scope(self, lexical, by_var):
        self.twice(lexical)
        self.apart(lexical, by_var)

    def used(self, name, around):
        self.note(name.at, around.is_strict and name.text in STRICTLY_RESERVED)

    def bound(self, name, around):
        self.used(name, around)
        self.note(name.at, around.is_strict and name.text == "eval")

    def assigned(self, name, around):
        self.used(name, around)
        self.note(name.at, around.is_strict and name.text == "eval")

    def visit(self, tree, around):
        if tree is not None:
            getattr(self, "visit_" + tree.kind.replace(" ", "_"))(tree, around)

    def visit_all(self, trees, around):
        for tree in trees:
            self.visit(tree, around)

    def visit_reference(self, tree, around):
        self.used(tree.name, around)

    def visit_number(self, tree, around):
        pass

    visit_directive = visit_number

    def visit_assignment(self, tree, around):
        self.assigned(tree.target.name, around)
        self.visit(tree.value, around)

    def visit_update(self, tree, around):
        self.assigned(tree.target.name, around)

    def visit_delete(self, tree, around):
        self.note(tree.at, around.is_strict and tree.of.kind == "reference")
        self.visit(tree.of, around)

    def visit_sum(self, tree, around):
        self.visit_all(tree.parts, around)

    def visit_member(self, tree, around):
        self.visit(tree.of, around)

    def visit_call(self, tree, around):
        self.visit_all([tree.callee, *tree.arguments], around)

    def visit_object(self, tree, around):
        self.visit_all(tree.properties, around)

    def visit_array(self, tree, around):
        self.visit_all(tree.elements, around)

    def visit_shorthand(self, tree, around):
        self.used(tree.name, around)

    def visit_keyed(self, tree, around):
        self.visit(tree.value, around)

    def parameters(self, tree, around, is_distinct):
        every = tree.parameters + ([tree.rest] if tree.rest else [])
        for name in every:
            self.bound(name, around)
        if is_distinct or around.is_strict or tree.rest:
            self.twice(every)
        return every

    def visit_short_arrow(self, tree, around):
        inner = inside_function(around.is_strict)
        self.parameters(tree, inner, True)
        self.visit(tree.value, inner)

    def callable(self, tree, around, is_distinct):
        directive = strict_directive(tree.body)
        inner = inside_function(around.is_strict or directive is not None)
        if tree.name:
            self.bound(tree.name, inner)
        parameters = self.parameters(tree, inner, is_distinct)
        if directive:
            self.note(directive.at, tree.rest is not None)
        lexical = lexical_names(tree.body, True)
        self.scope(lexical, names_by_var(tree.body, True))
        self.apart(lexical, parameters)
        self.visit_all(tree.body, inner)

    def visit_function(self, tree, around):
        self.callable(tree, around, False)

    def visit_arrow(self, tree, around):
        self.callable(tree, around, True)

    visit_function_expression = visit_function
    visit_method = visit_getter = visit_setter = visit_arrow

    def visit_expression_statement(self, tree, around):
        self.visit(tree.value, around)

    def visit_declaration(self, tree, around):
        for name, value in tree.names:
            self.bound(name, around)
            self.note(name.at, tree.word == "const" and value is None)
            self.visit(value, around)

    def block(self, items, around):
        self.scope(lexical_names(items, False), names_by_var(items, False))
        self.visit_all(items, around)

    def visit_block(self, tree, around):
        self.block(tree.items, around)

    def visit_if(self, tree, around):
        self.visit_all([tree.test, tree.yes, tree.no], around)

    def visit_while(self, tree, around):
        self.visit(tree.test, around)
        self.visit(tree.body, inside_loop(around))

    visit_do = visit_while

    def visit_for(self, tree, around):
        self.visit_all([tree.first, tree.test, tree.update], around)
        if tree.first and tree.first.kind == "declaration" and tree.first.word != "var":
            self.scope([name for name, _ in tree.first.names], names_by_var_of(tree.body))
        self.visit(tree.body, inside_loop(around))

    def visit_for_each(self, tree, around):
        (self.bound if tree.word else self.assigned)(tree.name, around)
        self.visit(tree.value, around)
        if tree.word in ("let", "const"):
            self.scope([tree.name], names_by_var_of(tree.body))
        self.visit(tree.body, inside_loop(around))

    def visit_switch(self, tree, around):
        self.visit(tree.value, around)
        self.block([item for items in tree.clauses for item in items], around._replace(has_breakable=True))

    def visit_try(self, tree, around):
        if tree.parameter:
            self.bound(tree.parameter, around)
            items = tree.handler.items
            self.apart([tree.parameter], lexical_names(items, False) + names_by_var(items, False))
        self.visit_all([tree.tried, tree.handler, tree.finalizer], around)

    def visit_label(self, tree, around):
        label = tree.label.text
        self.note(tree.label.at, label in around.labels)
        self.used(tree.label, around)
        labelled = tree.body
        while labelled.kind == "label":
            labelled = labelled.body
        loops = around.loop_labels + ((label,) if labelled.kind in LOOPS else ())
        self.visit(tree.body, around._replace(labels=(*around.labels, label), loop_labels=loops))

    def visit_break(self, tree, around):
        has_target = tree.label.text in around.labels if tree.label else around.has_breakable
        self.note(tree.at, not has_target)

    def visit_continue(self, tree, around):
        has_target = tree.label.text in around.loop_labels if tree.label else around.has_loop
        self.note(tree.at, not has_target)

    def visit_return(self, tree, around):
        self.note(tree.at, not around.has_function)
        self.visit(tree.value, around)


def first_error(items):
    """The least place at which a script breaks a rule; None where it breaks none."""
    checker = Checker()
    around = inside_function(strict_directive(items) is not None)._replace(has_function=False)
    checker.scope(lexical_names(items, True), names_by_var(items, True))
    checker.visit_all(items, around)
    return min(checker.places, default=None)
