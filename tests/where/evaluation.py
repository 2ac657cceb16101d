"""What an expression gives and a statement does, by ISO 10303-11, over the instances of a file.

A rule that takes too many steps, nests too deep or needs what is not computed here is NotDecided."""

import functions
from schema_text import (Alias, Assign, Attribute, Bits, Case, Collection, Enumeration, Escape, Generic, Group as GroupTree, If, Index, Invoke, Itself,
                         Literal, Name, Named, Repeat, Return, Select, Simple, Skip)
from values import (DEEPEST, FALSE, TRUE, UNKNOWN, Aggregate, Defined, Enumerated, Group, Instance, NotDecided, Truth, both, difference, distinct, either,
                    equal, identical, intersection, is_number, is_subset, member, negated, one_of, plain, rank, truth, truth_of, union)

ORDERS = {'<': lambda it: it < 0, '>': lambda it: it > 0, '<=': lambda it: it <= 0, '>=': lambda it: it >= 0}
ASSIGNABLE = {'SET': {'BAG', 'SET'}, 'BAG': {'BAG', 'SET'}, 'LIST': {'LIST'}, 'ARRAY': {'ARRAY'}}
ESCAPED, SKIPPED = object(), object()


class Variable:
    """What a name stands for in a frame; type is None for one that takes each value as it is."""

    def __init__(self, value, declared=None):
        self.value, self.type = value, declared


class Path:
    """A name that stands for a part of what another frame knows: of ALIAS, or of a VAR parameter."""

    def __init__(self, tree, frame):
        self.tree, self.frame = tree, frame


class Returned:
    """What RETURN hands over."""

    def __init__(self, value):
        self.value = value


class Frame:
    """The names that hold at a place of the schema, beside those of the whole schema: variables, functions, and SELF with the entity that it stands in,
    whose attributes are names too."""

    def __init__(self, outer=None, itself=None, entity=None):
        self.outer, self.variables, self.functions = outer, {}, {}
        self.itself = outer.itself if outer and itself is None else itself
        self.entity = outer.entity if outer and entity is None else entity

    def find(self, name):
        """The variable of this name, the innermost; None where there is none."""
        frame = self
        while frame:
            if name in frame.variables:
                return frame.variables[name]
            frame = frame.outer
        return None

    def find_function(self, name):
        """The function of this name that stands in another, and the frame it stands in."""
        frame = self
        while frame:
            if name in frame.functions:
                return frame.functions[name], frame
            frame = frame.outer
        return None


class Evaluator:
    """Evaluates over a world; `begin` sets how many steps the next evaluations may take together."""

    def __init__(self, world):
        self.world, self.dictionary, self.schema = world, world.dictionary, world.dictionary.schema
        self.steps = self.depth = self.nodes = 0
        self.deriving = set()

    def begin(self, steps):
        self.steps, self.depth, self.deriving = steps, 0, set()

    def touch(self):
        """Takes one step."""
        self.steps -= 1
        if self.steps < 0:
            raise NotDecided('steps')

    def evaluate(self, tree, frame):
        self.nodes += 1
        self.touch()
        self.depth += 1
        if self.depth > DEEPEST:
            raise NotDecided('depth')
        found = FORMS[type(tree).__name__](self, tree, frame)
        self.depth -= 1
        return found

    def plainly(self, tree, frame):
        return plain(self.evaluate(tree, frame))

    # Operands

    def of_literal(self, tree, frame):
        return self.within(tree.value)

    @staticmethod
    def within(value):
        """A value, unless it is an integer that 64 bits do not hold."""
        if isinstance(value, int) and not -2 ** 63 <= value < 2 ** 63:
            raise NotDecided('an integer outside 64 bits')
        return value

    def of_itself(self, tree, frame):
        return frame.itself

    def of_name(self, tree, frame):
        """A variable hides an attribute of SELF, and that hides the names of the schema."""
        name = tree.name
        if name in functions.CONSTANTS:
            return functions.CONSTANTS[name]
        found = frame.find(name)
        if isinstance(found, Path):
            return self.evaluate(found.tree, found.frame)
        if found:
            return found.value
        origin = self.own_attribute(name, frame)
        if origin:
            return self.attribute(frame.itself, origin)
        if frame.find_function(name) or name in self.schema.functions:
            return self.call(name, [], frame)
        if name in self.schema.constants:
            declared, constant = self.schema.constants[name]
            return self.as_type(self.evaluate(constant, Frame()), declared, Frame())
        if name in self.dictionary.items:
            return Enumerated(name, self.dictionary.items[name])
        raise NotDecided('%s is not there' % name)

    def own_attribute(self, name, frame):
        """The attribute of SELF that a name is in a rule or a derivation of an entity, by what this entity declares and inherits."""
        if not frame.entity:
            return None
        return next(iter(self.dictionary.origins(self.dictionary.ancestors(frame.entity), name)), None)

    # References: attributes, groups, indices

    def of_attribute(self, tree, frame):
        item = self.qualified_item(tree, frame)
        if item:
            return item
        found = self.attribute_of(tree, self.evaluate(tree.of, frame), frame)
        return self.attribute(*found) if found else None

    def qualified_item(self, tree, frame):
        """The item that enumeration.item is; None for another attribute."""
        if not isinstance(tree.of, Name) or frame.find(tree.of.name) or self.own_attribute(tree.of.name, frame) or tree.of.name not in self.schema.types:
            return None
        enumeration = self.dictionary.enumeration(tree.of.name)
        if not enumeration or enumeration not in self.dictionary.items.get(tree.name, {}):
            raise NotDecided('%s.%s is not there' % (tree.of.name, tree.name))
        return Enumerated(tree.name, {enumeration: self.dictionary.items[tree.name][enumeration]})

    def attribute_of(self, tree, value, frame):
        r"""The instance and the attribute that value.name is: of x\entity one that the entity has, of SELF one that the entity of the rule has, and else
        one of the instance; None where there is none."""
        instance = plain(value)
        if not isinstance(instance, Instance):
            return None
        entities = instance.entities
        if isinstance(value, Group):
            entities = self.dictionary.ancestors(value.entity)
        elif isinstance(tree.of, Itself) and self.own_attribute(tree.name, frame):
            entities = self.dictionary.ancestors(frame.entity)
        origins = self.dictionary.origins(entities, tree.name)
        return (instance, origins[0]) if origins else None

    def attribute(self, instance, origin):
        """The value of an attribute; of one that is declared again, by the lowest declaration."""
        entity, declared = self.dictionary.in_force(instance.entities, origin)
        if declared.kind == 'explicit':
            return self.within(instance.values.get(origin))
        if declared.kind == 'inverse':
            return self.inverse(instance, declared)
        if (instance, origin) in self.deriving:
            return None
        self.deriving.add((instance, origin))
        frame = Frame(itself=instance, entity=entity)
        found = self.as_type(self.evaluate(declared.tree, frame), declared.type, frame)
        self.deriving.discard((instance, origin))
        return found

    def inverse(self, instance, declared):
        """The instances of the other entity that mention this one by the attribute: in a BAG as often as they do; where no aggregate is declared, the
        only one."""
        entity, name = declared.inverse
        users = self.users(instance, entity, name)
        if isinstance(declared.type, Collection):
            users = users if declared.type.kind == 'BAG' else list(dict.fromkeys(users))
            return Aggregate(declared.type.kind, users, 1, self.dictionary.bounds(declared.type), declared.type.element)
        return users[0] if len(users) == 1 else None

    def users(self, instance, entity, name):
        """The instances of an entity that mention this one by an attribute that the entity has, each as often as it does."""
        origins = [it for it in self.dictionary.origins(self.dictionary.ancestors(entity), name)]
        found = []
        for it in self.world.roles(instance):
            self.touch()
            if it.origin in origins and entity in it.instance.entities:
                found.append(it.instance)
        return found

    def of_group(self, tree, frame):
        instance = self.plainly(tree.of, frame)
        return Group(instance, tree.entity) if isinstance(instance, Instance) and tree.entity in instance.entities else None

    def of_index(self, tree, frame):
        """An element, a character, a bit; with two indices a part of a string or a binary. An index that nothing stands at gives `?`."""
        value, low = self.plainly(tree.of, frame), self.plainly(tree.low, frame)
        high = low if tree.high is None else self.plainly(tree.high, frame)
        if not isinstance(low, int) or not isinstance(high, int):
            return None
        if isinstance(value, str):
            return type(value)(value[low - 1:high]) if 1 <= low <= high <= len(value) else None
        if isinstance(value, Aggregate) and tree.high is None and 0 <= low - value.low < len(value.elements):
            return self.within(value.elements[low - value.low])
        return None

    # Operators

    def of_unary(self, tree, frame):
        value = self.evaluate(tree.of, frame)
        if tree.operator == 'NOT':
            return negated(truth(value))
        value = plain(value)
        if not is_number(value):
            return None
        return self.within(-value) if tree.operator == '-' else value

    def of_binary(self, tree, frame):
        """AND and OR do not ask the right operand where the left one decides."""
        operator, left = tree.operator, self.evaluate(tree.left, frame)
        if operator in ('AND', 'OR') and truth(left) is (FALSE if operator == 'AND' else TRUE):
            return truth(left)
        return OPERATORS[operator](self, left, self.evaluate(tree.right, frame))

    def of_interval(self, tree, frame):
        low, item, high = (self.evaluate(it, frame) for it in (tree.low, tree.item, tree.high))
        return both(self.order(tree.first, low, item), self.order(tree.second, item, high))

    def order(self, operator, a, b):
        """<, >, <=, >=: of SETs and BAGs <= says that the right one has all of the left."""
        a, b = plain(a), plain(b)
        if isinstance(a, Aggregate) and isinstance(b, Aggregate):
            if operator == '<=':
                return is_subset(a, b, self.touch)
            return is_subset(b, a, self.touch) if operator == '>=' else UNKNOWN
        difference_of_ranks = rank(a, b)
        return UNKNOWN if difference_of_ranks is None else truth_of(ORDERS[operator](difference_of_ranks))

    def equality(self, a, b):
        return equal(a, b, self.touch)

    def identity(self, a, b):
        return identical(a, b, self.touch)

    def within_aggregate(self, element, aggregate):
        """IN: by :=: . In no aggregate nothing is known to be."""
        aggregate = plain(aggregate)
        if element is None or not isinstance(aggregate, Aggregate):
            return UNKNOWN
        return member(element, aggregate.elements, self.touch)

    def like(self, text, pattern):
        text, pattern = plain(text), plain(pattern)
        if not isinstance(text, str) or not isinstance(pattern, str):
            return UNKNOWN
        return truth_of(functions.is_like(text, pattern, self.touch))

    def sum(self, a, b):
        """+: of numbers, of strings or binaries one behind the other, of aggregates what either has."""
        a, b = plain(a), plain(b)
        if a is None or b is None:
            return None
        if isinstance(a, Aggregate) or isinstance(b, Aggregate):
            return union(a, b, self.touch)
        if isinstance(a, str) and type(a) is type(b):
            return type(a)(a + b)
        return self.arithmetic('+', a, b)

    def minus(self, a, b):
        a, b = plain(a), plain(b)
        return difference(a, b, self.touch) if isinstance(a, Aggregate) and b is not None else self.arithmetic('-', a, b)

    def times(self, a, b):
        a, b = plain(a), plain(b)
        return intersection(a, b, self.touch) if isinstance(a, Aggregate) and isinstance(b, Aggregate) else self.arithmetic('*', a, b)

    def arithmetic(self, operator, a, b):
        """Of integers an integer, but for / ; else by binary64. What has no value, as a division by zero, is `?`."""
        a, b = plain(a), plain(b)
        return self.within(functions.arithmetic(operator, a, b)) if is_number(a) and is_number(b) else None

    def joined(self, a, b):
        """||: an instance of the entities of both, with the values of both; of an attribute that both have, that of the left one. Of strings none."""
        a, b = plain(a), plain(b)
        if not isinstance(a, Instance) or not isinstance(b, Instance):
            return None
        entities = a.entities | b.entities
        return Instance(entities, self.dictionary.explicit(entities), {**b.values, **a.values})

    # Aggregates, QUERY and calls

    def of_initializer(self, tree, frame):
        """Each element as often as it says; where that is not said but `?`, there is no aggregate."""
        found = []
        for element, often in tree.elements:
            value, times = self.evaluate(element, frame), 1
            if often is not None:
                times = self.plainly(often, frame)
                if not isinstance(times, int):
                    return None
            for _ in range(times):
                self.touch()
                found.append(unseen(value))
        return Aggregate('INITIALIZER', found)

    def of_query(self, tree, frame):
        """The elements for which the condition is TRUE; an ARRAY keeps its indices, and has `?` for the others."""
        over = self.plainly(tree.over, frame)
        if not isinstance(over, Aggregate):
            return None
        inner, kept = Frame(frame), []
        for it in over.elements:
            self.touch()
            inner.variables[tree.variable] = Variable(it)
            if truth(self.evaluate(tree.condition, inner)) is TRUE:
                kept.append(it)
            elif over.kind == 'ARRAY':
                kept.append(None)
        return over.with_elements(kept)

    def of_call(self, tree, frame):
        if tree.name in functions.BUILT_IN:
            self.touch()
            if len(tree.arguments) != functions.ARGUMENTS.get(tree.name, 1):
                raise NotDecided('%s with %d arguments' % (tree.name, len(tree.arguments)))
            return functions.BUILT_IN[tree.name](self, *[self.evaluate(it, frame) for it in tree.arguments])
        if not frame.find_function(tree.name) and tree.name not in self.schema.functions and tree.name in self.schema.entities:
            return self.constructed(tree, frame)
        return self.call(tree.name, tree.arguments, frame)

    def constructed(self, tree, frame):
        """A new instance of an entity, by values for the explicit attributes that it newly declares; those that it inherits come by || ."""
        origins = [it for it in self.dictionary.row(tree.name) if it.entity == tree.name]
        if len(origins) != len(tree.arguments):
            raise NotDecided('%s with %d attributes' % (tree.name, len(tree.arguments)))
        entities, values = self.dictionary.ancestors(tree.name), {}
        for origin, argument in zip(origins, tree.arguments):
            declared = self.dictionary.in_force(entities, origin)[1]
            values[origin] = self.as_type(self.evaluate(argument, frame), declared.type, frame)
        return Instance(entities, self.dictionary.explicit(entities), values)

    def call(self, name, arguments, frame):
        """What a function returns, as a value of the type it is declared to return; `?` where it ends without RETURN."""
        self.touch()
        function, outer = frame.find_function(name) or (self.schema.functions.get(name), None)
        if not function:
            raise NotDecided('%s is not there' % name)
        if len(arguments) != len(function.parameters):
            raise NotDecided('%s with %d arguments' % (name, len(arguments)))
        inner = Frame(outer)
        for (parameter, declared, is_variable), argument in zip(function.parameters, arguments):
            if is_variable:
                inner.variables[parameter] = Path(self.fixed(argument, frame), frame)
            else:
                inner.variables[parameter] = Variable(self.as_type(self.evaluate(argument, frame), declared, inner), declared)
        ending = self.run(function, inner)
        if not isinstance(ending, Returned) or not function.result:
            return None
        return self.as_type(ending.value, function.result, inner)

    def run(self, algorithm, frame):
        """The statements of a function, a procedure or a rule, in a frame that has its parameters."""
        frame.functions = algorithm.functions
        for name, (declared, tree) in algorithm.constants.items():
            frame.variables[name] = Variable(self.as_type(self.evaluate(tree, frame), declared, frame), declared)
        for name, declared, tree in algorithm.variables:
            value = None if tree is None else self.as_type(self.evaluate(tree, frame), declared, frame)
            frame.variables[name] = Variable(value, declared)
        return self.execute(algorithm.body, frame)

    # Types

    def as_type(self, value, declared, frame):
        """A value as one of a declared type, as it is when it is assigned, handed over or returned: a defined or simple type gives it its name, a SELECT
        and GENERIC leave it as it is. What cannot be a value of the type becomes `?`."""
        value = unseen(value)
        if value is None or declared is None or isinstance(declared, Generic):
            return value
        if isinstance(declared, Simple):
            return as_simple(plain(value), declared.name)
        if isinstance(declared, Collection):
            return self.as_collection(plain(value), declared, frame)
        if declared.name in self.schema.entities:
            return value if isinstance(value, Instance) else None
        if isinstance(value, Defined) and value.type == declared.name:
            return value
        under = self.dictionary.under(declared)
        if isinstance(under, Select):
            return value
        if isinstance(under, Enumeration):
            return self.as_item(plain(value), declared.name)
        found = plain(self.as_type(plain(value), under, frame))
        return None if found is None else Defined(declared.name, found)

    def as_item(self, value, name):
        enumeration = self.dictionary.enumeration(name)
        if not isinstance(value, Enumerated) or enumeration not in value.places:
            return None
        item = Enumerated(value.name, {enumeration: value.places[enumeration]})
        return item if name == enumeration else Defined(name, item)

    def as_collection(self, value, declared, frame):
        """An aggregate as one of a declared type: in a SET nothing is twice, an ARRAY has an element, perhaps `?`, for each index."""
        if not isinstance(value, Aggregate) or value.kind != 'INITIALIZER' and value.kind not in ASSIGNABLE.get(declared.kind, {value.kind}):
            return None
        if declared.kind == 'AGGREGATE' or value.kind == declared.kind and value.element is declared.element and declared.kind != 'ARRAY':
            return value
        elements = []
        for it in value.elements:
            self.touch()
            elements.append(self.as_type(it, declared.element, frame))
        bounds = self.bounds(declared, frame)
        if declared.kind != 'ARRAY':
            return Aggregate(declared.kind, distinct(elements, self.touch) if declared.kind == 'SET' else elements, 1, bounds, declared.element)
        if None in bounds:
            return Aggregate('ARRAY', elements, value.low, (value.low, value.low + len(elements) - 1), declared.element)
        size = max(bounds[1] - bounds[0] + 1, 0)
        return Aggregate('ARRAY', (elements + self.missing(size - len(elements)))[:size], bounds[0], bounds, declared.element)

    def missing(self, count):
        """So many times `?`."""
        for _ in range(count):
            self.touch()
        return [None] * count

    def bounds(self, declared, frame):
        """The bounds of an aggregate's type; None for one that is not written or no integer. Those of a LIST, BAG or SET begin at 0."""
        found = [None if it is None else self.plainly(it, frame) for it in (declared.low, declared.high)]
        low, high = (it if isinstance(it, int) else None for it in found)
        return (0 if low is None and declared.kind != 'ARRAY' else low), high

    # Statements

    def execute(self, statements, frame):
        """Runs statements; what ends them early: Returned, ESCAPED, SKIPPED, or None."""
        for it in statements:
            self.touch()
            ending = STATEMENTS[type(it)](self, it, frame)
            if ending:
                return ending
        return None

    def do_assign(self, it, frame):
        self.assign(it.target, self.evaluate(it.value, frame), frame)

    def assign(self, target, value, frame):
        """Puts a value where a target says. To a part: puts the whole, with this part changed, where the whole stands."""
        if isinstance(target, Name):
            self.assign_to_name(target.name, value, frame)
        elif isinstance(target, GroupTree):
            self.assign(target.of, value, frame)
        elif isinstance(target, Attribute):
            self.assign_to_attribute(target, value, frame)
        elif isinstance(target, Index):
            self.assign_to_element(target, value, frame)
        else:
            raise NotDecided('an assignment to what is no variable')

    def assign_to_name(self, name, value, frame):
        variable = frame.find(name)
        if isinstance(variable, Path):
            self.assign(variable.tree, value, variable.frame)
        elif variable:
            variable.value = self.as_type(value, variable.type, frame)
        else:
            raise NotDecided('%s is not there' % name)

    def assign_to_attribute(self, target, value, frame):
        """The variable gets another instance, with this value: no instance of the file changes."""
        found = self.attribute_of(target, self.evaluate(target.of, frame), frame)
        if not found:
            return
        instance, origin = found
        declared = self.dictionary.in_force(instance.entities, origin)[1]
        if declared.kind == 'explicit':
            values = {**instance.values, origin: self.as_type(value, declared.type, frame)}
            self.assign(target.of, Instance(instance.entities, instance.explicit, values), frame)

    def assign_to_element(self, target, value, frame):
        """At the place behind the last element, a LIST becomes longer; at another that it has not, nothing is assigned. A variable that is declared as
        an ARRAY, and has no value, becomes one of `?` first."""
        place, whole = self.plainly(target.low, frame), self.plainly(target.of, frame)
        if whole is None:
            declared = self.dictionary.under(self.declared_type(target.of, frame))
            if isinstance(declared, Collection) and declared.kind == 'ARRAY':
                whole = self.as_collection(Aggregate('INITIALIZER', []), declared, frame)
        if not isinstance(whole, Aggregate) or not isinstance(place, int):
            return
        at, elements = place - whole.low, list(whole.elements)
        for _ in elements:
            self.touch()
        value = self.as_type(value, whole.element, frame)
        if 0 <= at < len(elements):
            elements[at] = value
        elif at == len(elements) and whole.kind in ('LIST', 'INITIALIZER'):
            elements.append(value)
        else:
            return
        self.assign(target.of, whole.with_elements(elements), frame)

    def declared_type(self, target, frame):
        """The type that a variable or an element of one is declared of; None where it is not known."""
        if isinstance(target, Name):
            variable = frame.find(target.name)
            return self.declared_type(variable.tree, variable.frame) if isinstance(variable, Path) else variable and variable.type
        if isinstance(target, Index):
            declared = self.dictionary.under(self.declared_type(target.of, frame))
            return declared.element if isinstance(declared, Collection) else None
        return None

    def do_if(self, it, frame):
        return self.execute(it.yes if truth(self.evaluate(it.condition, frame)) is TRUE else it.no, frame)

    def do_case(self, it, frame):
        """The first branch with a label that is equal to the selector."""
        selector = self.evaluate(it.selector, frame)
        for labels, body in it.branches:
            if any(self.equality(selector, self.evaluate(label, frame)) is TRUE for label in labels):
                return self.execute(body, frame)
        return self.execute(it.otherwise or [], frame)

    def do_repeat(self, it, frame):
        """The bounds and the step are asked once; a loop with one that is no number is not run. WHILE is asked before each turn, UNTIL behind it."""
        inner = Frame(frame)
        if it.variable:
            first, last = self.plainly(it.first, frame), self.plainly(it.last, frame)
            step = 1 if it.step is None else self.plainly(it.step, frame)
            if not all(is_number(bound) for bound in (first, last, step)):
                return None
            inner.variables[it.variable] = Variable(first)
        while True:
            self.touch()
            if it.variable:
                now = inner.variables[it.variable].value
                if step > 0 and now > last or step < 0 and now < last:
                    return None
            if it.condition and truth(self.evaluate(it.condition, inner)) is not TRUE:
                return None
            ending = self.execute(it.body, inner)
            if ending is ESCAPED:
                return None
            if isinstance(ending, Returned):
                return ending
            if it.until and truth(self.evaluate(it.until, inner)) is TRUE:
                return None
            if it.variable:
                inner.variables[it.variable] = Variable(self.arithmetic('+', now, step))

    def do_return(self, it, frame):
        return Returned(None if it.value is None else self.evaluate(it.value, frame))

    def do_escape(self, it, frame):
        return ESCAPED

    def do_skip(self, it, frame):
        return SKIPPED

    def do_alias(self, it, frame):
        inner = Frame(frame)
        inner.variables[it.name] = Path(self.fixed(it.target, frame), frame)
        return self.execute(it.body, inner)

    def fixed(self, target, frame):
        """A target whose indices are those of now."""
        if isinstance(target, Attribute):
            return Attribute(self.fixed(target.of, frame), target.name)
        if isinstance(target, GroupTree):
            return GroupTree(self.fixed(target.of, frame), target.entity)
        if isinstance(target, Index):
            return Index(self.fixed(target.of, frame), Literal(self.plainly(target.low, frame)), target.high)
        return target

    def do_invoke(self, it, frame):
        """A procedure: INSERT puts an element behind a place of a list, REMOVE takes the one at a place out."""
        if it.name not in ('INSERT', 'REMOVE'):
            self.call(it.name, it.arguments, frame)
            return
        whole = self.plainly(it.arguments[0], frame)
        place = self.plainly(it.arguments[-1], frame)
        if not isinstance(whole, Aggregate) or not isinstance(place, int):
            return
        elements = list(whole.elements)
        if it.name == 'INSERT' and 0 <= place <= len(elements):
            elements.insert(place, self.as_type(self.evaluate(it.arguments[1], frame), whole.element, frame))
        elif it.name == 'REMOVE' and 1 <= place <= len(elements):
            del elements[place - 1]
        self.assign(it.arguments[0], whole.with_elements(elements), frame)


def unseen(value):
    r"""A value that was seen as one of its entities, by x\entity, as the instance that it is."""
    return value.instance if isinstance(value, Group) else value


def as_simple(value, name):
    """A value as one of a simple type; NUMBER and LOGICAL are told by their name."""
    if name in ('REAL', 'NUMBER', 'INTEGER'):
        if not is_number(value) or name == 'INTEGER' and isinstance(value, float):
            return None
        return float(value) if name == 'REAL' else Defined(name, value) if name == 'NUMBER' else value
    if name in ('BOOLEAN', 'LOGICAL'):
        if not isinstance(value, Truth) or name == 'BOOLEAN' and value is UNKNOWN:
            return None
        return Defined(name, value) if name == 'LOGICAL' else value
    return value if isinstance(value, str) and isinstance(value, Bits) == (name == 'BINARY') else None


FORMS = {
    'Literal': Evaluator.of_literal, 'Name': Evaluator.of_name, 'Itself': Evaluator.of_itself, 'Attribute': Evaluator.of_attribute,
    'Group': Evaluator.of_group, 'Index': Evaluator.of_index, 'Call': Evaluator.of_call, 'Unary': Evaluator.of_unary, 'Binary': Evaluator.of_binary,
    'Interval': Evaluator.of_interval, 'Query': Evaluator.of_query, 'Initializer': Evaluator.of_initializer,
}
OPERATORS = {
    'AND': lambda self, a, b: both(truth(a), truth(b)),
    'OR': lambda self, a, b: either(truth(a), truth(b)),
    'XOR': lambda self, a, b: one_of(truth(a), truth(b)),
    '=': Evaluator.equality,
    '<>': lambda self, a, b: negated(self.equality(a, b)),
    ':=:': Evaluator.identity,
    ':<>:': lambda self, a, b: negated(self.identity(a, b)),
    'IN': Evaluator.within_aggregate,
    'LIKE': Evaluator.like,
    '+': Evaluator.sum,
    '-': Evaluator.minus,
    '*': Evaluator.times,
    '||': Evaluator.joined,
    **{it: lambda self, a, b, operator=it: self.order(operator, a, b) for it in ORDERS},
    **{it: lambda self, a, b, operator=it: self.arithmetic(operator, a, b) for it in ('/', 'DIV', 'MOD', '**')},
}
STATEMENTS = {
    Assign: Evaluator.do_assign, If: Evaluator.do_if, Case: Evaluator.do_case, Repeat: Evaluator.do_repeat, Return: Evaluator.do_return,
    Escape: Evaluator.do_escape, Skip: Evaluator.do_skip, Alias: Evaluator.do_alias, Invoke: Evaluator.do_invoke,
}
