"""Values of EXPRESS, and what is asked of two of them: whether they are equal, which is less, what an aggregate has of another.

A value is None for `?`, a Truth, an int, a float, a str, Bits, Enumerated, Aggregate, Instance, Group, or Defined. Values never change: what is assigned
to a part of one makes another."""

from schema_text import Bits, Collection

DEEPEST = 2000


class NotDecided(Exception):
    """A rule of which it is not found out whether it holds, and why."""


class Truth:
    """FALSE, UNKNOWN or TRUE, in this order."""

    def __init__(self, rank, name):
        self.rank, self.name = rank, name

    def __repr__(self):
        return self.name


FALSE, UNKNOWN, TRUE = Truth(0, 'FALSE'), Truth(1, 'UNKNOWN'), Truth(2, 'TRUE')
BY_RANK = (FALSE, UNKNOWN, TRUE)


class Defined:
    """A value that was declared of a type whose name it does not show by itself: a defined type, NUMBER or LOGICAL."""

    def __init__(self, type_name, value):
        self.type, self.value = type_name, value

    def __repr__(self):
        return '%s(%r)' % (self.type, self.value)


class Enumerated:
    """An item, with its place in each enumeration that it may be of: in one, but where an item of several was written without its type."""

    def __init__(self, name, places):
        self.name, self.places = name, places

    def __repr__(self):
        return '.%s.' % self.name


class Aggregate:
    """Its kind is ARRAY, BAG, LIST, SET or INITIALIZER for one written as [..], which is taken for any of them. low is the index of the first element
    of an ARRAY; bounds are those declared, or None; element is the declared type of the elements, or None."""

    def __init__(self, kind, elements, low=1, bounds=None, element=None):
        self.kind, self.elements, self.low, self.bounds, self.element = kind, elements, low, bounds, element

    def __repr__(self):
        return '%s%r' % (self.kind, self.elements)

    def with_elements(self, elements, kind=None):
        return Aggregate(kind or self.kind, elements, self.low, self.bounds, self.element)


class Instance:
    """entities has each entity that the instance is of, supertypes too. values are those of explicit attributes, by entity and name; explicit are the
    attributes that have one unless it is missing. One that a constructor made has neither a name nor a place."""

    def __init__(self, entities, explicit, values, name=None, place=None):
        self.entities, self.explicit, self.values, self.name, self.place = entities, explicit, values, name, place

    def __repr__(self):
        return '#%s' % self.name


class Group:
    r"""An instance seen as one of its entities: x\entity."""

    def __init__(self, instance, entity):
        self.instance, self.entity = instance, entity


def plain(value):
    """A value without the name of the type it was declared of, or of the entity it is seen as."""
    while True:
        if isinstance(value, Defined):
            value = value.value
        elif isinstance(value, Group):
            value = value.instance
        else:
            return value


def is_number(value):
    return isinstance(value, (int, float))


def truth_of(condition):
    return TRUE if condition else FALSE


def truth(value):
    """A value as an operand of AND, OR, NOT, and as a condition: what is missing counts as UNKNOWN, and so does what is no truth."""
    value = plain(value)
    return value if isinstance(value, Truth) else UNKNOWN


def negated(a):
    return BY_RANK[2 - a.rank]


def both(a, b):
    """AND: the lesser of the two."""
    return BY_RANK[min(a.rank, b.rank)]


def either(a, b):
    """OR: the greater of the two."""
    return BY_RANK[max(a.rank, b.rank)]


def one_of(a, b):
    """XOR."""
    return UNKNOWN if UNKNOWN in (a, b) else truth_of(a is not b)


def all_of(truths):
    """FALSE if one is, else UNKNOWN if one is."""
    found = TRUE
    for it in truths:
        found = both(found, it)
        if found is FALSE:
            return FALSE
    return found


def any_of(truths):
    """TRUE if one is, else UNKNOWN if one is."""
    return negated(all_of(negated(it) for it in truths))


def kind_of(value):
    """Values of two kinds are not compared with each other."""
    return 'number' if is_number(value) else type(value).__name__


def compared(a, b, of_instances, touch):
    """Whether two values are the same, by what says so of two instances."""
    touch()
    a, b = plain(a), plain(b)
    if a is None or b is None:
        return UNKNOWN
    if kind_of(a) != kind_of(b):
        return FALSE
    if isinstance(a, Instance):
        return of_instances(a, b)
    if isinstance(a, Aggregate):
        return aggregates_compared(a, b, lambda x, y: compared(x, y, of_instances, touch))
    if isinstance(a, Enumerated):
        return truth_of(a.name == b.name and a.places.keys() & b.places.keys())
    return truth_of(a == b)


def equal(a, b, touch, pairs=frozenset()):
    """a = b. Two instances are equal if they are one, or of the same entities and with equal explicit attributes; a pair that is being compared counts
    as equal."""
    def of_instances(x, y):
        if x is y or (x, y) in pairs:
            return TRUE
        if x.entities != y.entities:
            return FALSE
        if len(pairs) >= DEEPEST:
            raise NotDecided('depth')
        inside = pairs | {(x, y)}
        return all_of(equal(x.values.get(it), y.values.get(it), touch, inside) for it in x.explicit)

    return compared(a, b, of_instances, touch)


def identical(a, b, touch):
    """a :=: b. As a = b, but that instances are only the same if they are one."""
    return compared(a, b, lambda x, y: truth_of(x is y), touch)


def aggregates_compared(a, b, same):
    """Of LISTs and ARRAYs each element is compared with that in its place; of SETs and BAGs each needs one of its own in the other."""
    kinds = {a.kind, b.kind} - {'INITIALIZER'}
    unordered = bool(kinds & {'SET', 'BAG'})
    if len(kinds) == 2 and kinds != {'SET', 'BAG'} or len(a.elements) != len(b.elements):
        return FALSE
    if kinds == {'ARRAY'} and 'INITIALIZER' not in (a.kind, b.kind) and a.low != b.low:
        return FALSE
    if unordered:
        return has_partners(a.elements, b.elements, same)
    return all_of(same(x, y) for x, y in zip(a.elements, b.elements))


def has_partners(some, others, same):
    """Whether each of some has one of the others for itself that is the same: UNKNOWN if only with such of which this is UNKNOWN."""
    table = [[same(x, y) for y in others] for x in some]
    if are_matched(table, lambda it: it is TRUE):
        return TRUE
    return UNKNOWN if are_matched(table, lambda it: it is not FALSE) else FALSE


def are_matched(table, allowed):
    """Whether each row can have a column of its own where what stands is allowed."""
    taken = {}

    def find(row, tried):
        for column, it in enumerate(table[row]):
            if allowed(it) and column not in tried:
                tried.add(column)
                if column not in taken or find(taken[column], tried):
                    taken[column] = row
                    return True
        return False

    return all(find(row, set()) for row in range(len(table)))


def rank(a, b):
    """Less than 0, 0, or greater than 0 as a is before b; None where they have no order."""
    a, b = plain(a), plain(b)
    if is_number(a) and is_number(b):
        return (a > b) - (a < b)
    if isinstance(a, Truth) and isinstance(b, Truth):
        return a.rank - b.rank
    if isinstance(a, str) and kind_of(a) == kind_of(b):
        return (a > b) - (a < b)
    if isinstance(a, Enumerated) and isinstance(b, Enumerated):
        common = a.places.keys() & b.places.keys()
        if len(common) == 1:
            return a.places[min(common)] - b.places[min(common)]
    return None


def member(element, elements, touch):
    """Whether one of the elements is this one, by :=: ."""
    return any_of(identical(element, it, touch) for it in elements)


def distinct(elements, touch):
    """The elements without those that stand before."""
    found = []
    for it in elements:
        if member(it, found, touch) is not TRUE:
            found.append(it)
    return found


def without(elements, taken, touch):
    """The elements without one for each that is taken."""
    left = list(elements)
    for it in taken:
        place = next((place for place, one in enumerate(left) if identical(it, one, touch) is TRUE), None)
        if place is not None:
            del left[place]
    return left


def depth_of(value):
    """How many aggregates stand in each other, as far as the first elements tell, or of an empty one what it was declared of."""
    value = plain(value)
    if isinstance(value, Aggregate):
        return 1 + (depth_of(value.elements[0]) if value.elements else depth_of(value.element))
    return 1 + depth_of(value.element) if isinstance(value, Collection) else 0


def union(a, b, touch):
    """a + b: of two aggregates the elements of both, of the kind of the left one unless that is an initializer; an operand in which fewer aggregates
    stand in each other is one element."""
    if depth_of(a) < depth_of(b):
        of, elements = b, [a] + list(b.elements)
    elif depth_of(b) < depth_of(a):
        of, elements = a, list(a.elements) + [b]
    else:
        of, elements = b if a.kind == 'INITIALIZER' else a, list(a.elements) + list(b.elements)
    if of.kind == 'ARRAY':
        return None
    for _ in elements:
        touch()
    return Aggregate(of.kind, distinct(elements, touch) if of.kind == 'SET' else elements)


def bag_or_set(*aggregates):
    """The kind of what two aggregates have in common or not: a SET if one is; None where one is an ARRAY or a LIST."""
    kinds = {it.kind for it in aggregates}
    return None if kinds & {'ARRAY', 'LIST'} else next(it for it in ('SET', 'BAG', 'INITIALIZER') if it in kinds)


def intersection(a, b, touch):
    """a * b: the elements of a that b has, each as often as both have it."""
    kind = bag_or_set(a, b)
    if not kind:
        return None
    left = without(a.elements, b.elements, touch)
    found = without(a.elements, left, touch)
    return Aggregate(kind, distinct(found, touch) if kind == 'SET' else found, element=a.element)


def difference(a, b, touch):
    """a - b: a without one element for each of b."""
    taken = Aggregate('INITIALIZER', [b]) if depth_of(b) < depth_of(a) else b
    kind = bag_or_set(a, taken)
    return a.with_elements(without(a.elements, taken.elements, touch), a.kind if a.kind != 'INITIALIZER' else kind) if kind else None


def is_subset(a, b, touch):
    """a <= b: each element of a has one of its own in b."""
    if not bag_or_set(a, b):
        return UNKNOWN
    return has_partners(a.elements, b.elements, lambda x, y: identical(x, y, touch))
