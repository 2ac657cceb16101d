"""What a schema says of its names (Dictionary), and the instances of a file by it (World): their entities, the values of their explicit attributes, and
which instances mention which."""

import collections
import functools

import file_text
from file_text import DERIVED, Item, Reference
from schema_text import Binary, Collection, Enumeration, Literal, Named, Select, Simple, Unary
from values import FALSE, TRUE, UNKNOWN, Aggregate, Defined, Enumerated, Instance, Truth, plain

TRUTHS = {'T': TRUE, 'F': FALSE, 'U': UNKNOWN, 'TRUE': TRUE, 'FALSE': FALSE, 'UNKNOWN': UNKNOWN}
ABOVE_SIMPLE = {'INTEGER': ['INTEGER', 'REAL', 'NUMBER'], 'REAL': ['REAL', 'NUMBER'], 'BOOLEAN': ['BOOLEAN', 'LOGICAL']}

# An attribute as it is newly declared: the entity, and its name there.
Origin = collections.namedtuple('Origin', 'entity name')
Mention = collections.namedtuple('Mention', 'instance origin')


class Dictionary:
    """What is asked of a schema by name."""

    def __init__(self, schema):
        self.schema, self.types, self.entities = schema, schema.types, schema.entities
        self.items = collections.defaultdict(dict)
        for it in self.types.values():
            if isinstance(it.type, Enumeration):
                for place, item in enumerate(it.type.items):
                    self.items[item][it.name] = place
        self.attribute_names = {it.name for entity in self.entities.values() for it in entity.attributes}

    # Entities and attributes

    @functools.lru_cache(maxsize=None)
    def ancestors(self, entity):
        """The entity and all above it."""
        return frozenset([entity]).union(*(self.ancestors(it) for it in self.entities[entity].above))

    def closed(self, entities):
        """The entities and all above them."""
        return frozenset().union(*(self.ancestors(it) for it in entities))

    @functools.lru_cache(maxsize=None)
    def row(self, entity):
        """The explicit attributes of an instance that is written as one record: those of the supertypes first, each once."""
        own = [Origin(entity, it.name) for it in self.entities[entity].attributes if it.kind == 'explicit' and not it.again]
        return list(dict.fromkeys([it for above in self.entities[entity].above for it in self.row(above)] + own))

    @functools.lru_cache(maxsize=None)
    def origins(self, entities, name):
        """The attributes of this name among entities, the one of an entity with fewest ancestors first, then by the entity's name."""
        found = set()
        for entity in entities:
            for it in self.entities[entity].attributes:
                if it.name == name:
                    found.add(self.origin(entity, it))
        return sorted(found, key=lambda it: (len(self.ancestors(it.entity)), it.entity))

    def origin(self, entity, declared):
        """Where an attribute is newly declared that is declared here, perhaps again."""
        if not declared.again:
            return Origin(entity, declared.name)
        return self.origins(self.ancestors(declared.again), declared.renamed or declared.name)[0]

    @functools.lru_cache(maxsize=None)
    def in_force(self, entities, origin):
        """The declaration of an attribute that holds for an instance of these entities: that of the lowest that declares it, and its entity."""
        found = [(entity, it) for entity in entities for it in self.entities[entity].attributes
                 if (it.name == origin.name or it.renamed == origin.name or it.again) and self.origin(entity, it) == origin]
        return max(found, key=lambda it: (len(self.ancestors(it[0])), it[0]))

    @functools.lru_cache(maxsize=None)
    def explicit(self, entities):
        """The attributes of an instance of these entities that a file gives values for."""
        own = [Origin(entity, it.name) for entity in sorted(entities) for it in self.entities[entity].attributes if it.kind == 'explicit' and not it.again]
        return tuple(it for it in own if self.in_force(entities, it)[1].kind == 'explicit')

    # Types

    def under(self, declared):
        """The type below names: no defined type, unless it is an enumeration or a SELECT, as the type that it is declared to be."""
        while isinstance(declared, Named) and declared.name in self.types:
            declared = self.types[declared.name].type
        return declared

    @functools.lru_cache(maxsize=None)
    def enumeration(self, name):
        """The name of the enumeration that a defined type is, by itself or under other names; None for another."""
        declared = self.types[name].type
        if isinstance(declared, Enumeration):
            return name
        return self.enumeration(declared.name) if isinstance(declared, Named) and declared.name in self.types else None

    @functools.lru_cache(maxsize=None)
    def selects_of(self, name):
        """The SELECTs that have a name in their list, and those that have these."""
        found = set()
        for it in self.types.values():
            if isinstance(it.type, Select) and name in it.type.members:
                found |= {it.name} | self.selects_of(it.name)
        return found

    @functools.lru_cache(maxsize=None)
    def with_selects(self, names):
        """The names of types as TYPEOF has them, with the SELECTs."""
        found = set(names).union(*(self.selects_of(it) for it in names))
        return frozenset('%s.%s' % (self.schema.name, it) for it in found)

    @functools.lru_cache(maxsize=None)
    def names_of_type(self, name):
        """What TYPEOF has of a value that was declared of a defined or simple type: this, those below it, and their SELECTs."""
        names = []
        while name in self.types:
            names.append(name)
            declared = self.types[name].type
            name = declared.name if isinstance(declared, (Named, Simple)) else declared.kind if isinstance(declared, Collection) else None
        return self.with_selects(tuple(names)).union(ABOVE_SIMPLE.get(name, [name] if name else []))

    def names_of(self, value):
        """TYPEOF, as a set of strings."""
        if isinstance(value, Defined):
            return self.names_of_type(value.type)
        value = plain(value)
        if isinstance(value, Instance):
            return self.with_selects(tuple(sorted(value.entities)))
        if isinstance(value, Enumerated):
            return self.with_selects(tuple(sorted(value.places)))
        if isinstance(value, Aggregate):
            return frozenset([value.kind] if value.kind != 'INITIALIZER' else [])
        if isinstance(value, Truth):
            return frozenset(['LOGICAL'] if value is UNKNOWN else ABOVE_SIMPLE['BOOLEAN'])
        if value is None:
            return frozenset()
        simple = {int: 'INTEGER', float: 'REAL', str: 'STRING'}.get(type(value), 'BINARY')
        return frozenset(ABOVE_SIMPLE.get(simple, [simple]))

    @functools.lru_cache(maxsize=None)
    def bounds(self, collection):
        """The bounds of an attribute's aggregates, as numbers; None for `?`. Where none are written they are 0 and `?`."""
        return (0 if collection.low is None else self.number(collection.low)), self.number(collection.high)

    def number(self, tree):
        """A bound of an attribute: a number, a sign before one, a constant, or what is made of these."""
        if tree is None or isinstance(tree, Literal):
            return tree and tree.value
        if isinstance(tree, Unary):
            return -self.number(tree.of) if tree.operator == '-' else self.number(tree.of)
        if isinstance(tree, Binary):
            return {'+': int.__add__, '-': int.__sub__, '*': int.__mul__}[tree.operator](self.number(tree.left), self.number(tree.right))
        return self.number(self.schema.constants[tree.name][1])

    def leads_to(self, select, names):
        """Whether a SELECT has one of the names in its list, or a SELECT that does."""
        return any(it in names or self.is_select(it) and self.leads_to(self.types[it].type, names) for it in select.members)

    def is_select(self, name):
        return name in self.types and isinstance(self.types[name].type, Select)


class World:
    """The instances of a file by a schema."""

    def __init__(self, schema, text):
        self.dictionary = Dictionary(schema)
        file = file_text.File(text)
        self.header = file.header
        self.instances, self.by_name = [], {}
        for read in file.instances:
            entities = self.dictionary.closed([it.entity for it in read.records])
            it = Instance(entities, self.dictionary.explicit(entities), {}, read.name, read.place)
            self.instances.append(it)
            self.by_name[read.name] = it
        self.mentions = collections.defaultdict(list)
        for instance, read in zip(self.instances, file.instances):
            for record in read.records:
                self.fill(instance, record, read.is_complex)
        self.populations = collections.defaultdict(list)
        for instance in self.instances:
            for entity in instance.entities:
                self.populations[entity].append(instance)

    def fill(self, instance, record, is_complex):
        """Gives an instance the values of a record: in a complex one, a record has the attributes that its entity newly declares."""
        origins = self.dictionary.row(record.entity)
        if is_complex:
            origins = [it for it in origins if it.entity == record.entity]
        for origin, parameter in zip(origins, record.parameters):
            declared = self.dictionary.in_force(instance.entities, origin)[1]
            if parameter is not DERIVED and declared.kind == 'explicit':
                instance.values[origin] = self.value(declared.type, parameter)
                for name in references(parameter):
                    self.mentions[name].append(Mention(instance, origin))

    def value(self, declared, parameter):
        """A parameter as a value of a type."""
        if parameter is None:
            return None
        if isinstance(parameter, Reference):
            return self.by_name.get(parameter.name)
        if isinstance(parameter, file_text.Typed):
            return self.value(Named(parameter.name), parameter.value)
        found = self.inner_value(self.dictionary.under(declared), declared, parameter)
        is_shown = isinstance(declared, Simple) and declared.name not in ('NUMBER', 'LOGICAL') or not isinstance(declared, (Named, Simple))
        return found if found is None or is_shown or isinstance(found, Enumerated) and declared.name in found.places else Defined(declared.name, found)

    def inner_value(self, under, declared, parameter):
        """A parameter as a value of the type under names."""
        if isinstance(parameter, list):
            bounds = self.dictionary.bounds(under)
            low = bounds[0] if under.kind == 'ARRAY' else 1
            return Aggregate(under.kind, [self.value(under.element, it) for it in parameter], low, bounds, under.element)
        if isinstance(parameter, Item):
            if isinstance(under, Enumeration):
                enumeration = self.dictionary.enumeration(declared.name)
                return Enumerated(parameter.name, {enumeration: under.items.index(parameter.name)})
            return TRUTHS[parameter.name]
        if isinstance(parameter, int) and isinstance(under, Simple) and under.name == 'REAL':
            return float(parameter)
        return parameter

    def roles(self, instance):
        """The mentions of an instance in the file, in its order."""
        return self.mentions[instance.name] if instance.name is not None else []


def references(parameter):
    """The names that a parameter refers to, each as often as it does."""
    if isinstance(parameter, Reference):
        return [parameter.name]
    if isinstance(parameter, list):
        return [name for it in parameter for name in references(it)]
    return references(parameter.value) if isinstance(parameter, file_text.Typed) else []
