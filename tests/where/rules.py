"""Which rules the instances of a file break: WHERE of entities and of defined types, and global rules."""

import collections
import functools
import re

import schema_text
from evaluation import Evaluator, Frame, Variable
from functions import BUILT_IN, CONSTANTS
from schema_text import Algorithm, Alias, Attribute, Binary, Call, Collection, Group, Invoke, Literal, Name, Named, Node, Query, Repeat, Select
from values import FALSE, UNKNOWN, Aggregate, Defined, Enumerated, Instance, NotDecided, plain, truth
from world import World

STEPS = 100000
STEPS_OF_GLOBAL, STEPS_FOR_AN_INSTANCE = 1000000, 10000

Fault = collections.namedtuple('Fault', 'place rule')
Counts = collections.namedtuple('Counts', 'rules evaluations false unknown not_decided')


def children(it):
    """What stands directly in a node, or in a list, a tuple or a dictionary."""
    if isinstance(it, (Node, dict)):
        return list((it if isinstance(it, dict) else vars(it)).values())
    return list(it) if isinstance(it, (list, tuple)) else []


def parts(tree):
    """The nodes of a tree."""
    pending = [tree]
    while pending:
        it = pending.pop()
        if isinstance(it, Node):
            yield it
        pending += children(it)


class Names:
    """What a rule names that is not there, or that another schema has: in its text and in that of the functions and constants that it asks."""

    def __init__(self, dictionary):
        self.dictionary, self.schema = dictionary, dictionary.schema

    def reached(self, tree):
        """A tree, and those of the functions and constants of the schema that it names."""
        seen, found = set(), [tree]
        for tree in found:
            for it in parts(tree):
                if isinstance(it, (Name, Call, Invoke)) and it.name not in seen:
                    seen.add(it.name)
                    if it.name in self.schema.functions:
                        found.append(self.schema.functions[it.name])
                    elif it.name in self.schema.constants:
                        found.append(self.schema.constants[it.name][1])
        return found

    @functools.lru_cache(maxsize=None)
    def missing_in(self, tree):
        """The names in a tree that are neither bound in it nor there in the schema."""
        nodes = list(parts(tree))
        bound = bound_in(nodes)
        return [it for it in nodes if isinstance(it, (Name, Call, Invoke, Group, Attribute)) and not self.is_there(it, bound)]

    def is_there(self, it, bound):
        if isinstance(it, Group):
            return it.entity in self.schema.entities
        if isinstance(it, Attribute):
            return it.name in self.dictionary.attribute_names or it.name in self.dictionary.items
        if it.name in bound or it.name in self.schema.functions:
            return True
        if isinstance(it, Name):
            return it.name in CONSTANTS or it.name in self.schema.constants or it.name in self.dictionary.items or it.name in self.schema.types
        return it.name in ('INSERT', 'REMOVE') if isinstance(it, Invoke) else it.name in BUILT_IN or it.name in self.schema.entities

    def missing(self, trees, known):
        """The first name that is not there, or None; `known` are those that the rule has by where it stands."""
        for tree in trees:
            for it in self.missing_in(tree):
                if isinstance(it, (Attribute, Group)) or it.name not in known:
                    return it.entity if isinstance(it, Group) else it.name
        return None

    def foreign(self, trees):
        """The first string that names a type or a role of another schema, where names of types or roles are asked for; None if there is none."""
        if any(isinstance(it, Call) and it.name in ('TYPEOF', 'USEDIN', 'ROLESOF') for tree in trees for it in parts(tree)):
            for tree in trees:
                for string in self.strings(tree):
                    found = re.fullmatch(r'([A-Z]\w*)\.\w+(\.\w+)?', string)
                    if found and found[1] != self.schema.name:
                        return string
        return None

    @functools.lru_cache(maxsize=None)
    def strings(self, tree):
        """The strings in a tree, those that are written as a sum as one."""
        found, pending = [], [tree]
        while pending:
            it = pending.pop()
            string = self.string(it)
            if string is None:
                pending += children(it)
            else:
                found.append(string)
        return found

    def string(self, tree):
        """The string that a literal, a constant or a sum of these is; None for another tree."""
        if isinstance(tree, Literal):
            return tree.value if isinstance(tree.value, str) else None
        if isinstance(tree, Name) and tree.name in self.schema.constants:
            return self.string(self.schema.constants[tree.name][1])
        if isinstance(tree, Binary) and tree.operator == '+':
            left, right = self.string(tree.left), self.string(tree.right)
            return None if left is None or right is None else left + right
        return None


def bound_in(nodes):
    """The names that stand for something within these nodes, whatever part of them they are bound in."""
    found = set()
    for it in nodes:
        if isinstance(it, (Query, Repeat)):
            found.add(it.variable)
        elif isinstance(it, Alias):
            found.add(it.name)
        elif isinstance(it, Algorithm):
            found |= {it.name} | {parameter for parameter, _, _ in it.parameters} | {name for name, _, _ in it.variables} | set(it.constants)
    return found


class Checker:
    """Runs all rules over a world. `faults` has the rules that are broken, `undecided` why a rule is not decided, by rule, and `foreign` what a rule
    names of another schema. `heard` is told of each rule and its truth, or None."""

    def __init__(self, world, steps=STEPS, heard=lambda rule, value: None):
        self.world, self.dictionary, self.schema, self.steps, self.heard = world, world.dictionary, world.dictionary.schema, steps, heard
        self.evaluator = Evaluator(world)
        self.faults, self.undecided, self.foreign, self.outcomes = [], {}, {}, collections.defaultdict(list)
        self.absent, self.is_concerned = {}, {}
        self.order = {it.name: place for place, it in enumerate(self.schema.order)}
        self.look_at_names()

    def look_at_names(self):
        """Which rules name what is not there, or another schema."""
        names = Names(self.dictionary)
        for declaration in self.schema.order:
            known = set()
            if declaration.name in self.schema.entities:
                known = {it.name for one in self.dictionary.ancestors(declaration.name) for it in self.schema.entities[one].attributes}
            for where in declaration.where:
                self.look(names, declaration.name, where, [where.tree], known)
        for rule in self.schema.rules.values():
            known = bound_in(parts(rule.algorithm)) | set(rule.entities)
            for where in rule.where:
                self.look(names, rule.name, where, [where.tree, rule.algorithm], known)

    def look(self, names, name, where, trees, known):
        label = '%s.%s' % (name, where.label)
        trees = [it for tree in trees for it in names.reached(tree)]
        self.absent[label] = names.missing(trees, known)
        foreign = names.foreign(trees)
        if foreign:
            self.foreign[label] = foreign

    def run(self):
        for instance in self.world.instances:
            self.of_instance(instance)
        for rule in self.schema.rules.values():
            self.of_global(rule)
        return self.faults

    def outcome(self, rule, compute):
        """The truth of a rule as an evaluation gives it, or None where it is not decided: what is not FALSE does not break it."""
        try:
            if self.absent[rule]:
                raise NotDecided('%s is not there' % self.absent[rule])
            value = truth(compute())
        except NotDecided as why:
            self.undecided.setdefault(rule, str(why))
            value = None
        except RecursionError:
            self.undecided.setdefault(rule, 'depth')
            value = None
        self.outcomes[rule].append(value)
        self.heard(rule, value)
        return value

    def of_instance(self, instance):
        """The rules of an instance's entities, and of the types of its values, in the order of the schema's text; each is told once."""
        broken = set()
        for name in instance.entities:
            for place, where in enumerate(self.schema.entities[name].where):
                self.evaluator.begin(self.steps)
                rule = '%s.%s' % (name, where.label)
                if self.outcome(rule, lambda: self.evaluator.evaluate(where.tree, Frame(itself=instance, entity=name))) is FALSE:
                    broken.add((self.order[name], place, rule))
        for origin in instance.explicit:
            declared = self.dictionary.in_force(instance.entities, origin)[1].type
            if self.concerns(declared):
                self.of_value(declared, instance.values.get(origin), broken)
        self.faults += [Fault(instance.place, rule) for _, _, rule in sorted(broken)]

    def concerns(self, declared):
        """Whether rules may have to be kept by a value of a type."""
        if declared not in self.is_concerned:
            self.is_concerned[declared] = any(self.schema.types[it].where for it in self.below(declared, set()))
        return self.is_concerned[declared]

    def below(self, declared, seen):
        """The defined types that a type is made of."""
        if isinstance(declared, Collection):
            return self.below(declared.element, seen)
        if isinstance(declared, Select):
            return [name for it in declared.members for name in self.below(Named(it), seen)]
        if isinstance(declared, Named) and declared.name in self.schema.types and declared.name not in seen:
            seen.add(declared.name)
            return [declared.name] + self.below(self.schema.types[declared.name].type, seen)
        return []

    def of_value(self, declared, value, broken):
        """The rules of the types that a value is declared of: in an aggregate of each element's."""
        if value is None:
            return
        if isinstance(declared, Collection):
            for it in plain(value).elements:
                self.of_value(declared.element, it, broken)
        elif isinstance(declared, Named) and declared.name in self.schema.types:
            self.of_defined(self.schema.types[declared.name], value, broken)

    def of_defined(self, declaration, value, broken):
        """The rules of a defined type for a value, and of what stands below it."""
        for place, where in enumerate(declaration.where):
            self.evaluator.begin(self.steps)
            rule = '%s.%s' % (declaration.name, where.label)
            if self.outcome(rule, lambda: self.evaluator.evaluate(where.tree, Frame(itself=value))) is FALSE:
                broken.add((self.order[declaration.name], place, rule))
        if isinstance(declaration.type, Select):
            member = self.member_of(declaration.type, value)
            if member:
                self.of_value(Named(member), value, broken)
        else:
            self.of_value(declaration.type, value, broken)

    def member_of(self, select, value):
        """The one of a SELECT's list that a value is of: its own type, or the first SELECT that leads to it."""
        if isinstance(value, Defined):
            names = {value.type}
        else:
            value = plain(value)
            names = value.entities if isinstance(value, Instance) else set(value.places) if isinstance(value, Enumerated) else set()
        direct = [it for it in select.members if it in names]
        nested = [it for it in select.members if self.dictionary.is_select(it) and self.dictionary.leads_to(self.schema.types[it].type, names)]
        return next(iter(direct + nested), None)

    def of_global(self, rule):
        """A global rule: its statements are run once, and each expression behind WHERE takes its steps from what they left."""
        frame, evaluator = Frame(), self.evaluator
        members = 0
        for entity in rule.entities:
            population = self.world.populations[entity]
            members += len(population)
            frame.variables[entity] = Variable(Aggregate('SET', population, 1, (0, None), Named(entity)))
        evaluator.begin(STEPS_OF_GLOBAL + STEPS_FOR_AN_INSTANCE * members)
        failed = None
        try:
            evaluator.run(rule.algorithm, frame)
        except (NotDecided, RecursionError) as why:
            failed = why
        left = evaluator.steps

        def compute(where):
            if failed:
                raise failed
            evaluator.begin(left)
            return evaluator.evaluate(where.tree, frame)

        for where in rule.where:
            name = '%s.%s' % (rule.name, where.label)
            if self.outcome(name, lambda: compute(where)) is FALSE:
                self.faults.append(Fault(self.world.header, name))

    def counts(self, is_global):
        """How many of the global rules, or of the others, were run, how often, and with what result."""
        found = {rule: values for rule, values in self.outcomes.items() if (rule.split('.')[0] in self.schema.rules) == is_global}
        values = [it for values in found.values() for it in values]
        return Counts(len(found), len(values), values.count(FALSE), values.count(UNKNOWN), values.count(None))


def lines(faults):
    """Faults as a report has them."""
    return ['fault 18 RuleBroken at %d rule %s' % it for it in faults]


def checker_of(schema, file, **more):
    """What runs the rules of a schema's text over a file's, whose characters are their bytes."""
    return Checker(World(schema_text.read(schema), file), **more)
