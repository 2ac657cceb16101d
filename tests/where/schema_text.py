"""The text of an EXPRESS schema (ISO 10303-11) read into trees: its types, entities, constants, functions, procedures and rules.

Names are in capitals, since case does not count. An expression is an object of one of the classes below, and so is a type and a statement; what each
means is said by evaluation.py."""

import dataclasses
import re


class Unreadable(Exception):
    """A text that is no schema, as far as it is read here."""


class Node:
    """A part of a tree; two parts that look alike are two."""

    def __repr__(self):
        return '%s(%s)' % (type(self).__name__, ', '.join('%r' % it for it in vars(self).values()))


def node(name, fields, meaning):
    """A class of nodes with these fields, separated by blanks."""
    return dataclasses.make_dataclass(name, fields.split(), bases=(Node,), eq=False, repr=False, namespace={'__doc__': meaning})


# Types
Simple = node('Simple', 'name', 'INTEGER, REAL, NUMBER, STRING, BINARY, LOGICAL or BOOLEAN.')
Named = node('Named', 'name', 'A type or an entity of the schema.')
Collection = node('Collection', 'kind low high unique optional element',
                  'ARRAY, BAG, LIST, SET, or AGGREGATE for any of them. A bound is an expression, or None for `?` or where none is written.')
Enumeration = node('Enumeration', 'items', 'The items in their order.')
Select = node('Select', 'members', 'The names of types and entities.')
Generic = node('Generic', '', 'Any value.')

# Expressions
Literal = node('Literal', 'value', 'A number, a string, a binary; None is `?`.')
Name = node('Name', 'name', 'A variable, attribute, constant, item, function without parameters, entity .. : which, is found where it is evaluated.')
Itself = node('Itself', '', 'SELF.')
Attribute = node('Attribute', 'of name', 'of.name')
Group = node('Group', 'of entity', r'of\entity')
Index = node('Index', 'of low high', 'of[low] where high is None, else of[low:high].')
Call = node('Call', 'name arguments', 'A function with arguments, or the constructor of an entity.')
Unary = node('Unary', 'operator of', '+, - or NOT.')
Binary = node('Binary', 'operator left right', 'An operator between two operands.')
Interval = node('Interval', 'low first item second high', '{low first item second high}, where first and second are < or <=.')
Query = node('Query', 'variable over condition', 'QUERY(variable <* over | condition)')
Initializer = node('Initializer', 'elements', '[..]: pairs of an element and how often it stands there, which is None for once.')

# Statements
Assign = node('Assign', 'target value', 'target := value;')
Case = node('Case', 'selector branches otherwise', 'Branches are pairs of labels and statements; otherwise is None where it is not there.')
If = node('If', 'condition yes no', 'IF condition THEN yes ELSE no END_IF;')
Repeat = node('Repeat', 'variable first last step condition until body', 'Each of the controls may be None.')
Return = node('Return', 'value', 'RETURN(value); or RETURN; with None.')
Escape = node('Escape', '', 'ESCAPE;')
Skip = node('Skip', '', 'SKIP;')
Invoke = node('Invoke', 'name arguments', 'A call of a procedure.')
Alias = node('Alias', 'name target body', 'ALIAS name FOR target; body END_ALIAS;')

# Declarations
Where = node('Where', 'label tree', 'A rule: its label, which is (N) for the N-th rule without one, and its expression.')
TypeDeclaration = node('TypeDeclaration', 'name type where', 'TYPE name = type; where END_TYPE;')
Declared = node('Declared', 'name kind type optional tree inverse again renamed',
                'An attribute: kind is explicit, derived or inverse; tree is that of a derived one; inverse is (entity, attribute) of an inverse one; '
                'again is the entity behind SELF where the attribute is declared again, else None.')
Entity = node('Entity', 'name abstract above attributes where', 'An entity; above are the names of its supertypes.')
Algorithm = node('Algorithm', 'name parameters result functions types constants variables body',
                 'A function, a procedure (result is None) or what stands in a global rule. A parameter is (name, type, whether VAR).')
Rule = node('Rule', 'name entities algorithm where', 'RULE name FOR (entities); .. WHERE .. END_RULE;')
Schema = node('Schema', 'name types entities constants functions rules order',
              'Dictionaries by name; constants are pairs of a type and an expression; order has types and entities as they stand in the text.')


class Bits(str):
    """The bits of a binary."""


TOKEN = re.compile(r"""
    (?P<blank>\s+|--[^\n]*)
  | (?P<string>'(?:[^']|'')*')
  | (?P<encoded>"[0-9A-Fa-f]*")
  | (?P<bits>%[01]+)
  | (?P<real>\d+\.\d*(?:[eE][+-]?\d+)?)
  | (?P<integer>\d+)
  | (?P<name>[A-Za-z]\w*)
  | (?P<symbol>:=:|:<>:|:=|<=|>=|<>|<\*|\*\*|\|\||[-+*/=<>(){}\[\];:,.\\|?])
""", re.VERBOSE)


def after_remark(text, at):
    """The place behind a remark (* .. *), in which others may stand."""
    depth = 0
    while True:
        bracket = re.compile(r'\(\*|\*\)').search(text, at)
        if not bracket:
            raise Unreadable('a remark has no end')
        depth += 1 if bracket[0] == '(*' else -1
        at = bracket.end()
        if not depth:
            return at


def tokens_of(text):
    """The tokens of a text, as pairs of a kind and what stands there: names in capitals, literals as values."""
    tokens, at = [], 0
    while at < len(text):
        if text.startswith('(*', at):
            at = after_remark(text, at)
            continue
        found = TOKEN.match(text, at)
        if not found:
            raise Unreadable('at %d: %r' % (at, text[at:at + 20]))
        at, kind, spelled = found.end(), found.lastgroup, found[0]
        if kind == 'name':
            tokens.append(('name', spelled.upper()))
        elif kind == 'string':
            tokens.append(('literal', spelled[1:-1].replace("''", "'")))
        elif kind == 'encoded':
            tokens.append(('literal', ''.join(chr(int(spelled[i:i + 8], 16)) for i in range(1, len(spelled) - 1, 8))))
        elif kind == 'bits':
            tokens.append(('literal', Bits(spelled[1:])))
        elif kind in ('real', 'integer'):
            tokens.append(('literal', float(spelled) if kind == 'real' else int(spelled)))
        elif kind == 'symbol':
            tokens.append(('symbol', spelled))
    return tokens + [('end', '')]


ENDS = {'END', 'END_ALIAS', 'END_CASE', 'END_ENTITY', 'END_FUNCTION', 'END_IF', 'END_PROCEDURE', 'END_REPEAT', 'END_RULE', 'END_TYPE'}
SIMPLE = {'INTEGER', 'REAL', 'NUMBER', 'STRING', 'BINARY', 'LOGICAL', 'BOOLEAN'}
RELATIONS = {'=', '<>', '<', '>', '<=', '>=', ':=:', ':<>:', 'IN', 'LIKE'}
SUMS = {'+', '-', 'OR', 'XOR'}
PRODUCTS = {'*', '/', 'DIV', 'MOD', 'AND', '||'}


class Parser:
    """Reads the tokens of a schema one after the other."""

    def __init__(self, text):
        self.tokens, self.at = tokens_of(text), 0

    def now(self, ahead=0):
        """What the next token spells, or None for a literal, so that no string is taken for a word."""
        kind, spelled = self.tokens[min(self.at + ahead, len(self.tokens) - 1)]
        return None if kind == 'literal' else spelled

    def next(self):
        self.at += 1
        return self.tokens[self.at - 1][1]

    def have(self, *words):
        """Whether the next tokens are these; if so they are passed."""
        if all(self.now(place) == word for place, word in enumerate(words)):
            self.at += len(words)
            return True
        return False

    def want(self, *words):
        if not self.have(*words):
            raise Unreadable('%s is wanted before %s' % (' '.join(words), ' '.join(str(it[1]) for it in self.tokens[self.at:self.at + 8])))

    def ends(self):
        """Whether a word that ends something is next."""
        return self.now() in ENDS

    def name(self):
        if self.tokens[self.at][0] != 'name':
            raise Unreadable('a name is wanted before %s' % ' '.join(str(it[1]) for it in self.tokens[self.at:self.at + 8]))
        return self.next()

    def names(self):
        """Names with commas between them."""
        found = [self.name()]
        while self.have(','):
            found.append(self.name())
        return found

    def listed(self, read, opening='(', closing=')'):
        """What stands between brackets, with commas between; the list may be empty."""
        self.want(opening)
        found = []
        while not self.have(closing):
            if found:
                self.want(',')
            found.append(read())
        return found

    def pass_until(self, *words):
        while not self.have(*words):
            if self.now() == '':
                raise Unreadable('%s is wanted' % ' '.join(words))
            self.at += 1

    # Declarations

    def schema(self):
        self.want('SCHEMA')
        schema = Schema(self.name(), {}, {}, {}, {}, {}, [])
        self.pass_until(';')
        while not self.have('END_SCHEMA'):
            self.declaration(schema)
        return schema

    def declaration(self, schema):
        if self.now() in ('USE', 'REFERENCE'):
            self.pass_until(';')
        elif self.have('SUBTYPE_CONSTRAINT'):
            self.pass_until('END_SUBTYPE_CONSTRAINT', ';')
        elif self.now() == 'CONSTANT':
            schema.constants.update(self.constants())
        elif self.have('TYPE'):
            it = self.type_declaration()
            schema.types[it.name] = it
            schema.order.append(it)
        elif self.have('ENTITY'):
            it = self.entity()
            schema.entities[it.name] = it
            schema.order.append(it)
        elif self.now() in ('FUNCTION', 'PROCEDURE'):
            it = self.algorithm()
            schema.functions[it.name] = it
        else:
            self.want('RULE')
            it = self.rule()
            schema.rules[it.name] = it

    def constants(self):
        self.want('CONSTANT')
        found = {}
        while not self.have('END_CONSTANT', ';'):
            name = self.name()
            self.want(':')
            declared = self.type()
            self.want(':=')
            found[name] = (declared, self.expression())
            self.want(';')
        return found

    def type_declaration(self):
        name = self.name()
        self.want('=')
        declared = self.type()
        self.want(';')
        where = self.where()
        self.want('END_TYPE', ';')
        return TypeDeclaration(name, declared, where)

    def where(self):
        """The rules behind WHERE, where it stands there."""
        found = []
        if self.have('WHERE'):
            while not self.ends():
                label = '(%d)' % (len(found) + 1)
                if self.tokens[self.at][0] == 'name' and self.now(1) == ':':
                    label = self.name()
                    self.want(':')
                found.append(Where(label, self.expression()))
                self.want(';')
        return found

    def entity(self):
        name, abstract, above = self.name(), False, []
        while not self.have(';'):
            if self.have('SUBTYPE', 'OF'):
                above = self.listed(self.name)
            else:
                abstract |= self.next() == 'ABSTRACT'
        attributes = []
        while self.now() not in ('DERIVE', 'INVERSE', 'UNIQUE', 'WHERE', 'END_ENTITY'):
            attributes += self.explicit()
        if self.have('DERIVE'):
            while self.now() not in ('INVERSE', 'UNIQUE', 'WHERE', 'END_ENTITY'):
                attributes.append(self.derived())
        if self.have('INVERSE'):
            while self.now() not in ('UNIQUE', 'WHERE', 'END_ENTITY'):
                attributes.append(self.inverse())
        if self.have('UNIQUE'):
            while self.now() not in ('WHERE', 'END_ENTITY'):
                self.pass_until(';')
        where = self.where()
        self.want('END_ENTITY', ';')
        return Entity(name, abstract, above, attributes, where)

    def attribute_name(self):
        r"""The name of an attribute, the entity behind SELF\ or None, and the name that it has had before RENAMED or None."""
        if not self.have('SELF', '\\'):
            return self.name(), None, None
        again = self.name()
        self.want('.')
        name = self.name()
        return (self.name(), again, name) if self.have('RENAMED') else (name, again, None)

    def explicit(self):
        found = [self.attribute_name()]
        while self.have(','):
            found.append(self.attribute_name())
        self.want(':')
        optional = self.have('OPTIONAL')
        declared = self.type()
        self.want(';')
        return [Declared(name, 'explicit', declared, optional, None, None, again, renamed) for name, again, renamed in found]

    def derived(self):
        name, again, renamed = self.attribute_name()
        self.want(':')
        declared = self.type()
        self.want(':=')
        tree = self.expression()
        self.want(';')
        return Declared(name, 'derived', declared, False, tree, None, again, renamed)

    def inverse(self):
        name, again, renamed = self.attribute_name()
        self.want(':')
        declared = self.type()
        self.want('FOR')
        behind = self.name()
        if self.have('.') or self.have('\\'):
            behind = self.name()
            if self.have('.'):
                behind = self.name()
        self.want(';')
        of = declared.element if isinstance(declared, Collection) else declared
        return Declared(name, 'inverse', declared, False, None, (of.name, behind), again, renamed)

    def algorithm(self):
        is_function = self.next() == 'FUNCTION'
        name, parameters = self.name(), []
        if self.have('('):
            while True:
                is_variable = self.have('VAR')
                names = self.names()
                self.want(':')
                declared = self.type()
                parameters += [(it, declared, is_variable) for it in names]
                if self.have(')'):
                    break
                self.want(';')
        result = None
        if is_function:
            self.want(':')
            result = self.type()
        self.want(';')
        found = self.inside(name, parameters, result)
        self.want('END_FUNCTION' if is_function else 'END_PROCEDURE', ';')
        return found

    def inside(self, name, parameters, result):
        """What stands in a function, a procedure or a rule, up to its end or to WHERE."""
        inner = Schema(name, {}, {}, {}, {}, {}, [])
        while self.now() in ('TYPE', 'ENTITY', 'FUNCTION', 'PROCEDURE', 'CONSTANT', 'SUBTYPE_CONSTRAINT'):
            self.declaration(inner)
        variables = []
        if self.have('LOCAL'):
            while not self.have('END_LOCAL', ';'):
                names = self.names()
                self.want(':')
                declared = self.type()
                tree = self.expression() if self.have(':=') else None
                self.want(';')
                variables += [(it, declared, tree) for it in names]
        body = self.statements()
        return Algorithm(name, parameters, result, inner.functions, inner.order, inner.constants, variables, body)

    def rule(self):
        name = self.name()
        self.want('FOR')
        entities = self.listed(self.name)
        self.want(';')
        algorithm = self.inside(name, [], None)
        where = self.where()
        self.want('END_RULE', ';')
        return Rule(name, entities, algorithm, where)

    # Types

    def type(self):
        if self.now() in SIMPLE:
            found = Simple(self.next())
            if self.now() == '(':
                self.listed(self.expression)
                self.have('FIXED')
            return found
        if self.now() in ('ARRAY', 'BAG', 'LIST', 'SET', 'AGGREGATE'):
            return self.collection()
        if self.now() in ('GENERIC', 'GENERIC_ENTITY') and self.now(1) != 'SELECT':
            self.next()
            self.label()
            return Generic()
        self.have('EXTENSIBLE')
        self.have('GENERIC_ENTITY')
        if self.have('ENUMERATION'):
            return Enumeration(self.members('OF'))
        if self.have('SELECT'):
            return Select(self.members())
        return Named(self.name())

    def members(self, *before):
        """The names in brackets of an enumeration or a SELECT; one that is BASED_ON another has these behind WITH."""
        if self.have('BASED_ON'):
            raise Unreadable('BASED_ON')
        self.have(*before)
        return self.listed(self.name) if self.now() == '(' else []

    def label(self):
        """The label of GENERIC and AGGREGATE, which ties types together before anything is evaluated."""
        if self.have(':'):
            self.name()

    def collection(self):
        kind, low, high = self.next(), None, None
        if kind == 'AGGREGATE':
            self.label()
        if self.have('['):
            low = self.bound()
            self.want(':')
            high = self.bound()
            self.want(']')
        self.want('OF')
        optional = self.have('OPTIONAL')
        unique = self.have('UNIQUE')
        return Collection(kind, low, high, unique, optional or self.have('OPTIONAL'), self.type())

    def bound(self):
        return None if self.have('?') else self.sum()

    # Expressions: a relation binds least, then sums, then products, then **, then signs and NOT.

    def expression(self):
        left = self.sum()
        while self.now() in RELATIONS:
            left = Binary(self.next(), left, self.sum())
        return left

    def sum(self):
        left = self.product()
        while self.now() in SUMS:
            left = Binary(self.next(), left, self.product())
        return left

    def product(self):
        left = self.power()
        while self.now() in PRODUCTS:
            left = Binary(self.next(), left, self.power())
        return left

    def power(self):
        left = self.signed()
        return Binary('**', left, self.signed()) if self.have('**') else left

    def signed(self):
        return Unary(self.next(), self.signed()) if self.now() in ('+', '-', 'NOT') else self.qualified()

    def qualified(self):
        """An operand with the attributes, groups and indices behind it."""
        found = self.operand()
        while True:
            if self.have('.'):
                found = Attribute(found, self.name())
            elif self.have('\\'):
                found = Group(found, self.name())
            elif self.have('['):
                low = self.sum()
                found = Index(found, low, self.sum() if self.have(':') else None)
                self.want(']')
            else:
                return found

    def operand(self):
        if self.tokens[self.at][0] == 'literal':
            return Literal(self.next())
        if self.have('?'):
            return Literal(None)
        if self.have('('):
            found = self.expression()
            self.want(')')
            return found
        if self.now() == '[':
            return Initializer(self.listed(self.element, '[', ']'))
        if self.have('{'):
            return self.interval()
        if self.have('QUERY'):
            return self.query()
        if self.have('SELF'):
            return Itself()
        name = self.name()
        return Call(name, self.listed(self.expression)) if self.now() == '(' else Name(name)

    def element(self):
        found = self.expression()
        return found, self.sum() if self.have(':') else None

    def interval(self):
        low, first = self.sum(), self.next()
        item, second = self.sum(), self.next()
        high = self.sum()
        self.want('}')
        if not {first, second} <= {'<', '<='}:
            raise Unreadable('an interval with %s and %s' % (first, second))
        return Interval(low, first, item, second, high)

    def query(self):
        self.want('(')
        variable = self.name()
        self.want('<*')
        over = self.sum()
        self.want('|')
        condition = self.expression()
        self.want(')')
        return Query(variable, over, condition)

    # Statements

    def statements(self):
        """The statements up to a word that ends them."""
        found = []
        while self.now() not in ('ELSE', 'OTHERWISE', 'WHERE') and not self.ends():
            found += self.statement()
        return found

    def statement(self):
        """One statement, as a list: of none for `;` alone, and of more for BEGIN .. END."""
        if self.have(';'):
            return []
        if self.have('BEGIN'):
            found = self.statements()
            self.want('END', ';')
            return found
        if self.have('IF'):
            return [self.condition()]
        if self.have('CASE'):
            return [self.case()]
        if self.have('REPEAT'):
            return [self.repeat()]
        if self.have('ALIAS'):
            return [self.alias()]
        if self.have('RETURN'):
            value = self.expression() if self.now() != ';' else None
            self.want(';')
            return [Return(value)]
        if self.have('ESCAPE', ';'):
            return [Escape()]
        if self.have('SKIP', ';'):
            return [Skip()]
        if self.now(1) in ('(', ';'):
            found = Invoke(self.name(), self.listed(self.expression) if self.now() == '(' else [])
        else:
            target = self.qualified()
            self.want(':=')
            found = Assign(target, self.expression())
        self.want(';')
        return [found]

    def condition(self):
        condition = self.expression()
        self.want('THEN')
        yes = self.statements()
        no = self.statements() if self.have('ELSE') else []
        self.want('END_IF', ';')
        return If(condition, yes, no)

    def case(self):
        selector, branches, otherwise = self.expression(), [], None
        self.want('OF')
        while not self.have('END_CASE', ';'):
            if self.have('OTHERWISE', ':'):
                otherwise = self.statement()
                continue
            labels = [self.expression()]
            while self.have(','):
                labels.append(self.expression())
            self.want(':')
            branches.append((labels, self.statement()))
        return Case(selector, branches, otherwise)

    def repeat(self):
        variable = first = last = step = condition = until = None
        if self.now(1) == ':=':
            variable = self.name()
            self.want(':=')
            first = self.sum()
            self.want('TO')
            last = self.sum()
            step = self.sum() if self.have('BY') else None
        if self.have('WHILE'):
            condition = self.expression()
        if self.have('UNTIL'):
            until = self.expression()
        self.want(';')
        body = self.statements()
        self.want('END_REPEAT', ';')
        return Repeat(variable, first, last, step, condition, until, body)

    def alias(self):
        name = self.name()
        self.want('FOR')
        target = self.qualified()
        self.want(';')
        body = self.statements()
        self.want('END_ALIAS', ';')
        return Alias(name, target, body)


def read(text):
    """The schema that a text holds; types and entities that are declared in a function stand among those of the schema."""
    schema = Parser(text).schema()
    pending = list(schema.functions.values()) + [it.algorithm for it in schema.rules.values()]
    while pending:
        algorithm = pending.pop()
        pending += algorithm.functions.values()
        for it in algorithm.types:
            (schema.entities if isinstance(it, Entity) else schema.types).setdefault(it.name, it)
    return schema
