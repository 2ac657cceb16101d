"""The functions and constants that EXPRESS has by itself, arithmetic, and LIKE.

Each function takes the evaluator and the values of its arguments."""

import math
import re

from schema_text import Bits
from values import FALSE, TRUE, UNKNOWN, Aggregate, Instance, NotDecided, any_of, equal, is_number, negated, plain, truth_of

CONSTANTS = {'TRUE': TRUE, 'FALSE': FALSE, 'UNKNOWN': UNKNOWN, 'PI': math.pi, 'CONST_E': math.e}


def finite(value):
    """A real, or `?` for one that is infinite or no number."""
    return value if not isinstance(value, float) or math.isfinite(value) else None


def arithmetic(operator, a, b):
    """Of two numbers: an integer of two integers, but for / ; else a real."""
    if operator == '/':
        return finite(float(a) / float(b)) if b else None
    if operator in ('DIV', 'MOD'):
        return of_integers(operator, int(a), int(b))
    if operator == '**':
        return power(a, b)
    if isinstance(a, float) or isinstance(b, float):
        a, b = float(a), float(b)
    return finite(a + b if operator == '+' else a - b if operator == '-' else a * b)


def of_integers(operator, a, b):
    """DIV is cut off toward 0; MOD has the sign of the divisor. Reals are cut off toward 0 before."""
    if not b:
        return None
    if operator == 'MOD':
        return a % b
    return abs(a) // abs(b) * (1 if (a < 0) == (b < 0) else -1)


def power(a, b):
    """Of two integers an integer, unless the exponent is negative."""
    if isinstance(a, int) and isinstance(b, int) and b >= 0:
        if abs(a) > 1 and b > 63:
            raise NotDecided('an integer outside 64 bits')
        return a ** b
    try:
        return finite(math.pow(a, b))
    except (ValueError, OverflowError):
        return None


def of_real(compute):
    """A function of reals: `?` where it has no value."""
    def function(evaluator, *arguments):
        arguments = [plain(it) for it in arguments]
        if not all(is_number(it) for it in arguments):
            return None
        try:
            return finite(float(compute(*arguments)))
        except (ValueError, OverflowError, ZeroDivisionError):
            return None
    return function


def arctangent(a, b):
    """Of a / b, from -PI/2 to PI/2, where b may be 0 if a is not."""
    if not b:
        return math.copysign(math.pi / 2, a) if a else math.nan
    return math.atan(a / b)


def absolute(evaluator, value):
    value = plain(value)
    return evaluator.within(abs(value)) if is_number(value) else None


def odd(evaluator, value):
    value = plain(value)
    return truth_of(value % 2) if isinstance(value, int) else None


def exists(evaluator, value):
    return truth_of(value is not None)


def nvl(evaluator, value, substitute):
    return substitute if value is None else value


def length(evaluator, value):
    value = plain(value)
    return len(value) if isinstance(value, str) and not isinstance(value, Bits) else None


def binary_length(evaluator, value):
    value = plain(value)
    return len(value) if isinstance(value, Bits) else None


def of_aggregate(compute):
    """A function of an aggregate: `?` of anything else."""
    def function(evaluator, value):
        value = plain(value)
        return compute(value) if isinstance(value, Aggregate) else None
    return function


def high_index(it):
    return it.low + len(it.elements) - 1


def high_bound(it):
    return high_index(it) if it.kind == 'ARRAY' else it.bounds and it.bounds[1]


def low_bound(it):
    return it.low if it.kind == 'ARRAY' else it.bounds[0] if it.bounds else 0


def value_in(evaluator, aggregate, element):
    """As IN, but by = ."""
    aggregate = plain(aggregate)
    if not isinstance(aggregate, Aggregate) or element is None:
        return UNKNOWN
    return any_of(equal(element, it, evaluator.touch) for it in aggregate.elements)


def value_unique(evaluator, aggregate):
    """FALSE if two elements are equal, else UNKNOWN if one is missing or it is not known of two."""
    aggregate = plain(aggregate)
    if not isinstance(aggregate, Aggregate):
        return UNKNOWN
    them = aggregate.elements
    if len(them) == 1 and them[0] is None:
        return UNKNOWN
    return negated(any_of(equal(a, b, evaluator.touch) for place, a in enumerate(them) for b in them[:place]))


def type_of(evaluator, value):
    return Aggregate('SET', sorted(evaluator.dictionary.names_of(value)))


def used_in(evaluator, instance, role):
    """The instances that mention this one in a role, each as often as it does; in any role for ''. A role is SCHEMA.ENTITY.ATTRIBUTE; by one that the
    schema has not nothing is mentioned."""
    instance, role, users = plain(instance), plain(role), []
    if isinstance(instance, Instance) and isinstance(role, str):
        schema, entity, name = role.split('.') if role.count('.') == 2 else (None, None, None)
        if role == '':
            users = [it.instance for it in evaluator.world.roles(instance)]
            for _ in users:
                evaluator.touch()
        elif schema == evaluator.schema.name and entity in evaluator.schema.entities:
            users = evaluator.users(instance, entity, name)
    return Aggregate('BAG', users)


def roles_of(evaluator, instance):
    """The roles in which an instance is mentioned, by the entities that newly declare the attributes."""
    instance = plain(instance)
    if not isinstance(instance, Instance):
        return Aggregate('SET', [])
    found = {'%s.%s.%s' % (evaluator.schema.name, *it.origin) for it in evaluator.world.roles(instance)}
    return Aggregate('SET', sorted(found))


def value_of(evaluator, text):
    """The number that a string spells, as an EXPRESS text spells it; `?` of another string."""
    text = plain(text)
    found = re.fullmatch(r'\s*([+-]?\d+)(\.\d*(?:[eE][+-]?\d+)?)?\s*', text) if isinstance(text, str) else None
    if not found:
        return None
    return finite(float(text)) if found[2] else evaluator.within(int(text))


def not_computed(evaluator, *arguments):
    raise NotDecided('FORMAT is not computed')


BUILT_IN = {
    'ABS': absolute, 'ACOS': of_real(math.acos), 'ASIN': of_real(math.asin), 'ATAN': of_real(arctangent), 'BLENGTH': binary_length,
    'COS': of_real(math.cos), 'EXISTS': exists, 'EXP': of_real(math.exp), 'FORMAT': not_computed, 'HIBOUND': of_aggregate(high_bound),
    'HIINDEX': of_aggregate(high_index), 'LENGTH': length, 'LOBOUND': of_aggregate(low_bound), 'LOG': of_real(math.log), 'LOG10': of_real(math.log10),
    'LOG2': of_real(math.log2), 'LOINDEX': of_aggregate(lambda it: it.low), 'NVL': nvl, 'ODD': odd, 'ROLESOF': roles_of, 'SIN': of_real(math.sin),
    'SIZEOF': of_aggregate(lambda it: len(it.elements)), 'SQRT': of_real(math.sqrt), 'TAN': of_real(math.tan), 'TYPEOF': type_of, 'USEDIN': used_in,
    'VALUE': value_of, 'VALUE_IN': value_in, 'VALUE_UNIQUE': value_unique,
}
ARGUMENTS = {'ATAN': 2, 'FORMAT': 2, 'NVL': 2, 'USEDIN': 2, 'VALUE_IN': 2}

# What a character of a pattern stands for, of those that stand for one character; letters and digits are those of ASCII.
ONE = {'@': lambda it: it.isascii() and it.isalpha(), '^': lambda it: it.isascii() and it.isupper(), '?': lambda it: True,
       '#': lambda it: it.isascii() and it.isdigit()}


def is_like(text, pattern, touch):
    r"""LIKE: @ is a letter, ^ a capital, # a digit, ? any character, & all that is left, * any characters, $ characters up to a blank or the end; \ takes
    the next character as it is, ! is any character but what the next stands for."""
    touch()
    if not pattern:
        return not text
    first, rest = pattern[0], pattern[1:]
    if first == '&' and not rest:
        return True
    if first in '&*':
        return any(is_like(text[place:], rest, touch) for place in range(len(text) + 1))
    if first == '$':
        end = text.find(' ')
        return is_like(text[end:] if end >= 0 else '', rest, touch)
    is_negated = first == '!' and bool(rest)
    if is_negated:
        first, rest = rest[0], rest[1:]
    if first == '\\' and rest:
        stands, rest = rest[0].__eq__, rest[1:]
    else:
        stands = ONE.get(first, first.__eq__)
    return bool(text) and stands(text[0]) != is_negated and is_like(text[1:], rest, touch)
