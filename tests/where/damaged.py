"""Schemas whose text is damaged somewhere, between two entities with a rule each that the file breaks."""

import random
import re

BEFORE = "SCHEMA TOY; ENTITY first; v : INTEGER; WHERE zero : v > 7; END_ENTITY;\n"
BETWEEN = """CONSTANT most : INTEGER := 3; more : INTEGER := most + 1; END_CONSTANT;
TYPE length = REAL; WHERE positive : SELF > 0.0; small : SELF < 100.0; END_TYPE;
ENTITY part; x : INTEGER; sizes : LIST OF INTEGER; next : OPTIONAL part;
DERIVE count : INTEGER := x + SIZEOF(sizes); all : LIST OF INTEGER := [x, count];
INVERSE before : SET [0:?] OF part FOR next;
UNIQUE one : x;
WHERE called : twice(x) > 0; none : SIZEOF(QUERY(it <* sizes | it > 0)) = 0; {1 <= x < 9}; is : 'TOY.PART' IN TYPEOF(SELF); either : EXISTS(next) OR (count = more);
END_ENTITY;
ENTITY special SUBTYPE OF (part); WHERE only : SELF\\part.x = 1; END_ENTITY;
FUNCTION twice(n : INTEGER) : INTEGER; LOCAL a : INTEGER := 0; END_LOCAL; REPEAT i := 1 TO n; IF i > 2 THEN a := a + 1; ELSE a := a - 1; END_IF; END_REPEAT;
CASE a OF 1 : RETURN (2); OTHERWISE : RETURN (a); END_CASE; END_FUNCTION;
RULE few FOR (part, first); LOCAL c : INTEGER := SIZEOF(part); END_LOCAL; WHERE less : c < 1; more : SIZEOF(first) > 5; END_RULE;
PROCEDURE nothing(VAR a : INTEGER); a := 1; END_PROCEDURE;
"""
AFTER = "ENTITY last; v : INTEGER; WHERE zero : v > 7; END_ENTITY; END_SCHEMA;\n"
FILE = """ISO-10303-21;HEADER;FILE_DESCRIPTION((''),'2;1');FILE_NAME('','',(''),(''),'','','');FILE_SCHEMA(('TOY'));ENDSEC;
DATA;#1=FIRST(1);#2=PART(1,(1,2),$);#3=SPECIAL(2,(),#2);#4=LAST(1);ENDSEC;END-ISO-10303-21;
"""
TOKENS = re.findall(r"'[^']*'|\w+|:=|<\*|<=|\s+|.", BETWEEN, re.S)
WORDS = sorted({it for it in TOKENS if not it.isspace()})


def schema(seed):
    """A damaged text: one to three of its tokens are left out, replaced or doubled by another."""
    drawn = random.Random(seed)
    tokens = list(TOKENS)
    for _ in range(drawn.choice((1, 1, 1, 2, 3))):
        place = drawn.choice([it for it, token in enumerate(tokens) if not token.isspace()])
        other = ' %s ' % drawn.choice(WORDS)
        tokens[place] = drawn.choice((' ', ' ', other, tokens[place] + other))
    return BEFORE + ''.join(tokens) + AFTER


def is_told(lines, said):
    """Whether both rules are reported as broken, or it is said that no rule was read; of a file without another fault."""
    if any(not re.match(r'fault 1[678] ', it) for it in lines):
        return True
    return b'rule (all) of the schema was not checked' in said or {'FIRST.ZERO', 'LAST.ZERO'} <= {it.split()[-1] for it in lines}
