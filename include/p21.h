/* p21: reads STEP physical files (ISO 10303-21:2002, clear text), checked against the EXPRESS schema that they name.
 *
 * A schema, a model, the rules of a schema and a mended text are handles. The caller frees each of them once, by p21_schema_free, p21_model_free,
 * p21_rules_free or p21_mended_free, when no call uses it any more; models and rules before their schema. There is no global state. Any number of handles
 * may exist at once, and any number of threads may use one handle at once. One thread alone frees it.
 *
 * Each call returns a code. If that is not P21_OK, the call leaves its outputs unchanged (except the fault of p21_schema_read, p21_read and p21_rules_read).
 * If a handle is null, or one of another kind than is expected, the code is P21_HANDLE. No other pointer may be null, except that of a text, a path or a
 * room of no elements. A handle that was freed may not be used. Outputs may not overlap each other or any input.
 *
 * Texts are bytes with a length, without a zero at the end. A call that returns a text writes as many of its bytes as fit into the room, and the length of
 * the whole text, which is more than the room's size if the text did not fit. A room of size 0 serves to ask for the length.
 *
 * The reading and the checks are proved: docs/LIBRARY.md says what exactly, and what is assumed of a caller.
 *
 * Link with -lp21.
 */
#ifndef P21_H
#define P21_H

#include <stddef.h>
#include <stdint.h>
#include <stdlib.h>

#ifdef __cplusplus
extern "C" {
#endif

typedef struct p21_schema p21_schema;
typedef struct p21_model p21_model;
typedef struct p21_rules p21_rules;
typedef struct p21_mended p21_mended;

/* What a call returns. */
enum {
    P21_OK = 0,     /* success */
    P21_FAULT = 1,  /* the schema or the file has a fault */
    P21_NONE = 2,   /* there is no such index, name, number or path */
    P21_MEMORY = 3, /* out of memory */
    P21_HANDLE = 4  /* the handle is null, or one of another kind */
};

/* The kinds of fault: 1 to 15 of a file, as in docs/FORMAT.md; 16 to 18 of a file by the rules of its schema; of a schema 100 more than the number in
 * docs/SCHEMAS.md. */
enum {
    P21_BAD_TOKEN = 1,
    P21_UNEXPECTED = 2,
    P21_TRUNCATED = 3,
    P21_TOO_DEEP = 4,
    P21_HEADER_ENTITIES = 5,
    P21_WRONG_SCHEMA = 6,
    P21_DUPLICATE_NAME = 7,
    P21_UNKNOWN_ENTITY = 8,
    P21_ABSTRACT_ENTITY = 9,
    P21_BAD_COMPLEX = 10,
    P21_WRONG_COUNT = 11,
    P21_BAD_ATTRIBUTE = 12,
    P21_MISSING_REFERENCE = 13,
    P21_WRONG_REFERENCE = 14,
    P21_REPEATED_REFERENCE = 15,
    P21_NOT_UNIQUE = 16,
    P21_INVERSE_COUNT = 17,
    P21_RULE_BROKEN = 18,
    P21_SYNTAX = 101,
    P21_NOT_SUPPORTED = 102,
    P21_REPEATED = 103,
    P21_UNKNOWN_NAME = 104,
    P21_CYCLE = 105,
    P21_BAD_REDECLARATION = 106
};

/* A fault of a file or of a schema. */
typedef struct {
    uint32_t kind;      /* P21_BAD_TOKEN and so on */
    uint64_t at;        /* its place, in bytes from the first byte: of the instance, or of the token that does not fit */
    uint64_t record;    /* of kinds 11 to 15, the record of the instance, from 0; of kinds 16 to 18, the number of the rule among those of its kind */
    uint64_t attribute; /* of kinds 12 to 15, the attribute of the record, from 0 */
    uint64_t name;      /* of kinds 13 and 14, the instance name that is referred to; of kind 16, the first instance that has the same values; of kind 17,
                           how many refer to the instance */
} p21_fault;

/* What p21_instances writes for the entity of a complex instance. */
#define P21_NO_ENTITY UINT64_MAX

/* An entity of a schema. */
typedef struct {
    uint32_t is_abstract; /* 1 if it is an abstract supertype, else 0 */
    uint64_t supertypes;  /* how many supertypes SUBTYPE OF names */
    uint64_t attributes;  /* how many attributes a record of it has: the inherited ones and its own */
} p21_entity_view;

/* An attribute of the records of an entity. */
typedef struct {
    uint64_t entity;   /* the entity that declares it: this one, or one above it */
    uint32_t optional; /* 1 if its value may be $, else 0 */
    uint32_t derived;  /* 1 if this entity or one above it derives it, so that its value is *, else 0 */
} p21_attribute_view;

/* An instance of a model. */
typedef struct {
    uint64_t name;    /* the number of its name: 767 of #767 */
    uint64_t at;      /* the place of its name, in bytes from the file's first byte */
    uint64_t records; /* how many records it has: 1, or more if it is complex */
    uint64_t entity;  /* the entity of its first record */
    uint32_t complex; /* 1 if it is written as several records in parentheses, else 0 */
} p21_instance_view;

/* A record of an instance. */
typedef struct {
    uint64_t entity;     /* its entity */
    uint64_t parameters; /* how many parameters it has */
} p21_record_view;

/* The kinds of value. */
enum {
    P21_ABSENT = 0,      /* $ */
    P21_DERIVED = 1,     /* * */
    P21_INTEGER = 2,     /* text as it is spelled; integer, exact and real */
    P21_REAL = 3,        /* text as it is spelled; real */
    P21_STRING = 4,      /* text in UTF-8 */
    P21_ENUMERATION = 5, /* text without the points */
    P21_LOGICAL = 6,     /* a BOOLEAN or LOGICAL; number is 0 for false, 1 for true, 2 for unknown */
    P21_BINARY = 7,      /* text is the hexadecimal digits between the quotes, with the first; number is its bits */
    P21_REFERENCE = 8,   /* number is the name of an instance */
    P21_LIST = 9,        /* number is how many elements it has */
    P21_TYPED = 10       /* text is the name of the type; the value is at place 0 in it */
};

/* A value of a parameter. Fields that its kind does not use are 0. */
typedef struct {
    uint32_t kind;   /* P21_ABSENT and so on */
    uint32_t exact;  /* of an integer, 1 if it fits int64_t, else 0 */
    int64_t integer; /* an integer that fits */
    double real;     /* an integer or a real, as the nearest double (infinite if it is too large) */
    uint64_t number; /* see the kinds */
    uint64_t length; /* how many bytes the text has */
} p21_value_view;

/* ---- reading ---- */

/* Reads the text of an EXPRESS schema, which is not needed afterwards. `key` is a number that the author of a file cannot know, for example from
 * getrandom: with it no file can make names collide. P21_OK: *schema is a new handle. P21_FAULT: *fault says why the text is refused. */
int p21_schema_read(const uint8_t *text, size_t size, uint64_t key, p21_schema **schema, p21_fault *fault);

/* Reads a file, and checks it against the schema. The bytes of the file are not copied: they, and the schema, must stay where they are, unchanged, until
 * the model is freed. P21_OK: *model is a new handle. P21_FAULT: *fault is the file's first fault. */
int p21_read(const p21_schema *schema, const uint8_t *file, size_t size, p21_model **model, p21_fault *fault);

/* Explains a fault of a file: the line of the file, a caret under the place, and what is wrong. `file` is the file that was read, and `path` its name
 * in the text. P21_NONE: the kind is not that of a fault of a file. */
int p21_explain(const p21_schema *schema, const uint8_t *file, size_t size, const uint8_t *path, size_t path_size, const p21_fault *fault,
                uint8_t *room, size_t room_size, uint64_t *length);

/* Explains why the text of a schema is refused: the line of the text, a caret under the place, what is wrong, and what to write instead where that is known.
 * `text` is the text that was read, and `path` its name. If json is 1, the explanation is an object of JSON in a line, as p21check --format json writes it:
 * with the members file, byte, line, column, kind and message, and others. P21_NONE: the kind is not that of a fault of a schema. */
int p21_schema_explain(const uint8_t *text, size_t size, const uint8_t *path, size_t path_size, const p21_fault *fault, uint32_t json, uint8_t *room,
                       size_t room_size, uint64_t *length);

/* The line and the column of a place in a schema or a file, from 1; columns are counted in characters. P21_NONE: it has not so many bytes. */
int p21_place(const uint8_t *text, size_t size, uint64_t at, uint64_t *line, uint64_t *column);

/* Frees a handle. Null is ignored. */
static inline void p21_schema_free(p21_schema *schema);
static inline void p21_model_free(p21_model *model);
static inline void p21_rules_free(p21_rules *rules);
static inline void p21_mended_free(p21_mended *mended);

/* ---- mending: some forms of EXPRESS that are not supported have the same meaning written another way ---- */

/* Writes such forms of a schema's text another way, as p21check --mend does. The text is not needed afterwards. P21_OK: *mended is a new handle, also if
 * nothing was changed. The mended text is to be read by p21_schema_read, which may still refuse it. */
int p21_mend(const uint8_t *text, size_t size, p21_mended **mended);

/* The mended text: of the same length but where words had to be added, with the same lines. If there is no change, it is the text that was mended. */
int p21_mended_text(const p21_mended *mended, uint8_t *room, size_t room_size, uint64_t *length);

/* How many changes were made. */
int p21_change_count(const p21_mended *mended, uint64_t *count);

/* A change, by its number from 0, in the order of the text: its place in the text that was mended, in bytes, of which p21_place gives the line, and what was
 * changed and why the meaning is the same, in a sentence. */
int p21_change(const p21_mended *mended, uint64_t number, uint64_t *at, uint8_t *room, size_t room_size, uint64_t *length);

/* ---- rules: UNIQUE, the bounds of INVERSE attributes, and WHERE ---- */

/* Reads the rules of a schema from its text, which must be that of the schema. The bytes of the text are not copied: they, and the schema, must stay where
 * they are, unchanged, until the rules are freed. P21_OK: *rules is a new handle. P21_FAULT: *fault says why they are refused. A rule
 * WHERE whose text has no reading refuses nothing. It takes up to 4 MB of stack. */
int p21_rules_read(const p21_schema *schema, const uint8_t *text, size_t size, p21_rules **rules, p21_fault *fault);

/* The faults of a model by rules: those of UNIQUE and INVERSE sorted by their places, of one place those of UNIQUE first; after them those of WHERE, in the
 * order of the instances, and of one instance in that of the schema; those of a RULE last. The model must be of the same schema. It writes as many as fit
 * into the room; *count is how many there are, 0 if the model breaks no rule. docs/FORMAT.md says which rules WHERE are not checked, or not decided of an
 * instance: they give no fault. It takes up to 4 MB of stack. */
int p21_rules_check(const p21_rules *rules, const p21_model *model, p21_fault *room, size_t room_size, uint64_t *count);

/* Explains a fault by a rule as p21_explain explains other faults. `file` is the file of the model. P21_NONE: it is no fault by one of these rules. */
int p21_rules_explain(const p21_rules *rules, const uint8_t *file, size_t size, const uint8_t *path, size_t path_size, const p21_fault *fault,
                      uint8_t *room, size_t room_size, uint64_t *length);

/* The rule that a fault breaks: the entity, the type or the RULE that has it, and in upper case the label of the rule UNIQUE (its number in the entity if it
 * has none), the name of the INVERSE attribute, or the label of the rule WHERE ((2) for the second without one): IfcRoot.UR1. P21_NONE: it is no fault by
 * one of these rules. */
int p21_rules_name(const p21_rules *rules, const p21_fault *fault, uint8_t *room, size_t room_size, uint64_t *length);

/* ---- a schema, without a model: entities and types have numbers, from 0, in the order of its text ---- */

/* The name of the schema, in upper case. */
int p21_schema_title(const p21_schema *schema, uint8_t *room, size_t room_size, uint64_t *length);

/* How many entities the schema has. */
int p21_schema_entity_count(const p21_schema *schema, uint64_t *count);

/* The number of the entity with this name, in any case of letters. It is the number that the entity has in each model of the schema. */
int p21_schema_entity(const p21_schema *schema, const uint8_t *name, size_t name_size, uint64_t *entity);

/* The name of an entity, as the schema spells it: IfcWall. */
int p21_schema_entity_name(const p21_schema *schema, uint64_t entity, uint8_t *room, size_t room_size, uint64_t *length);

/* Whether the entity is abstract, and how many supertypes and attributes it has. */
int p21_schema_entity_view(const p21_schema *schema, uint64_t entity, p21_entity_view *view);

/* The supertype at a place of SUBTYPE OF, from 0. */
int p21_schema_supertype(const p21_schema *schema, uint64_t entity, uint64_t place, uint64_t *supertype);

/* *answer is 1 if the entity is the other one, or has it as a supertype, directly or not; else 0. */
int p21_schema_is_a(const p21_schema *schema, uint64_t entity, uint64_t other, uint32_t *answer);

/* The attribute at a position of the entity's records, from 0: the inherited ones come first. */
int p21_schema_attribute(const p21_schema *schema, uint64_t entity, uint64_t position, p21_attribute_view *view);

/* Its name, as p21_attribute_name gives it. */
int p21_schema_attribute_name(const p21_schema *schema, uint64_t entity, uint64_t position, uint8_t *room, size_t room_size, uint64_t *length);

/* Its type, as EXPRESS writes it: SET [1:?] OF IfcObject. If this entity or one above it declares the attribute again, the type is that of the lowest such
 * declaration; of several beside each other, of the first. Bounds that are no plain numbers are ?. */
int p21_schema_attribute_type(const p21_schema *schema, uint64_t entity, uint64_t position, uint8_t *room, size_t room_size, uint64_t *length);

/* How many types the schema has. */
int p21_schema_type_count(const p21_schema *schema, uint64_t *count);

/* The name of a type, as the schema spells it: IfcLabel. */
int p21_schema_type_name(const p21_schema *schema, uint64_t type, uint8_t *room, size_t room_size, uint64_t *length);

/* What stands under a type, as EXPRESS writes it: STRING(255), SELECT (IfcLabel, IfcText), or ENUMERATION OF (SOLID, GLAZED) with the items in upper case. */
int p21_schema_type_text(const p21_schema *schema, uint64_t type, uint8_t *room, size_t room_size, uint64_t *length);

/* ---- the file of a model ---- */

/* The header of the file, as the line of JSON with which p21export begins: {"header":{"file_description":{..},"file_name":{..},"file_schema":{..}}}. */
int p21_header(const p21_model *model, uint8_t *room, size_t room_size, uint64_t *length);

/* ---- the schema of a model: entities have numbers, from 0, in the order of the schema's text ---- */

/* The name of the schema, in upper case. */
int p21_schema_name(const p21_model *model, uint8_t *room, size_t room_size, uint64_t *length);

/* How many entities the schema has. */
int p21_entity_count(const p21_model *model, uint64_t *count);

/* The number of the entity with this name, in upper case as in files: IFCWALL. */
int p21_entity(const p21_model *model, const uint8_t *name, size_t name_size, uint64_t *entity);

/* The name of an entity, as the schema spells it: IfcWall. */
int p21_entity_name(const p21_model *model, uint64_t entity, uint8_t *room, size_t room_size, uint64_t *length);

/* *answer is 1 if the entity is the other one, or has it as a supertype, directly or not; else 0. */
int p21_is_a(const p21_model *model, uint64_t entity, uint64_t other, uint32_t *answer);

/* How many attributes a record of the entity has. If own is 0, the inherited ones and its own, in the order of the parameters; if own is 1, as in a
 * complex instance, its own alone. */
int p21_attribute_count(const p21_model *model, uint64_t entity, uint32_t own, uint64_t *count);

/* The name of one of them, as the schema spells it: GlobalId. If one before it has this name, by another supertype, the name begins with that of the
 * entity that declares it: document.name. */
int p21_attribute_name(const p21_model *model, uint64_t entity, uint32_t own, uint64_t position, uint8_t *room, size_t room_size, uint64_t *length);

/* The place of the attribute with such a name, from 0, in any case of letters. */
int p21_attribute(const p21_model *model, uint64_t entity, uint32_t own, const uint8_t *name, size_t name_size, uint64_t *position);

/* ---- instances: they have places, from 0, in the order of the file ---- */

/* How many instances there are. */
int p21_count(const p21_model *model, uint64_t *count);

/* How many instance names are written as parameters, in lists and typed values too. */
int p21_reference_count(const p21_model *model, uint64_t *count);

/* The place of the instance with a name: 767 for #767. */
int p21_find(const p21_model *model, uint64_t name, uint64_t *place);

/* The instance at a place. */
int p21_instance(const p21_model *model, uint64_t place, p21_instance_view *instance);

/* The names of the instances from a place on, and the entities of the simple ones (P21_NO_ENTITY for a complex one), as many as fit into both rooms.
 * *count is how many were written. */
int p21_instances(const p21_model *model, uint64_t from, uint64_t *names, size_t names_size, uint64_t *entities, size_t entities_size, uint64_t *count);

/* A record of an instance, by its number from 0. */
int p21_record(const p21_model *model, uint64_t place, uint64_t record, p21_record_view *view);

/* The first instance from a place on with a record of this entity; if subtypes is 1, also of one below it. P21_NONE: there is none. */
int p21_next_of(const p21_model *model, uint64_t entity, uint32_t subtypes, uint64_t from, uint64_t *place);

/* The first instance from a place on that refers to the instance with this name. P21_NONE: there is none. */
int p21_next_naming(const p21_model *model, uint64_t name, uint64_t from, uint64_t *place);

/* The value at a path in a record of an instance, and its text. The first number of a path is the place of a parameter, and each further one a place in
 * the list there, or 0 in the typed value there. Places begin at 0. */
int p21_value(const p21_model *model, uint64_t place, uint64_t record, const uint64_t *path, size_t path_size, uint8_t *room, size_t room_size,
              p21_value_view *value);

/* Frees what a handle holds. The handle itself is then freed by free(), as p21_schema_free and its like do below. This is for languages that cannot use
 * these. */
void p21_clear(void *handle);

static inline void p21_schema_free(p21_schema *schema) {
    p21_clear(schema);
    free(schema);
}

static inline void p21_model_free(p21_model *model) {
    p21_clear(model);
    free(model);
}

static inline void p21_rules_free(p21_rules *rules) {
    p21_clear(rules);
    free(rules);
}

static inline void p21_mended_free(p21_mended *mended) {
    p21_clear(mended);
    free(mended);
}

#ifdef __cplusplus
}
#endif

#endif
