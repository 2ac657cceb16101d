/* Reads a schema and a file through the library, and prints what p21check reports, by rules too behind --rules, and all faults by them behind --all: for
 * tests/library. The exit status is that of p21check, too; 9 where the library contradicts itself. */
#include <p21.h>
#include <stdio.h>
#include <string.h>

static const char *const KINDS[] = {"", "BadToken", "Unexpected", "Truncated", "TooDeep", "HeaderEntities", "WrongSchema", "DuplicateName", "UnknownEntity",
    "AbstractEntity", "BadComplex", "WrongCount", "BadAttribute", "MissingReference", "WrongReference", "RepeatedReference", "NotUnique", "InverseCount",
    "RuleBroken"};
static const char *const KINDS_OF_SCHEMA[] = {"", "Syntax", "NotSupported", "Repeated", "UnknownName", "Cycle", "BadRedeclaration"};

#define NUMBER(n) ((unsigned long long)(n))

static uint8_t *bytes_of(const char *path, size_t *size) {
    FILE *file = fopen(path, "rb");
    if (!file) return NULL;
    fseek(file, 0, SEEK_END);
    *size = (size_t)ftell(file);
    rewind(file);
    /* No byte behind the last, so that memcheck sees whoever reads there. */
    uint8_t *bytes = malloc(*size ? *size : 1);
    if (bytes && fread(bytes, 1, *size, file) != *size) exit(4);
    fclose(file);
    return bytes;
}

static int tell_fault(const p21_fault *fault) {
    int of_schema = fault->kind > 100;
    uint32_t number = of_schema ? fault->kind - 100 : fault->kind;
    printf("%sfault %u %s at %llu", of_schema ? "schema " : "", number, of_schema ? KINDS_OF_SCHEMA[number] : KINDS[number], NUMBER(fault->at));
    if (fault->kind >= P21_WRONG_COUNT && !of_schema) printf(" rec %llu", NUMBER(fault->record));
    if (fault->kind >= P21_BAD_ATTRIBUTE && !of_schema) printf(" attr %llu", NUMBER(fault->attribute));
    if (fault->kind == P21_MISSING_REFERENCE || fault->kind == P21_WRONG_REFERENCE) printf(" name #%llu", NUMBER(fault->name));
    printf("\n");
    return of_schema ? 3 : 1;
}

/* Whether a call was refused memory, and whether its code is this one. */
static int was_refused;

static int is(int code, int wanted) {
    was_refused |= code == P21_MEMORY;
    return code == wanted;
}

/* Tells a fault by a rule, whose name is told in upper case. */
static int tell_rule_fault(const p21_rules *rules, const p21_fault *fault) {
    int is_unique = fault->kind == P21_NOT_UNIQUE;
    char name[256];
    uint64_t length = 0;
    if (!is(p21_rules_name(rules, fault, (uint8_t *)name, sizeof name, &length), P21_OK) || length > sizeof name) return 9;
    for (uint64_t i = 0; i < length; i++) name[i] -= name[i] >= 'a' && name[i] <= 'z' ? 32 : 0;
    printf("fault %u %s at %llu %s %.*s", fault->kind, KINDS[fault->kind], NUMBER(fault->at), fault->kind == P21_INVERSE_COUNT ? "inverse" : "rule", (int)length,
           name);
    if (fault->kind != P21_RULE_BROKEN) printf(" %s%llu", is_unique ? "name #" : "count ", NUMBER(fault->name));
    printf("\n");
    return 1;
}

/* The place of a fault is told in its explanation; and what is no such fault has none. */
static int is_explained(const p21_rules *rules, const uint8_t *file, size_t size, p21_fault fault) {
    char words[4096];
    uint64_t length = 0;
    const uint8_t *name = (const uint8_t *)"x.stp";
    if (!is(p21_rules_explain(rules, file, size, name, 5, &fault, (uint8_t *)words, sizeof words, &length), P21_OK)) return 0;
    fault.record = UINT64_MAX;
    return length > 6 && !memcmp(words, "x.stp:", 6) && is(p21_rules_explain(rules, file, size, name, 5, &fault, NULL, 0, &length), P21_NONE) &&
           is(p21_rules_name(rules, &fault, NULL, 0, &length), P21_NONE);
}

/* Checks a model by rules, and tells the first of their faults, or all. */
static int tell_rules(const p21_rules *rules, const p21_model *model, const uint8_t *file, size_t size, int all) {
    uint64_t count = 0, same = 0;
    if (!is(p21_rules_check(rules, model, NULL, 0, &count), P21_OK)) return 5;
    p21_fault *faults = calloc(count ? count : 1, sizeof *faults);
    int status = faults ? 0 : 5;
    if (faults && (!is(p21_rules_check(rules, model, faults, count, &same), P21_OK) || same != count)) status = 5;
    for (uint64_t i = 0; i < count && (all || i == 0) && status < 2; i++)
        status = is_explained(rules, file, size, faults[i]) ? tell_rule_fault(rules, &faults[i]) : 9;
    free(faults);
    return status;
}

/* What is seen on the way through a model. */
typedef struct {
    const p21_schema *schema;
    const p21_model *model;
    uint64_t complex, references, entity, *records;
    int wrong;
} seen;

/* What is derived is *, and what is $ may be left out; of a simple instance, whose entity has the attribute at this place. */
static void see_attribute(seen *it, uint64_t entity, uint64_t position, uint32_t kind) {
    p21_attribute_view view;
    if (p21_schema_attribute(it->schema, entity, position, &view) != P21_OK) it->wrong = 9;
    else if (view.derived != (kind == P21_DERIVED) || (kind == P21_ABSENT && !view.optional)) it->wrong = 9;
}

static void see_value(seen *it, uint64_t place, uint64_t record, uint64_t *path, size_t size) {
    p21_value_view value;
    static uint8_t room[32];
    int code = p21_value(it->model, place, record, path, size, room, sizeof room, &value);
    if (code == P21_MEMORY) it->wrong = 5;
    if (code != P21_OK) return;
    if (size == 1 && it->entity != P21_NO_ENTITY) see_attribute(it, it->entity, *path, value.kind);
    it->references += value.kind == P21_REFERENCE;
    if (value.kind != P21_LIST && value.kind != P21_TYPED) return;
    for (path[size] = 0; path[size] < value.number; path[size]++) see_value(it, place, record, path, size + 1);
    if (p21_value(it->model, place, record, path, size + 1, room, 0, &value) == P21_OK) it->wrong = 9;
}

static void see_instance(seen *it, uint64_t place) {
    p21_instance_view instance;
    p21_record_view record;
    uint64_t path[80], found, number;
    if (p21_instance(it->model, place, &instance) != P21_OK) it->wrong = 9;
    if (p21_find(it->model, instance.name, &found) != P21_OK || found != place) it->wrong = 9;
    it->complex += instance.complex;
    it->entity = instance.complex ? P21_NO_ENTITY : instance.entity;
    for (number = 0; p21_record(it->model, place, number, &record) == P21_OK; number++) {
        uint64_t count = 0;
        it->records[record.entity]++;
        if (p21_attribute_count(it->model, record.entity, instance.complex, &count) != P21_OK || count != record.parameters) it->wrong = 9;
        for (path[0] = 0; path[0] < record.parameters; path[0]++) see_value(it, place, number, path, 1);
        p21_value_view none;
        if (p21_value(it->model, place, number, path, 1, NULL, 0, &none) != P21_NONE) it->wrong = 9;
    }
    if (number != instance.records || instance.entity >= UINT64_MAX) it->wrong = 9;
}

/* How many instances p21_next_of gives of an entity alone must be those that were seen, but for two records of an entity in one instance, which a
 * checked file has not. */
static void see_entity(seen *it, uint64_t entity) {
    uint64_t count = 0, with_subtypes = 0, place;
    uint32_t same = 0;
    for (place = 0; p21_next_of(it->model, entity, 0, place, &place) == P21_OK; place++) count++;
    for (place = 0; p21_next_of(it->model, entity, 1, place, &place) == P21_OK; place++) with_subtypes++;
    if (count != it->records[entity] || with_subtypes < count || p21_is_a(it->model, entity, entity, &same) != P21_OK || !same) it->wrong = 9;
}

/* What the schema tells of an entity is what its model tells. */
static int is_as_in_model(const seen *it, uint64_t entity) {
    uint8_t one[256], other[256];
    uint64_t a = 0, b = 0, count = 0, above;
    uint32_t is_above = 0;
    p21_entity_view view;
    p21_attribute_view attribute;
    if (!is(p21_schema_entity_view(it->schema, entity, &view), P21_OK) || !is(p21_attribute_count(it->model, entity, 0, &count), P21_OK)) return 0;
    if (!is(p21_schema_entity_name(it->schema, entity, one, sizeof one, &a), P21_OK) || !is(p21_entity_name(it->model, entity, other, sizeof other, &b), P21_OK)) return 0;
    if (view.attributes != count || a != b || memcmp(one, other, a)) return 0;
    if (!is(p21_schema_entity(it->schema, one, a, &above), P21_OK) || above != entity) return 0;
    for (uint64_t place = 0; place < count; place++) {
        if (!is(p21_schema_attribute_name(it->schema, entity, place, one, sizeof one, &a), P21_OK)) return 0;
        if (!is(p21_attribute_name(it->model, entity, 0, place, other, sizeof other, &b), P21_OK) || a != b || memcmp(one, other, a)) return 0;
        if (!is(p21_schema_attribute_type(it->schema, entity, place, one, sizeof one, &a), P21_OK) || a == 0) return 0;
        if (!is(p21_schema_attribute(it->schema, entity, place, &attribute), P21_OK)) return 0;
        if (!is(p21_schema_is_a(it->schema, entity, attribute.entity, &is_above), P21_OK) || !is_above) return 0;
    }
    for (uint64_t place = 0; place < view.supertypes; place++)
        if (!is(p21_schema_supertype(it->schema, entity, place, &above), P21_OK) || !is(p21_is_a(it->model, entity, above, &is_above), P21_OK) || !is_above) return 0;
    return is(p21_schema_supertype(it->schema, entity, view.supertypes, &above), P21_NONE) && is(p21_schema_attribute(it->schema, entity, count, &attribute), P21_NONE) &&
           is(p21_schema_attribute_name(it->schema, entity, count, NULL, 0, &a), P21_NONE) && is(p21_schema_attribute_type(it->schema, entity, count, NULL, 0, &a), P21_NONE);
}

/* Each entity of the schema is as in the model, and each type has a name and a text. */
static int schema_is_as_in_model(const seen *it) {
    uint8_t one[256], other[256];
    uint64_t count = 0, same = 0, types = 0, a = 0, b = 0;
    if (!is(p21_schema_entity_count(it->schema, &count), P21_OK) || !is(p21_entity_count(it->model, &same), P21_OK) || count != same) return 0;
    if (!is(p21_schema_title(it->schema, one, sizeof one, &a), P21_OK) || !is(p21_schema_name(it->model, other, sizeof other, &b), P21_OK) || a != b) return 0;
    for (uint64_t entity = 0; entity < count; entity++)
        if (!is_as_in_model(it, entity)) return 0;
    p21_schema_type_count(it->schema, &types);
    for (uint64_t type = 0; type < types; type++)
        if (!is(p21_schema_type_name(it->schema, type, NULL, 0, &a), P21_OK) || !a || !is(p21_schema_type_text(it->schema, type, NULL, 0, &b), P21_OK) || !b) return 0;
    return is(p21_schema_entity_name(it->schema, count, NULL, 0, &a), P21_NONE) && is(p21_schema_type_name(it->schema, types, NULL, 0, &a), P21_NONE) &&
           is(p21_schema_type_text(it->schema, types, NULL, 0, &a), P21_NONE) && is(p21_header(it->model, NULL, 0, &a), P21_OK) && a > 0;
}

static int by_name(const void *a, const void *b) {
    return strcmp(*(char *const *)a, *(char *const *)b);
}

static int report(seen *it) {
    uint64_t count = 0, entities = 0, length = 0, references = 0;
    char name[256];
    p21_count(it->model, &count);
    if (p21_reference_count(it->model, &references) != P21_OK) it->wrong = 9;
    p21_entity_count(it->model, &entities);
    it->records = calloc(entities ? entities : 1, sizeof *it->records);
    char **lines = calloc(entities ? entities : 1, sizeof *lines);
    if (!it->records || !lines) return 5;
    for (uint64_t place = 0; place < count; place++) see_instance(it, place);
    for (uint64_t entity = 0; entity < entities; entity++) see_entity(it, entity);
    if (references != it->references) it->wrong = 9;
    p21_schema_name(it->model, (uint8_t *)name, sizeof name, &length);
    printf("schema %.*s\ninstances %llu\ncomplex %llu\nreferences %llu\n", (int)length, name, NUMBER(count), NUMBER(it->complex), NUMBER(it->references));
    size_t told = 0;
    for (uint64_t entity = 0; entity < entities; entity++) {
        if (!it->records[entity]) continue;
        p21_entity_name(it->model, entity, (uint8_t *)name, sizeof name, &length);
        uint64_t same = UINT64_MAX;
        for (uint64_t i = 0; i < length; i++) name[i] -= name[i] >= 'a' && name[i] <= 'z' ? 32 : 0;
        if (p21_entity(it->model, (uint8_t *)name, length, &same) != P21_OK || same != entity) it->wrong = 9;
        lines[told] = malloc(length + 32);
        if (lines[told])
            sprintf(lines[told++], "%.*s %llu", (int)length, name, NUMBER(it->records[entity]));
        else
            it->wrong = 5;
    }
    qsort(lines, told, sizeof *lines, by_name);
    for (size_t i = 0; i < told; i++) {
        puts(lines[i]);
        free(lines[i]);
    }
    free(lines);
    free(it->records);
    return it->wrong;
}

/* What has no handle, or one of another kind, and what is not there, is told. */
static int is_told(const p21_schema *schema, const p21_model *model) {
    uint64_t n = 0, count = 0;
    const p21_schema *wrong = (const p21_schema *)model;
    p21_entity_view view;
    p21_rules *rules = NULL;
    p21_model *none = NULL;
    p21_record_view record;
    p21_fault fault;
    p21_count(model, &count);
    return is(p21_count(NULL, &n), P21_HANDLE) && is(p21_count((const p21_model *)schema, &n), P21_HANDLE) &&
           is(p21_reference_count(NULL, &n), P21_HANDLE) && is(p21_find(model, 987654321987654321, &n), P21_NONE) &&
           is(p21_record(model, count, 0, &record), P21_NONE) && is(p21_entity_name(model, UINT64_MAX, NULL, 0, &n), P21_NONE) &&
           is(p21_read(wrong, NULL, 0, &none, &fault), P21_HANDLE) && is(p21_read(NULL, NULL, 0, &none, &fault), P21_HANDLE) &&
           is(p21_schema_entity_count(wrong, &n), P21_HANDLE) && is(p21_schema_title(NULL, NULL, 0, &n), P21_HANDLE) && is(p21_header(NULL, NULL, 0, &n), P21_HANDLE) &&
           is(p21_schema_entity_view(schema, UINT64_MAX, &view), P21_NONE) && is(p21_schema_entity(schema, (const uint8_t *)"no such", 7, &n), P21_NONE) &&
           is(p21_rules_read(wrong, NULL, 0, &rules, &fault), P21_HANDLE) && is(p21_rules_check((const p21_rules *)schema, model, NULL, 0, &n), P21_HANDLE);
}

/* Why a schema is refused is told with its place, in lines and as JSON. */
static int is_refusal_explained(const uint8_t *text, size_t size, const p21_fault *fault) {
    char words[4096], json[4096], place[64];
    uint64_t length = 0, json_length = 0, line = 0, column = 0;
    const uint8_t *name = (const uint8_t *)"s.exp";
    if (!is(p21_place(text, size, fault->at, &line, &column), P21_OK) || !is(p21_place(text, size, (uint64_t)size + 1, &line, &column), P21_NONE)) return 0;
    sprintf(place, "s.exp:%llu:%llu: ", NUMBER(line), NUMBER(column));
    return is(p21_schema_explain(text, size, name, 5, fault, 0, (uint8_t *)words, sizeof words, &length), P21_OK) && length > strlen(place) &&
           !memcmp(words, place, strlen(place)) && is(p21_schema_explain(text, size, name, 5, fault, 1, (uint8_t *)json, sizeof json, &json_length), P21_OK) &&
           !memcmp(json, "{\"file\":\"s.exp\"", 15);
}

/* What is asked of the file by its report. */
static int tell_model(const p21_schema *schema, const p21_model *model) {
    seen it = {.schema = schema, .model = model};
    if (!schema_is_as_in_model(&it)) return 9;
    int status = report(&it);
    return !status && !is_told(schema, model) ? 9 : status;
}

int main(int count, char **words) {
    int by_rules = count > 3 && !strcmp(words[1], "--rules"), all = count > 4 && !strcmp(words[2], "--all");
    if (count != 3 + by_rules + all) return 2;
    words += by_rules + all;
    size_t text_size = 0, file_size = 0;
    uint8_t *text = bytes_of(words[1], &text_size), *file = bytes_of(words[2], &file_size);
    if (!text || !file) return 5;
    p21_schema *schema = NULL;
    p21_model *model = NULL, *other = NULL;
    p21_rules *rules = NULL;
    p21_fault fault = {0, 0, 0, 0, 0};
    int code = p21_schema_read(text, text_size, 7, &schema, &fault), status = 5;
    if (code == P21_OK && by_rules) code = p21_rules_read(schema, text, text_size, &rules, &fault);
    if (code == P21_FAULT) status = is_refusal_explained(text, text_size, &fault) ? tell_fault(&fault) : 9;
    if (!by_rules) {
        memset(text, 0, text_size);
        free(text);
    }
    int is_read = code == P21_OK;
    if (is_read) code = p21_read(schema, file, file_size, &model, &fault);
    if (is_read && code == P21_FAULT) status = tell_fault(&fault);
    if (code == P21_OK) status = by_rules ? tell_rules(rules, model, file, file_size, all) : 0;
    if (code == P21_OK && !status) {
        status = tell_model(schema, model);
        /* Two models at once. */
        if (!status && p21_read(schema, file, file_size, &other, &fault) == P21_OK) p21_model_free(other);
    }
    p21_rules_free(rules);
    p21_model_free(model);
    p21_schema_free(schema);
    free(file);
    if (by_rules) free(text);
    return was_refused ? 5 : status;
}
