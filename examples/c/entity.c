/* Prints what a schema declares of an entity: its supertypes, and its attributes with their types:
 *
 *     cc entity.c -o entity $(pkg-config --cflags --libs p21)
 *     ./entity IFC2X3.exp IfcWall
 *
 * Forms of the schema that are not supported are first written another way where they have the same meaning then, and each change is told.
 */
#include <p21.h>
#include <stdio.h>
#include <string.h>

/* A text of the library, which is cut where it does not fit. */
typedef struct {
    char bytes[4096];
    uint64_t length;
} text;

static int shown(const text *it) {
    return (int)(it->length < sizeof it->bytes ? it->length : sizeof it->bytes);
}

static uint8_t *room(text *it) {
    it->length = 0;
    return (uint8_t *)it->bytes;
}

static uint8_t *bytes_of(const char *path, size_t *size) {
    FILE *file = fopen(path, "rb");
    uint8_t *bytes = NULL;
    if (file && fseek(file, 0, SEEK_END) == 0) {
        *size = (size_t)ftell(file);
        rewind(file);
        bytes = malloc(*size + 1);
        if (bytes && fread(bytes, 1, *size, file) != *size) {
            free(bytes);
            bytes = NULL;
        }
    }
    if (file) fclose(file);
    return bytes;
}

/* Puts the mended text in the place of a schema's, and tells each change by its line and column. */
static uint8_t *mend(const char *path, uint8_t *bytes, size_t *size) {
    p21_mended *mended = NULL;
    uint64_t at, line, column, length = 0;
    uint8_t none[1], *made = NULL;
    text sentence;
    if (p21_mend(bytes, *size, &mended) == P21_OK) {
        for (uint64_t number = 0; p21_change(mended, number, &at, room(&sentence), sizeof sentence.bytes, &sentence.length) == P21_OK; number++)
            if (p21_place(bytes, *size, at, &line, &column) == P21_OK)
                fprintf(stderr, "%s:%llu:%llu: %.*s\n", path, (unsigned long long)line, (unsigned long long)column, shown(&sentence), sentence.bytes);
        p21_mended_text(mended, none, 0, &length);
        made = malloc(length + 1);
        if (made) p21_mended_text(mended, made, length, &length);
        *size = length;
    }
    p21_mended_free(mended);
    free(bytes);
    return made;
}

/* Prints the supertypes of an entity. */
static void print_supertypes(const p21_schema *schema, uint64_t entity, uint64_t count) {
    text name;
    uint64_t supertype;
    for (uint64_t place = 0; place < count; place++)
        if (p21_schema_supertype(schema, entity, place, &supertype) == P21_OK &&
            p21_schema_entity_name(schema, supertype, room(&name), sizeof name.bytes, &name.length) == P21_OK)
            printf("  SUBTYPE OF %.*s\n", shown(&name), name.bytes);
}

/* Prints an attribute: its name, its type, and which entity declares it. */
static void print_attribute(const p21_schema *schema, uint64_t entity, uint64_t position) {
    p21_attribute_view view;
    text name, type, declaring;
    if (p21_schema_attribute(schema, entity, position, &view) != P21_OK ||
        p21_schema_attribute_name(schema, entity, position, room(&name), sizeof name.bytes, &name.length) != P21_OK ||
        p21_schema_attribute_type(schema, entity, position, room(&type), sizeof type.bytes, &type.length) != P21_OK ||
        p21_schema_entity_name(schema, view.entity, room(&declaring), sizeof declaring.bytes, &declaring.length) != P21_OK)
        return;
    printf("  %.*s : %s%.*s (of %.*s%s)\n", shown(&name), name.bytes, view.optional ? "OPTIONAL " : "", shown(&type), type.bytes, shown(&declaring),
           declaring.bytes, view.derived ? ", derived" : "");
}

static int print_entity(const p21_schema *schema, const char *called) {
    uint64_t entity;
    p21_entity_view view;
    text name;
    int code = p21_schema_entity(schema, (const uint8_t *)called, strlen(called), &entity);
    if (code != P21_OK || p21_schema_entity_view(schema, entity, &view) != P21_OK) return code;
    p21_schema_entity_name(schema, entity, room(&name), sizeof name.bytes, &name.length);
    printf("ENTITY %.*s%s\n", shown(&name), name.bytes, view.is_abstract ? " ABSTRACT SUPERTYPE" : "");
    print_supertypes(schema, entity, view.supertypes);
    for (uint64_t position = 0; position < view.attributes; position++) print_attribute(schema, entity, position);
    return P21_OK;
}

int main(int count, char **words) {
    if (count != 3) return 2;
    size_t size = 0;
    uint8_t *bytes = bytes_of(words[1], &size);
    if (bytes) bytes = mend(words[1], bytes, &size);
    p21_schema *schema = NULL;
    p21_fault fault;
    text said;
    int code = bytes ? p21_schema_read(bytes, size, (uint64_t)(uintptr_t)bytes, &schema, &fault) : P21_NONE;
    if (code == P21_FAULT &&
        p21_schema_explain(bytes, size, (const uint8_t *)words[1], strlen(words[1]), &fault, 0, room(&said), sizeof said.bytes, &said.length) == P21_OK)
        fprintf(stderr, "%.*s", shown(&said), said.bytes);
    if (code == P21_OK) code = print_entity(schema, words[2]);
    p21_schema_free(schema);
    free(bytes);
    return code;
}
