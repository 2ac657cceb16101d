/* Prints an instance, and below it those that it refers to, down to a depth:
 *
 *     cc tree.c -o tree $(pkg-config --cflags --libs p21)
 *     ./tree IFC2X3.exp house.ifc 767 3
 */
#include <p21.h>
#include <stdio.h>
#include <string.h>

static uint8_t *bytes_of(const char *path, size_t *size) {
    FILE *file = fopen(path, "rb");
    uint8_t *bytes = NULL;
    if (file && fseek(file, 0, SEEK_END) == 0) {
        *size = (size_t)ftell(file);
        rewind(file);
        bytes = malloc(*size + 1);
        if (bytes && fread(bytes, 1, *size, file) != *size) {
            free(bytes);
            bytes = NULL;
        }
    }
    if (file) fclose(file);
    return bytes;
}

/* A model, and how far down it is printed. */
typedef struct {
    const p21_model *model;
    int depth;
} tree;

static void print_instance(tree it, uint64_t name, int level);

/* Goes down from the value at a path: a list and a typed value to what is in them, a reference to its instance. */
static void go_down(tree it, uint64_t place, uint64_t record, uint64_t *path, size_t size, int level) {
    p21_value_view value;
    uint8_t none[1];
    if (p21_value(it.model, place, record, path, size, none, 0, &value) != P21_OK) return;
    if (value.kind == P21_REFERENCE) print_instance(it, value.number, level + 1);
    if (value.kind != P21_LIST && value.kind != P21_TYPED) return;
    for (path[size] = 0; path[size] < value.number; path[size]++) go_down(it, place, record, path, size + 1, level);
}

static void print_instance(tree it, uint64_t name, int level) {
    uint64_t place, length, path[80];
    p21_instance_view instance;
    p21_record_view record;
    uint8_t text[64];
    if (level > it.depth || p21_find(it.model, name, &place) != P21_OK) return;
    p21_instance(it.model, place, &instance);
    printf("%*s#%llu", 2 * level, "", (unsigned long long)name);
    for (uint64_t number = 0; p21_record(it.model, place, number, &record) == P21_OK; number++) {
        p21_entity_name(it.model, record.entity, text, sizeof text, &length);
        printf(" %.*s", (int)(length < sizeof text ? length : sizeof text), (char *)text);
    }
    printf("\n");
    for (uint64_t number = 0; p21_record(it.model, place, number, &record) == P21_OK; number++)
        for (path[0] = 0; path[0] < record.parameters; path[0]++) go_down(it, place, number, path, 1, level);
}

int main(int count, char **words) {
    if (count != 5) return 2;
    size_t text_size = 0, file_size = 0;
    uint8_t *text = bytes_of(words[1], &text_size), *file = bytes_of(words[2], &file_size);
    p21_schema *schema = NULL;
    p21_model *model = NULL;
    p21_fault fault;
    int code = text && file ? p21_schema_read(text, text_size, (uint64_t)(uintptr_t)text, &schema, &fault) : P21_NONE;
    if (code == P21_OK) code = p21_read(schema, file, file_size, &model, &fault);
    if (code == P21_OK) print_instance((tree){model, atoi(words[4])}, strtoull(words[3], NULL, 10), 0);
    p21_model_free(model);
    p21_schema_free(schema);
    free(file);
    free(text);
    return code;
}
