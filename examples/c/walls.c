/* Counts the walls of a model, with those of subtypes of IfcWall, and prints the name of each:
 *
 *     cc walls.c -o walls $(pkg-config --cflags --libs p21)
 *     ./walls IFC2X3.exp house.ifc
 *
 * Why a schema or a file is refused is told on standard error.
 */
#include <p21.h>
#include <stdio.h>
#include <string.h>

/* The bytes of a file, and how many they are; null where it cannot be read. */
static uint8_t *bytes_of(const char *path, size_t *size) {
    FILE *file = fopen(path, "rb");
    uint8_t *bytes = NULL;
    if (file && fseek(file, 0, SEEK_END) == 0) {
        *size = (size_t)ftell(file);
        rewind(file);
        bytes = malloc(*size + 1);
        if (bytes && fread(bytes, 1, *size, file) != *size) {
            free(bytes);
            bytes = NULL;
        }
    }
    if (file) fclose(file);
    return bytes;
}

/* Says what is wrong with a file; with a schema where there is none yet. */
static void explain(const p21_schema *schema, const uint8_t *text, size_t size, const char *path, const p21_fault *fault) {
    uint8_t words[4096];
    uint64_t length = 0;
    const uint8_t *name = (const uint8_t *)path;
    int code = schema ? p21_explain(schema, text, size, name, strlen(path), fault, words, sizeof words, &length)
                      : p21_schema_explain(text, size, name, strlen(path), fault, 0, words, sizeof words, &length);
    if (code == P21_OK) fwrite(words, 1, length < sizeof words ? length : sizeof words, stderr);
}

/* Prints the name of each wall. */
static void print_walls(const p21_model *model) {
    uint64_t wall, name, count = 0, place = 0;
    if (p21_entity(model, (const uint8_t *)"IFCWALL", 7, &wall) != P21_OK) return;
    for (; p21_next_of(model, wall, 1, place, &place) == P21_OK; place++) {
        p21_instance_view instance;
        p21_value_view value;
        uint8_t text[256];
        p21_instance(model, place, &instance);
        if (p21_attribute(model, instance.entity, instance.complex, (const uint8_t *)"Name", 4, &name) == P21_OK &&
            p21_value(model, place, 0, &name, 1, text, sizeof text, &value) == P21_OK)
            printf("#%llu %.*s\n", (unsigned long long)instance.name, (int)(value.length < sizeof text ? value.length : sizeof text), (char *)text);
        count++;
    }
    printf("%llu walls\n", (unsigned long long)count);
}

int main(int count, char **words) {
    if (count != 3) return 2;
    size_t text_size = 0, file_size = 0;
    uint8_t *text = bytes_of(words[1], &text_size), *file = bytes_of(words[2], &file_size);
    p21_schema *schema = NULL;
    p21_model *model = NULL;
    p21_fault fault;
    int code = text && file ? p21_schema_read(text, text_size, (uint64_t)(uintptr_t)text, &schema, &fault) : P21_NONE;
    if (code == P21_FAULT) explain(NULL, text, text_size, words[1], &fault);
    if (code == P21_OK && (code = p21_read(schema, file, file_size, &model, &fault)) == P21_FAULT) explain(schema, file, file_size, words[2], &fault);
    if (code == P21_OK) print_walls(model);
    p21_model_free(model);
    p21_schema_free(schema);
    free(file);
    free(text);
    return code;
}
