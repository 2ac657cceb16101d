/* Drives the library by libFuzzer: the bytes of a file, read against the schema of SCHEMA, and what is asked of a model:
 *
 *     clang -g -O1 -fsanitize=fuzzer,address -I include tests/fuzzed.c $(./libp21 a) -o fuzzed
 *     mkdir corpus seeds && find tests/rows -name file.stp | while read -r row; do cp "$row" "seeds/$(md5sum <"$row" | cut -c -32)"; done
 *     SCHEMA=tests/rows/toy.exp ./fuzzed corpus seeds
 *
 * The library is not instrumented. In place of its branches libFuzzer sees what it answers: an input is kept where it gives an answer that none gave
 * before, by its kind, its place among the records and attributes, the words that explain it, or the kinds of values at each depth.
 */
#include <p21.h>
#include <stdbool.h>
#include <stdio.h>
#include <string.h>

static p21_schema *schema;

/* How often each answer was given. libFuzzer looks for counters in this section. */
enum { CODES = 8, FAULTS = 16 * 8 * 8, WORDS = 4096, VALUES = 16 * 16 };
__attribute__((section("__libfuzzer_extra_counters"))) static uint8_t codes[CODES], faults[FAULTS], words_seen[WORDS], values[VALUES];

static uint64_t least(uint64_t one, uint64_t other) { return one < other ? one : other; }

static void add(uint8_t *counter) { *counter += *counter < 255; }

/* Counts an explanation by its sentence, without numbers and what is quoted. */
static void count_words(const char *text, uint64_t length) {
    uint32_t hash = 2166136261u;
    bool is_quoted = false;
    uint64_t begin = 0;
    for (int lines = 0; begin < length && lines < 3; begin++) lines += text[begin] == '\n';
    for (uint64_t at = begin; at < length; at++) {
        char byte = text[at];
        if (byte == '\'') is_quoted = !is_quoted;
        if (!is_quoted && !(byte >= '0' && byte <= '9')) hash = (hash ^ (uint8_t)byte) * 16777619u;
    }
    add(&words_seen[hash % WORDS]);
}

int LLVMFuzzerInitialize(int *count, char ***words) {
    (void)count, (void)words;
    static uint8_t text[1 << 16];
    p21_fault fault;
    FILE *file = fopen(getenv("SCHEMA"), "rb");
    if (!file) return 1;
    size_t size = fread(text, 1, sizeof text, file);
    fclose(file);
    if (p21_schema_read(text, size, 7, &schema, &fault) != P21_OK) abort();
    return 0;
}

static void look(const p21_model *model, uint64_t place, uint64_t record, uint64_t *path, size_t size) {
    p21_value_view value;
    uint8_t room[16];
    if (p21_value(model, place, record, path, size, room, sizeof room, &value) != P21_OK) return;
    add(&values[least(value.kind, 15) * 16 + least(size, 15)]);
    if (value.kind != P21_LIST && value.kind != P21_TYPED) return;
    for (path[size] = 0; path[size] < value.number; path[size]++) look(model, place, record, path, size + 1);
}

int LLVMFuzzerTestOneInput(const uint8_t *data, size_t size) {
    /* A copy of its own, so that a read behind its end is seen. */
    uint8_t *file = malloc(size ? size : 1);
    memcpy(file, data, size);
    p21_model *model = NULL;
    p21_fault fault;
    int code = p21_read(schema, file, size, &model, &fault);
    add(&codes[code]);
    if (code == P21_FAULT) {
        char words[512];
        uint64_t length;
        if (fault.at > size) abort();
        bool has_record = fault.kind >= P21_WRONG_COUNT, has_attribute = fault.kind >= P21_BAD_ATTRIBUTE;
        add(&faults[least(fault.kind, 15) * 64 + (has_record ? least(fault.record, 7) : 0) * 8 + (has_attribute ? least(fault.attribute, 7) : 0)]);
        p21_explain(schema, file, size, (const uint8_t *)"f", 1, &fault, (uint8_t *)words, sizeof words, &length);
        count_words(words, least(length, sizeof words));
    }
    if (code == P21_OK) {
        uint64_t count = 0, path[80];
        p21_record_view record;
        p21_count(model, &count);
        for (uint64_t place = 0; place < count; place++)
            for (uint64_t number = 0; p21_record(model, place, number, &record) == P21_OK; number++)
                for (path[0] = 0; path[0] < record.parameters; path[0]++) look(model, place, number, path, 1);
        p21_model_free(model);
    }
    free(file);
    return 0;
}
