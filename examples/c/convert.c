/* Converts a small schema and a name by the static library, and shows what nothing at all gives: a pointer may be null
 * where its length is 0. */
#include <stdio.h>
#include <string.h>
#include "sbe.h"

static uint32_t records[16384];
static uint8_t text[65536];
static uint8_t output[65536];

/* The answer to a call: the text that it wrote, or its refusal. */
static void print_answer(uint32_t number, size_t offset, size_t place, size_t n) {
    if (number != 0)
        printf("refused\t%u\t%zu\t%zu\n", number, offset, place);
    fwrite(output, 1, n, stdout);
}

static void convert(const char *document) {
    size_t offset, place, n;
    uint32_t number = sbe_xml_to_proto((const uint8_t *)document, strlen(document), records, 16384, text, sizeof text,
                                       output, sizeof output, &offset, &place, &n);
    print_answer(number, offset, place, n);
}

static void convert_name(const char *name) {
    size_t offset, place, n;
    uint32_t number = sbe_camel_to_snake((const uint8_t *)name, strlen(name), output, sizeof output, &offset, &place, &n);
    print_answer(number, offset, place, n);
    printf("\n");
}

/* The empty document; no work space; no output. */
static void convert_nothing(void) {
    size_t offset, place, n;
    uint32_t number = sbe_xml_to_proto(NULL, 0, records, 16384, text, sizeof text, output, sizeof output, &offset, &place, &n);
    print_answer(number, offset, place, n);
    number = sbe_xml_to_proto(NULL, 0, NULL, 0, NULL, 0, NULL, 0, &offset, &place, &n);
    print_answer(number, offset, place, n);
    number = sbe_xml_to_proto(NULL, 0, records, 16384, text, sizeof text, NULL, 0, &offset, &place, &n);
    print_answer(number, offset, place, n);
}

/* The empty name is converted to nothing, and fits any output; another name does not. */
static void convert_no_name(void) {
    size_t offset, place, n;
    uint32_t number = sbe_camel_to_snake(NULL, 0, NULL, 0, &offset, &place, &n);
    printf("%u %zu %zu %zu\n", number, offset, place, n);
    number = sbe_strip_enum_prefix(NULL, 0, NULL, 0, NULL, 0, &offset, &place, &n);
    printf("%u %zu %zu %zu\n", number, offset, place, n);
    number = sbe_singular_pascal((const uint8_t *)"legs", 4, NULL, 0, &offset, &place, &n);
    printf("%u %zu %zu %zu\n", number, offset, place, n);
}

int main(void) {
    convert("<messageSchema id=\"7\"><message name=\"Hit\" id=\"3\"/></messageSchema>");
    convert("<messageSchema><message id=\"4294967296\"/></messageSchema>");
    convert_name("MDEntryPx");
    convert_nothing();
    convert_no_name();
    return 0;
}
