/* The converter and the name conversions of the static library libsbe.a (`bin/build sbe` writes
 * target/staticlib/libsbe.a).
 *
 * Where it runs: x86-64 Linux, on processors of the level x86-64-v2 or above, which have SSE4.2; on an
 * older one a call ends with SIGILL. The library calls `memset` of the C library, and nothing else. It
 * allocates nothing and keeps nothing between calls, so that calls on different memory may run at once. On
 * the stack a call of the converter touches some 29 KiB, measured and not proved.
 *
 * Each function answers a number, 0 for accepted, and always sets *offset, *place and *n.
 *
 *    After 0 the finished text is the first *n bytes of `output`, and the bytes after it are as they were;
 *    *offset and *place are 0.
 *    After any other number, a refusal, all of `output` is as it was, and *n is 0; *offset and *place say
 *    where, counted from 0, as the list below has it.
 *
 * What the caller must hand over, and nothing can test:
 *
 *  - Each pointer with its length is memory that the caller may read (`records`, `text`, `output`: and
 *    write) for that many elements, aligned as its type is: at most 2^63 - 1 bytes. There is no end mark.
 *  - A pointer with a length may be null where its length is 0: an empty document or name, no work space, no
 *    output. Where the length is not 0, no pointer is null. `offset`, `place` and `n` are never null.
 *  - What a function writes (`records`, `text`, `output`, *offset, *place, *n) overlaps nothing else that is
 *    handed over: neither another of these, nor the document or a name. What it only reads may overlap: a
 *    value and an enum name may be the same bytes.
 *  - No thread writes what is handed over, or reads what the function writes, while the call runs.
 *
 * What is written need not be set before the call.
 */
#ifndef SBE_H
#define SBE_H

#include <stddef.h>
#include <stdint.h>

#ifdef __cplusplus
extern "C" {
#endif

/* The converter: an SBE schema, an XML document, becomes annotated proto3 source.
 *
 * `records` (at least 16,384 numbers) and `text` (at least 65,536 bytes) are work space: the answer does not
 * depend on what they hold before, and what they hold afterwards is free. With a length of 0 each is only
 * too short: 2. `output` of length 0 is too short for any source: 3, where nothing else is wrong.
 *
 *  The caller, with *offset and *place 0:
 *    1  the document is longer than 32,768 bytes
 *    2  `records` has fewer than 16,384 numbers, or `text` fewer than 65,536 bytes
 *    3  `output` is shorter than the source
 *  The document. *place is the `<` of the tag or markup, or the byte:
 *   10  a byte of 128 or more: *offset and *place are the first one
 *   11  a comment, 12 a processing instruction, 13 a declaration (`<!`) without its end: *offset is its `<`
 *   14  no `>` after a close tag's name and spaces
 *   15  no tag name after `<`
 *   16  the document ends in a tag, where an attribute, `/>` or `>` is due
 *   17  no attribute name, 18 no `=` after one, 19 no quote after `=`: of 14 to 19, *offset is where it was due
 *   20  a value without closing quote: *offset is the first byte of the value
 *  The elements, with *offset 0. *place is the `<` of the tag:
 *   30  a close name differs from the innermost open name
 *   31  elements are open at the end: *place is the document's length
 *   32  an invalid number (id, version or length)
 *   33  while a message is current, a field where the current group was opened under another message
 *   34  more than 64 open elements
 *   35  more than 1,024 items (types, members, refs, composites, enums, values, messages, groups, fields)
 *  The types, with *offset 0. An array is a length above 1 of any primitive but char, uint8 and int8:
 *   40  an array in a printed composite: *place is its position among all composites, from 0
 *   41  an array in a message or its groups: *place is the message's position among all messages, from 0
 *
 * Where several apply, the first is answered in this order: 1, 2, 10; then 11 to 20, 30 and 32 to 35 as the
 * document is read, at one open tag 34, 32, 33, 35; then 31, 40, 41, 3. */
uint32_t sbe_xml_to_proto(const uint8_t *document, size_t document_len, uint32_t *records, size_t records_len,
                          uint8_t *text, size_t text_len, uint8_t *output, size_t output_len, size_t *offset,
                          size_t *place, size_t *n);

/* The name conversions. Each converts a name, and answers 0 or
 *
 *    1  a name is longer than 32,768 bytes: *offset and *place are 0
 *   10  a name has a byte of 128 or more: *offset and *place are the first one, in the name that has it
 *    3  `output` is shorter than the converted name: *offset and *place are 0
 *
 * Where several apply, the first is answered in the order 1, 10, 3; of two names the value is tested first
 * within each. An empty name is converted to nothing. By these rules no converted name is longer than twice its
 * name, so that an output of that length is never refused: tested, and no part of what is proved. */

/* MDEntryPx: md_entry_px */
uint32_t sbe_camel_to_snake(const uint8_t *name, size_t name_len, uint8_t *output, size_t output_len,
                            size_t *offset, size_t *place, size_t *n);

/* md_entry_px: mdEntryPx */
uint32_t sbe_snake_to_camel(const uint8_t *name, size_t name_len, uint8_t *output, size_t output_len,
                            size_t *offset, size_t *place, size_t *n);

/* MDEntryPx: MDENTRY_PX */
uint32_t sbe_camel_to_screaming_snake(const uint8_t *name, size_t name_len, uint8_t *output,
                                      size_t output_len, size_t *offset, size_t *place, size_t *n);

/* MD_ENTRY_PX: MdEntryPx */
uint32_t sbe_screaming_snake_to_pascal(const uint8_t *name, size_t name_len, uint8_t *output,
                                       size_t output_len, size_t *offset, size_t *place, size_t *n);

/* entries: Entry */
uint32_t sbe_singular_pascal(const uint8_t *name, size_t name_len, uint8_t *output, size_t output_len,
                             size_t *offset, size_t *place, size_t *n);

/* ORD_TYPE_MARKET of the enum OrdType: Market. A value name without the enum's prefix is converted whole. */
uint32_t sbe_strip_enum_prefix(const uint8_t *value, size_t value_len, const uint8_t *enum_name,
                               size_t enum_name_len, uint8_t *output, size_t output_len, size_t *offset,
                               size_t *place, size_t *n);

#ifdef __cplusplus
}
#endif

#endif
