/* The stack walk for C: the functions of crates/exports, made into a library by `bindings/library` (target/staticlib/libexports.a, x86-64).
 *
 * Every function returns 0, or document 01's refusal number (JURDDAVIK_...). What it answers goes into the arrays that the caller lends; a refused
 * call leaves them all unchanged. No argument is out of bounds for these functions: whatever the lists hold, the answer is what the definitions in
 * crates/NAME/specs say. It is the caller's part that
 *  - a pointer is not NULL, even if its length is 0, and points to as many elements as the length says, aligned for their type;
 *  - what is lent to be written overlaps nothing else that is lent.
 * A list is a pointer and its length in elements. Nothing is kept: when a function returns, all memory is the caller's again.
 */
#ifndef JURDDAVIK_H
#define JURDDAVIK_H

#include <stddef.h>
#include <stdint.h>

#ifdef __cplusplus
extern "C" {
#endif

/* Refusals. */
#define JURDDAVIK_LINE_TOO_LONG 1 /* line over 65,536 bytes */
#define JURDDAVIK_NOT_ASCII 2     /* line has a byte above 127 */
#define JURDDAVIK_MEMORY_FULL 3   /* a dump line needs more words or segments than the cap or lent lists hold */
#define JURDDAVIK_BAD_BOOK 4      /* book not good, or over a cap */
#define JURDDAVIK_BAD_CODE 5      /* sections or code not good, or over a cap */
#define JURDDAVIK_BAD_DUMP 6      /* memory not good, or over a cap */
#define JURDDAVIK_NO_ROOM 7       /* frame list shorter than the limit needs, or text does not fit */
#define JURDDAVIK_BAD_SHEET 8     /* the sheet breaks its form */
#define JURDDAVIK_FRAME_LIMIT 9   /* frame limit above 1,024 */

/* Why a walk stopped, walked[1]. */
#define JURDDAVIK_END_OF_STACK 0
#define JURDDAVIK_RETURN_ADDRESS_LOST 1 /* walked[2]: pc */
#define JURDDAVIK_NO_UNWIND_INFO 2      /* walked[2]: pc */
#define JURDDAVIK_MEMORY_UNAVAILABLE 3  /* walked[2]: address */
#define JURDDAVIK_UNKNOWN_REGISTER 4    /* walked[2]: register */
#define JURDDAVIK_UNSUPPORTED 5         /* walked[2]: pc */
#define JURDDAVIK_TOO_MANY_FRAMES 6
#define JURDDAVIK_INCONSISTENT 7
#define JURDDAVIK_BUDGET_SPENT 8 /* walked[2]: pc of the frame whose caller was sought */

#define JURDDAVIK_FRAME_WORDS 4     /* pc, sp, pc is a return address (0 or 1), the frame was rebuilt (0 or 1) */
#define JURDDAVIK_REGISTER_WORDS 4  /* pc, pc is a return address, sp is a placeholder, mask of known registers; a flag is set if it is not 0 */
#define JURDDAVIK_REGISTER_VALUES 32

/* Walks the call chain from the registers on.
 *
 * tables     function count of each table
 * functions  start, end, first row, row count
 * rows       start, end, CFA kind, CFA register, CFA offset, first rule, rule count
 * rules      register, kind, operand
 * sections   address, byte offset, length; over the bytes of `code`
 * segments   base, word count; over `words`
 * registers  JURDDAVIK_REGISTER_WORDS, and
 * values     the value of each register, by its number
 * max_frames at most 1,024
 * allowance  how many instructions the search for lost callers may visit
 * frames     JURDDAVIK_FRAME_WORDS for each of max_frames frames; only the frames reported are written
 * walked     frames reported, stop, value of the stop, instructions visited
 *
 * Refused, in this order: 9, 7, 4, 5, 6.
 */
uint32_t jurddavik_unwind(const uint32_t *tables, size_t tables_length,
                          const uint32_t *functions, size_t functions_length,
                          const uint32_t *rows, size_t rows_length,
                          const uint32_t *rules, size_t rules_length,
                          const uint32_t *sections, size_t sections_length,
                          const uint8_t *code, size_t code_length,
                          const uint32_t *segments, size_t segments_length,
                          const uint32_t *words, size_t words_length,
                          const uint32_t registers[JURDDAVIK_REGISTER_WORDS],
                          const uint32_t values[JURDDAVIK_REGISTER_VALUES],
                          uint32_t max_frames, uint32_t allowance,
                          uint32_t *frames, size_t frames_length,
                          uint32_t walked[4]);

/* Checks a book, as each walk does before it starts: 0 or JURDDAVIK_BAD_BOOK. */
uint32_t jurddavik_book_is_good(const uint32_t *tables, size_t tables_length,
                                const uint32_t *functions, size_t functions_length,
                                const uint32_t *rows, size_t rows_length,
                                const uint32_t *rules, size_t rules_length);

/* What a line is, answer[0]. */
#define JURDDAVIK_OTHER 0       /* no part of a dump */
#define JURDDAVIK_DATA 1        /* a stack line of an unfinished dump */
#define JURDDAVIK_DUMP_BEFORE 2 /* an ESP-IDF dump is complete, and the line is the first after it */
#define JURDDAVIK_DUMP_OF 3     /* a STACKDUMP dump is complete, and the line is its own */

/* Feeds the next line, without its line feed, to the collectors of both dump formats.
 *
 * state       the collector: 0 idle, 1 registers, 2 stack; pc known; pc; registers known. All 0 before the first line, as are the next three;
 *             then as the last call left them
 * registers, values
 *             the registers collected
 * taken       how many words and segments of the idf lists are taken
 * top         whether the stack top is known, and the stack top
 * idf_*, sd_* memory of the dump of either format: words, and segments as pairs (base, word count). The caller lends the same lists for each line
 * answer      what the line is
 * dump, dump_values
 *             of a dump that is complete, its registers; else they keep what they had
 * held        and how many words and segments it has: they are the first of the idf or the sd lists
 *
 * Refused, in this order: 1, 2, 3.
 */
uint32_t jurddavik_feed(uint32_t state[4],
                        uint32_t registers[JURDDAVIK_REGISTER_WORDS],
                        uint32_t values[JURDDAVIK_REGISTER_VALUES],
                        uint64_t taken[2],
                        const uint8_t *line, size_t line_length,
                        const uint32_t top[2],
                        uint32_t *idf_words, size_t idf_words_length,
                        uint32_t *idf_segments, size_t idf_segments_length,
                        uint32_t *sd_words, size_t sd_words_length,
                        uint32_t *sd_segments, size_t sd_segments_length,
                        uint32_t answer[1],
                        uint32_t dump[JURDDAVIK_REGISTER_WORDS],
                        uint32_t dump_values[JURDDAVIK_REGISTER_VALUES],
                        uint64_t held[2]);

/* Walks for itself, at most 100 frames, and writes the backtrace as text; written[0] is how many bytes. The lists are those of jurddavik_unwind.
 *
 * Refused, in this order: 4, 5, 6, 7.
 */
uint32_t jurddavik_print_backtrace(const uint32_t *tables, size_t tables_length,
                                   const uint32_t *functions, size_t functions_length,
                                   const uint32_t *rows, size_t rows_length,
                                   const uint32_t *rules, size_t rules_length,
                                   const uint32_t *sections, size_t sections_length,
                                   const uint8_t *code, size_t code_length,
                                   const uint32_t *segments, size_t segments_length,
                                   const uint32_t *words, size_t words_length,
                                   const uint32_t registers[JURDDAVIK_REGISTER_WORDS],
                                   const uint32_t values[JURDDAVIK_REGISTER_VALUES],
                                   uint32_t allowance,
                                   uint8_t *text, size_t text_length,
                                   uint64_t written[1]);

/* Reads a case sheet, walks it, and writes the answer as the program walksheet prints it; written[0] is how many bytes. A sheet that is refused has an
 * answer too, a line `refused=`.
 *
 * Refused: 7.
 */
uint32_t jurddavik_walk_sheet(const uint8_t *sheet, size_t sheet_length,
                              uint8_t *text, size_t text_length,
                              uint64_t written[1]);

#ifdef __cplusplus
}
#endif

#endif
