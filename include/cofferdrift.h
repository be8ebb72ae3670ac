/* Cofferdrift for C: link the archive crates/c_api/out/libc_api.a, which `rt lib` in crates/c_api writes.
 *
 * Bytes are lent as a pointer and a length and are only read. No pointer is null, also where the length is 0.
 * No function keeps a pointer, allocates, or asks anything of the bytes: whatever they are, it returns.
 * The numbers of refusals and their places are those of docs/01-scope.md. */
#ifndef COFFERDRIFT_H
#define COFFERDRIFT_H

#include <stddef.h>
#include <stdint.h>

#ifdef __cplusplus
extern "C" {
#endif

/* Reads the formula that starts at s[start]: a predicate if `expression` is 0, else an expression.
 *
 * types[k] is the type of the identifier k: 0 integer, 1 boolean, any other byte a set of integers (a file has 2).
 * s may go on after the formula; only its end is found. A start at or past the end of s is refused with 1.
 *
 * Answers 0, and writes into *place where the formula ends (the first byte after it).
 * Or answers the number of the refusal, and writes its place into *place:
 *   1  the bytes end inside the formula; the place is s_len
 *   7  an unknown code, a code of the other sort, a count, an identifier or a bound index out of range
 *   8  a type rule broken
 *   9  a node at level 33, or with its own bytes past the formula's 1,024th
 * The place of 7, 8 and 9 is the first byte of the node, counted from s[0].
 * `place` points to one size_t, which is always written, and which no byte of s or types shares. */
size_t cofferdrift_read_formula(const uint8_t *s, size_t s_len, const uint8_t *types, size_t types_len,
                                size_t expression, size_t start, size_t *place);

/* Reads a sequent file: 1 to 11 of docs/01-scope.md in its order.
 *
 * Answers 0, and writes how many hypotheses are hidden, selected and visible.
 * Or answers the number of the refusal, and writes its place into *place; the others keep their values. */
size_t cofferdrift_read(const uint8_t *s, size_t s_len, size_t *hidden, size_t *selected, size_t *visible,
                        size_t *place);

/* The acts on a sequent. Each reads the sequent, then the lent buffers in order, and writes the resulting sequent.
 *
 * Answers 0, writes the sequent into out[0..*size], 1 or 0 into *changed for "changed" or not, and keeps the
 * later bytes of out and *place. Or answers the number of the refusal, writes its place into *place, and keeps
 * every byte of out, *changed and *size. A list is a count byte 0..64 (0..1 for a goal) and its formulas.
 * 14: the result has over 64 hypotheses, over 60,000 bytes, or does not fit into out. */
size_t cofferdrift_select(const uint8_t *s, size_t s_len, const uint8_t *predicate, size_t predicate_len,
                          uint8_t *out, size_t out_len, size_t *changed, size_t *size, size_t *place);
size_t cofferdrift_deselect(const uint8_t *s, size_t s_len, const uint8_t *predicate, size_t predicate_len,
                            uint8_t *out, size_t out_len, size_t *changed, size_t *size, size_t *place);
size_t cofferdrift_hide(const uint8_t *s, size_t s_len, const uint8_t *predicate, size_t predicate_len,
                        uint8_t *out, size_t out_len, size_t *changed, size_t *size, size_t *place);
size_t cofferdrift_show(const uint8_t *s, size_t s_len, const uint8_t *predicate, size_t predicate_len,
                        uint8_t *out, size_t out_len, size_t *changed, size_t *size, size_t *place);

/* Adds formulas, leaves those named unselected as they are, and replaces the goal if one is given.
 * 18: an unselected formula is not among those added. */
size_t cofferdrift_modify(const uint8_t *s, size_t s_len, const uint8_t *added, size_t added_len,
                          const uint8_t *unselected, size_t unselected_len, const uint8_t *goal, size_t goal_len,
                          uint8_t *out, size_t out_len, size_t *changed, size_t *size, size_t *place);

/* Forward inference; and rewrite, which then hides. */
size_t cofferdrift_forward(const uint8_t *s, size_t s_len, const uint8_t *sources, size_t sources_len,
                           const uint8_t *inferred, size_t inferred_len,
                           uint8_t *out, size_t out_len, size_t *changed, size_t *size, size_t *place);
size_t cofferdrift_rewrite(const uint8_t *s, size_t s_len, const uint8_t *sources, size_t sources_len,
                           const uint8_t *inferred, size_t inferred_len, const uint8_t *hides, size_t hides_len,
                           uint8_t *out, size_t out_len, size_t *changed, size_t *size, size_t *place);

#ifdef __cplusplus
}
#endif

#endif
