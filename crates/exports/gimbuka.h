/* The operations for C. Link with libexports.a, which `scripts/build exports` writes to target/staticlib.
 *
 * A slice is a pointer and a number of elements. The pointer is aligned and not null, also where the number is 0. Slices and numbers
 * that are written overlap nothing else that is lent. The words of a slice may be anything: an operation takes any contents and ends.
 *
 * A vocabulary's roles and features have one value each, unless a record of kind 6 or 7 lets one have several (docs/SPECIFICATION.md, 3.2).
 *
 * A function returns the kind of its answer and writes the answer's values, 0 where it has none:
 *
 *   0  refused: *number is the refusal's number; docs/REFUSALS.md says what each one means
 *   1  accepted; possible (*number: the term); compliant; equal; yes; written (*words)
 *   2  impossible; outside (*number, *combination, *words); different (*number: the side, *term, *combination, *words); no
 *
 * Rehearse is given three numbers and no table: it draws a load from a seed, with so many classes and so many terms a policy, and writes a
 * vocabulary and two policies, each behind the count of its words (docs/SPECIFICATION.md, 9.14).
 *
 * work has at least 16384 words, else the call is refused 21. That comes after the refusals of the tables (vocabulary, policies and
 * model), and before 22, 43 and 23. After an answer, 22, 43 or 23 the first 16384 words of work are 0; any other refusal leaves them. out
 * takes the countermodel, the vocabulary of an OWL text, the spelling of a policy, or a load: its first *words words; nothing else is written
 * there. 700005 words are enough for every countermodel, 4100 for every vocabulary, 3078 for every spelling, 4643 for every load.
 *
 * A call takes at most so much stack, as measured on x86-64 (`scripts/judge stack`), of which a thread of its own needs some: to
 * rehearse 6 KB, read 8 KB, read OWL 11 KB, spell 33 KB, possible 27 KB, model check 47 KB, compliance 65 KB, equality 81 KB. A thread of
 * 128 KB has room for each.
 *
 * An example. A buyer keeps data for 1 to 60 days, a subscriber consents to 0 to 30:
 *
 *     #include <stdio.h>
 *     #include "gimbuka.h"
 *
 *     // one class, no role, one feature, and nothing stated of them
 *     static const uint32_t v[] = {1, 0, 1, 0};
 *     // the header, one term, and its conjunct: feature 1 has a value from 1 to 60, or from 0 to 30
 *     static const uint32_t p[] = {1, 0, 0, 0, 0, 0, 5, 0, 0, 0, 2, 0, 4, 1, 1, 60, 0, 0};
 *     static const uint32_t q[] = {1, 0, 0, 0, 0, 0, 5, 0, 0, 0, 2, 0, 4, 1, 0, 30, 0, 0};
 *     static uint32_t work[16384], out[16384];
 *
 *     int main(void) {
 *         uint32_t number, combination;
 *         size_t words;
 *         switch (gimbuka_compliance(v, 4, p, 18, q, 18, work, 16384, out, 16384, &number, &combination, &words)) {
 *         case 1: puts("compliant"); break;
 *         case 2: printf("outside %u %u, %zu words of countermodel\n", number, combination, words); break;
 *         default: printf("refused %u\n", number);
 *         }
 *         return 0;
 *     }
 *
 * prints "outside 1 4, 10 words of countermodel".
 */
#ifndef GIMBUKA_H
#define GIMBUKA_H

#include <stddef.h>
#include <stdint.h>

#ifdef __cplusplus
extern "C" {
#endif

uint32_t gimbuka_read_vocabulary(const uint32_t *v, size_t v_len, uint32_t *number);

uint32_t gimbuka_read_policy(const uint32_t *v, size_t v_len, const uint32_t *p, size_t p_len, uint32_t *number);

uint32_t gimbuka_read_second_policy(const uint32_t *v, size_t v_len, const uint32_t *q, size_t q_len, uint32_t *number);

uint32_t gimbuka_possible(const uint32_t *v, size_t v_len, const uint32_t *p, size_t p_len, uint32_t *work, size_t work_len,
                          uint32_t *number);

uint32_t gimbuka_compliance(const uint32_t *v, size_t v_len, const uint32_t *p, size_t p_len, const uint32_t *q, size_t q_len,
                            uint32_t *work, size_t work_len, uint32_t *out, size_t out_len, uint32_t *number,
                            uint32_t *combination, size_t *words);

uint32_t gimbuka_equality(const uint32_t *v, size_t v_len, const uint32_t *p, size_t p_len, const uint32_t *q, size_t q_len,
                          uint32_t *work, size_t work_len, uint32_t *out, size_t out_len, uint32_t *number, uint32_t *term,
                          uint32_t *combination, size_t *words);

uint32_t gimbuka_model_check(const uint32_t *v, size_t v_len, const uint32_t *p, size_t p_len, const uint32_t *q, size_t q_len,
                             const uint32_t *m, size_t m_len, uint32_t *work, size_t work_len, uint32_t *number);

uint32_t gimbuka_read_owl(const uint8_t *text, size_t text_len, uint32_t *out, size_t out_len, uint32_t *number, size_t *words);

uint32_t gimbuka_spell(const uint32_t *v, size_t v_len, const uint32_t *p, size_t p_len, uint32_t *work, size_t work_len,
                       uint32_t *out, size_t out_len, uint32_t *number, size_t *words);

uint32_t gimbuka_rehearse(uint32_t seed, uint32_t classes, uint32_t terms, uint32_t *out, size_t out_len, uint32_t *number,
                          size_t *words);

#ifdef __cplusplus
}
#endif

#endif
