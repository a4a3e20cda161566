/* Every operation called from C: the desk's example, whose answers SPECIFICATION 11.2 gives, and an OWL text. Compile with crates/exports/gimbuka.h at
 * hand and link target/staticlib/libexports.a; scripts/judge does so and runs it. */
#include <stdio.h>
#include <string.h>

#include "../crates/exports/gimbuka.h"

#define LENGTH(words) (sizeof(words) / sizeof *(words))

/* 2 below 1, 4 below 1 and 3, 1 and 3 disjoint; roles 1, 2 and feature 1 functional; role 3 has range 1 and is many-valued */
static const uint32_t v[] = {4, 3, 1, 1, 1, 2, 1, 2, 1, 4, 1, 3, 1, 4, 3, 4, 2, 1, 3, 5, 3, 1, 0, 6, 3, 2, 0, 7, 4, 1, 0, 8,
                             5, 3, 1, 9, 6, 3, 0, 0};
/* role 1 reaching class 1, and role 1 reaching class 2 */
static const uint32_t p[] = {1, 0, 0, 0, 0, 0, 5, 0, 0, 0, 2, 0, 3, 1, 0, 0, 3, 0, 1, 1, 0, 0, 0, 0};
static const uint32_t q[] = {1, 0, 0, 0, 0, 0, 5, 0, 0, 0, 2, 0, 3, 1, 0, 0, 3, 0, 1, 2, 0, 0, 0, 0};
/* class 4 */
static const uint32_t none[] = {1, 0, 0, 0, 0, 0, 5, 0, 0, 0, 2, 0, 1, 4, 0, 0, 0, 0};
/* individual 1 reaches individual 2 by role 1, and 2 is in class 1 */
static const uint32_t model[] = {1, 2, 0, 0, 0, 2, 1, 1, 2, 2, 1, 1, 2, 0, 0};

static uint32_t work[16384], out[100];
static int failed;

static void expect(const char *name, int holds) {
    if (holds) return;
    printf("call.c: %s is not as it must be\n", name);
    failed = 1;
}

static int is_clear(void) {
    for (size_t i = 0; i < LENGTH(work); i++)
        if (work[i] != 0) return 0;
    return 1;
}

int main(void) {
    uint32_t number = 9, term = 9, combination = 9;
    size_t words = 9;

    expect("read vocabulary", gimbuka_read_vocabulary(v, LENGTH(v), &number) == 1 && number == 0);
    expect("read vocabulary, cut short", gimbuka_read_vocabulary(v, LENGTH(v) - 1, &number) == 0 && number == 1);
    expect("read policy", gimbuka_read_policy(v, LENGTH(v), p, LENGTH(p), &number) == 1 && number == 0);
    expect("read policy, header link", gimbuka_read_policy(v, LENGTH(v), p, 6, &number) == 0 && number == 5);
    expect("read second policy", gimbuka_read_second_policy(v, LENGTH(v), p, 6, &number) == 0 && number == 15);

    memset(work, 1, sizeof work);
    expect("possible", gimbuka_possible(v, LENGTH(v), p, LENGTH(p), work, LENGTH(work), &number) == 1 && number == 1 && is_clear());
    expect("impossible", gimbuka_possible(v, LENGTH(v), none, LENGTH(none), work, LENGTH(work), &number) == 2 && number == 0);
    expect("no work slice", gimbuka_possible(v, LENGTH(v), p, LENGTH(p), work, LENGTH(work) - 1, &number) == 0 && number == 21);

    memset(work, 1, sizeof work);
    expect("compliance", gimbuka_compliance(v, LENGTH(v), q, LENGTH(q), p, LENGTH(p), work, LENGTH(work), out, LENGTH(out), &number,
                                            &combination, &words) == 1);
    expect("compliance's values", number == 0 && combination == 0 && words == 0 && is_clear());
    expect("outside", gimbuka_compliance(v, LENGTH(v), p, LENGTH(p), q, LENGTH(q), work, LENGTH(work), out, LENGTH(out), &number,
                                         &combination, &words) == 2);
    expect("outside's values", number == 1 && combination == 1 && words == LENGTH(model) && memcmp(out, model, sizeof model) == 0);
    expect("output too short", gimbuka_compliance(v, LENGTH(v), p, LENGTH(p), q, LENGTH(q), work, LENGTH(work), out, words - 1, &number,
                                                  &combination, &words) == 0 && number == 23);

    expect("equality", gimbuka_equality(v, LENGTH(v), p, LENGTH(p), p, LENGTH(p), work, LENGTH(work), out, LENGTH(out), &number, &term,
                                        &combination, &words) == 1);
    expect("different", gimbuka_equality(v, LENGTH(v), q, LENGTH(q), p, LENGTH(p), work, LENGTH(work), out, LENGTH(out), &number, &term,
                                         &combination, &words) == 2);
    expect("different's values", number == 2 && term == 1 && combination == 1 && words == LENGTH(model));

    expect("model check", gimbuka_model_check(v, LENGTH(v), p, LENGTH(p), q, LENGTH(q), out, words, work, LENGTH(work), &number) == 1);
    expect("model check, no", gimbuka_model_check(v, LENGTH(v), q, LENGTH(q), p, LENGTH(p), out, words, work, LENGTH(work), &number) == 2);
    expect("the work slice", is_clear());

    /* a value 0..1 of each of 17 features has 131,072 combinations: the short way spares them, and where it fails there is 22 */
    static const uint32_t wide[] = {1, 0, 17, 0}, nobody[] = {0, 0, 0, 0, 0, 0};
    uint32_t many[6 * 19] = {1, 0, 0, 0, 0, 0, 5, 0, 0, 0, 2, 0};
    for (uint32_t record = 2; record < 19; record++) {
        const uint32_t span[] = {4, record - 1, 0, 1, 0, record < 18 ? record + 1 : 0};
        memcpy(many + 6 * record, span, sizeof span);
    }
    expect("compliance, the short way", gimbuka_compliance(wide, LENGTH(wide), many, LENGTH(many), many, LENGTH(many), work, LENGTH(work),
                                                           out, 0, &number, &combination, &words) == 1 && is_clear());
    expect("equality, the short way", gimbuka_equality(wide, LENGTH(wide), many, LENGTH(many), many, LENGTH(many), work, LENGTH(work), out, 0,
                                                       &number, &term, &combination, &words) == 1 && is_clear());
    expect("too many combinations", gimbuka_compliance(wide, LENGTH(wide), many, LENGTH(many), nobody, LENGTH(nobody), work, LENGTH(work),
                                                       out, LENGTH(out), &number, &combination, &words) == 0 && number == 22 && is_clear());

    /* 21 comes after the refusals of the tables */
    expect("possible, policy before work", gimbuka_possible(v, LENGTH(v), p, 6, work, 0, &number) == 0 && number == 5);
    expect("compliance, second policy before work", gimbuka_compliance(v, LENGTH(v), p, LENGTH(p), q, 6, work, 0, out, LENGTH(out), &number,
                                                                       &combination, &words) == 0 && number == 15);
    expect("equality, second policy before work", gimbuka_equality(v, LENGTH(v), p, LENGTH(p), q, 6, work, 0, out, LENGTH(out), &number,
                                                                   &term, &combination, &words) == 0 && number == 15);
    expect("model check, model before work", gimbuka_model_check(v, LENGTH(v), p, LENGTH(p), q, LENGTH(q), model, 5, work, 0,
                                                                 &number) == 0 && number == 32);
    expect("model check, no work slice", gimbuka_model_check(v, LENGTH(v), p, LENGTH(p), q, LENGTH(q), model, LENGTH(model), work, 0,
                                                             &number) == 0 && number == 21);

    /* role 1 is stated functional and many-valued: 44, before the policies, the model and the work slice */
    static const uint32_t both[] = {1, 1, 0, 1, 3, 1, 0, 2, 6, 1, 0, 0};
    memset(out, 1, sizeof out);
    memset(work, 1, sizeof work);
    expect("read vocabulary, both ways", gimbuka_read_vocabulary(both, LENGTH(both), &number) == 0 && number == 44);
    expect("read policy, both ways", gimbuka_read_policy(both, LENGTH(both), p, 0, &number) == 0 && number == 44);
    expect("read second policy, both ways", gimbuka_read_second_policy(both, LENGTH(both), p, 0, &number) == 0 && number == 44);
    expect("possible, both ways", gimbuka_possible(both, LENGTH(both), p, 0, work, 0, &number) == 0 && number == 44);
    expect("compliance, both ways", gimbuka_compliance(both, LENGTH(both), p, 0, q, 0, work, LENGTH(work), out, 0, &number, &combination,
                                                       &words) == 0 && number == 44);
    expect("equality, both ways", gimbuka_equality(both, LENGTH(both), p, 0, q, 0, work, LENGTH(work), out, 0, &number, &term, &combination,
                                                   &words) == 0 && number == 44);
    expect("model check, both ways", gimbuka_model_check(both, LENGTH(both), p, 0, q, 0, model, 0, work, 0, &number) == 0 && number == 44);
    expect("spell, both ways", gimbuka_spell(both, LENGTH(both), p, 0, work, LENGTH(work), out, 0, &number, &words) == 0 && number == 44);
    expect("44 writes nothing", work[0] == 0x01010101 && out[0] == 0x01010101);

    /* role 2 reaching class 1 and class 3, which are disjoint: impossible also where nothing states that the role is functional */
    static const uint32_t unstated[] = {3, 2, 0, 1, 2, 1, 3, 0}, stated[] = {3, 2, 0, 1, 2, 1, 3, 2, 6, 2, 0, 0};
    static const uint32_t two[] = {1, 0, 0, 0, 0, 0, 5, 0, 0, 0, 2, 0, 3, 2, 0, 0, 3, 4, 1, 1, 0, 0, 0, 0, 3, 2, 0, 0, 5, 0, 1, 3, 0, 0, 0, 0};
    expect("one value by default", gimbuka_possible(unstated, LENGTH(unstated), two, LENGTH(two), work, LENGTH(work), &number) == 2);
    expect("many-valued", gimbuka_possible(stated, LENGTH(stated), two, LENGTH(two), work, LENGTH(work), &number) == 1 && number == 1);

    /* class :B is below class :A, used before they are declared; role :r is many-valued, since it is not stated functional; the output is
       as it was behind the words written, and after a refusal */
    static const char text[] = "Ontology(SubClassOf(:B :A) Declaration(Class(:A)) Declaration(Class(:B)) Declaration(ObjectProperty(:r)))";
    static const uint32_t read[] = {2, 1, 0, 1, 1, 2, 1, 2, 6, 1, 0, 0};
    const uint8_t *owl = (const uint8_t *)text;
    memset(out, 1, sizeof out);
    expect("read OWL, output too short", gimbuka_read_owl(owl, sizeof text - 1, out, 11, &number, &words) == 0 && number == 23 && words == 0);
    expect("read OWL, cut short", gimbuka_read_owl(owl, sizeof text - 2, out, LENGTH(out), &number, &words) == 0 && number == 41);
    expect("read OWL, no class", gimbuka_read_owl((const uint8_t *)"Ontology()", 10, out, LENGTH(out), &number, &words) == 0 && number == 42);
    expect("a refusal writes nothing", out[0] == 0x01010101);
    expect("read OWL", gimbuka_read_owl(owl, sizeof text - 1, out, LENGTH(out), &number, &words) == 1 && number == 0);
    expect("read OWL's words", words == LENGTH(read) && memcmp(out, read, sizeof read) == 0 && out[LENGTH(read)] == 0x01010101);
    expect("what was written is a vocabulary", gimbuka_read_vocabulary(out, words, &number) == 1);

    /* class 2, class 1 and class 2 again, as one term, and a term that is the same: classes rising, each once, and one term. A range adds
       a record at depth 17: 43, before 23 and after 21 */
    static const uint32_t names[] = {2, 1, 0, 1, 5, 1, 1, 0};
    static const uint32_t said[] = {1, 0, 0, 0, 0, 0, 5, 0, 0, 0, 3, 2, 5, 0, 0, 0, 6, 0, 1, 2, 0, 0, 0, 4, 1, 1, 0, 0, 0, 5, 1, 2, 0, 0, 0, 0,
                                    1, 1, 0, 0, 0, 7, 1, 2, 0, 0, 0, 0};
    static const uint32_t spelled[] = {1, 0, 0, 0, 0, 0, 5, 0, 0, 0, 2, 0, 1, 1, 0, 0, 0, 3, 1, 2, 0, 0, 0, 0};
    static uint32_t deep[6 * 18] = {1, 0, 0, 0, 0, 0, 5, 0, 0, 0, 2, 0};
    for (uint32_t k = 2; k < 18; k++) {
        deep[6 * k] = 3;
        deep[6 * k + 1] = 1;
        deep[6 * k + 4] = k < 17 ? k + 1 : 0;
    }
    memset(out, 1, sizeof out);
    memset(work, 1, sizeof work);
    expect("spell, no work slice", gimbuka_spell(names, LENGTH(names), deep, LENGTH(deep), work, LENGTH(work) - 1, out, 0, &number, &words) == 0 &&
                                       number == 21 && work[0] == 0x01010101);
    expect("spell, too deep", gimbuka_spell(names, LENGTH(names), deep, LENGTH(deep), work, LENGTH(work), out, 0, &number, &words) == 0 &&
                                  number == 43 && is_clear());
    expect("spell, output too short", gimbuka_spell(names, LENGTH(names), said, LENGTH(said), work, LENGTH(work), out, 23, &number, &words) == 0 &&
                                          number == 23 && words == 0 && is_clear());
    expect("a refusal writes nothing", out[0] == 0x01010101);
    expect("spell", gimbuka_spell(names, LENGTH(names), said, LENGTH(said), work, LENGTH(work), out, LENGTH(out), &number, &words) == 1 &&
                        number == 0 && is_clear());
    expect("spell's words", words == LENGTH(spelled) && memcmp(out, spelled, sizeof spelled) == 0 && out[LENGTH(spelled)] == 0x01010101);

    /* seed 1, 2 classes, 1 term a policy: a load's three parts, each behind its count, and the pair is decided; a number out of range is 45,
       before 23; the output is as it was behind the words written, and after a refusal */
    static const uint32_t load[] = {12, 2, 0, 1, 1, 1, 2, 1, 2, 4, 1, 0, 0, 24, 1, 0, 0, 0, 0, 0, 5, 0, 0, 0, 2, 0, 1, 1, 0, 0, 0, 3,
                                    4, 1, 86, 123, 0, 0, 24, 1, 0, 0, 0, 0, 0, 5, 0, 0, 0, 2, 0, 1, 2, 0, 0, 0, 3, 4, 1, 83, 144, 0, 0};
    static uint32_t room[64];
    memset(room, 1, sizeof room);
    expect("rehearse, no seed", gimbuka_rehearse(0, 2, 1, room, 0, &number, &words) == 0 && number == 45 && words == 0);
    expect("rehearse, one seed too many", gimbuka_rehearse(2147483647, 2, 1, room, LENGTH(room), &number, &words) == 0 && number == 45);
    expect("rehearse, 257 classes", gimbuka_rehearse(1, 257, 1, room, LENGTH(room), &number, &words) == 0 && number == 45);
    expect("rehearse, 101 terms", gimbuka_rehearse(1, 2, 101, room, LENGTH(room), &number, &words) == 0 && number == 45);
    expect("rehearse, output too short", gimbuka_rehearse(1, 2, 1, room, LENGTH(load) - 1, &number, &words) == 0 && number == 23 && words == 0);
    expect("a refusal writes nothing", room[0] == 0x01010101);
    expect("rehearse", gimbuka_rehearse(1, 2, 1, room, LENGTH(room), &number, &words) == 1 && number == 0);
    expect("rehearse's words", words == LENGTH(load) && memcmp(room, load, sizeof load) == 0 && room[LENGTH(load)] == 0x01010101);
    expect("the load is decided", gimbuka_compliance(room + 1, room[0], room + 14, room[13], room + 39, room[38], work, LENGTH(work), out,
                                                     LENGTH(out), &number, &combination, &words) == 2 && number == 1 && combination == 1);

    if (!failed) puts("every operation called from C: as it must be");
    return failed;
}
