/* ask.c: compiles the policy on standard input, tests its table once, and asks of the table alone: is the first user's context valid, may it
 * change, and may it relabel a lease file?
 *
 * usage: ask-c <policy.cil          prints the names and the answers, or the refusal with its line
 * examples/build builds it; the library is proved, this program is only compiled. */
#include <inttypes.h>
#include <stdio.h>
#include <string.h>

#include "tegzhumbi.h"

/* One byte more than a text may have, so that a longer one is seen. */
static uint8_t text[TEGZHUMBI_LONGEST_TEXT + 1];
static uint8_t table[TEGZHUMBI_LONGEST_TABLE];
static size_t length;
static tegzhumbi_summary summary;

/* Prints the name of a number, by its sort. */
static void print_name(const char *what, uint64_t sort, uint64_t number) {
    tegzhumbi_part name = tegzhumbi_sound_name(table, length, sort, number);
    printf("%s%.*s", what, (int)name.length, (const char *)table + name.start);
}

/* The first number of the set at a place of a body; a number past all of its bits where it has none. */
static uint64_t first_of(uint64_t body, uint64_t place) {
    tegzhumbi_part set = tegzhumbi_sound_entry(table, length, body, place);
    uint64_t bits = 8 * (uint64_t)set.length;
    for (uint64_t number = 0; number < bits; number++)
        if (table[set.start + number / 8] >> (number % 8) & 1) return number;
    return bits;
}

/* The number of a name, by its sort; one that nothing has where the table has no such name. */
static uint64_t number_of(uint64_t sort, const char *wanted) {
    for (uint64_t number = 0; number < summary.numbers[sort]; number++) {
        tegzhumbi_part name = tegzhumbi_sound_name(table, length, sort, number);
        if (name.length == strlen(wanted) && memcmp(table + name.start, wanted, name.length) == 0) return number;
    }
    return UINT64_MAX;
}

/* Prints what a change or a relabelling is answered. */
static void print_answer(tegzhumbi_answer answer) {
    if (answer.outcome == TEGZHUMBI_GRANTED)
        printf(": granted, %" PRIu32 " consulted\n", answer.consulted);
    else if (answer.outcome == TEGZHUMBI_REFUSED)
        printf(": refused %" PRIu32 ", %s\n", answer.number, tegzhumbi_refusal_text(answer.number));
    else if (answer.number == TEGZHUMBI_DENIAL_CONSTRAINT_FAILS || answer.number == TEGZHUMBI_DENIAL_RELABEL_FAILS)
        printf(": denied %" PRIu32 ", %s: number %" PRIu32 ", %" PRIu32 " consulted\n", answer.number, tegzhumbi_denial_text(answer.number),
               answer.constraint, answer.consulted);
    else
        printf(": denied %" PRIu32 ", %s\n", answer.number, tegzhumbi_denial_text(answer.number));
}

/* Asks for the first user what a context of its first role and that role's first type may do to itself, by each permission of the first class. */
static void ask_first_user(void) {
    if (summary.numbers[TEGZHUMBI_SORT_USER] == 0) return;
    uint64_t role = first_of(TEGZHUMBI_BODY_USER_ROLES, 0), type = first_of(TEGZHUMBI_BODY_ROLE_TYPES, role);
    print_name("context ", TEGZHUMBI_SORT_USER, 0);
    print_name(" ", TEGZHUMBI_SORT_ROLE, role);
    print_name(" ", TEGZHUMBI_SORT_TYPE, type);
    tegzhumbi_answer valid = tegzhumbi_sound_valid(table, length, &summary, 0, role, type);
    printf(": %s\n", valid.outcome == TEGZHUMBI_GRANTED ? "valid" : valid.outcome == TEGZHUMBI_DENIED ? "not valid" : "refused");

    for (uint64_t permission = 0; permission < summary.numbers[TEGZHUMBI_SUMMARY_PERMISSIONS]; permission++) {
        print_name("class ", TEGZHUMBI_SORT_CLASS, 0);
        print_name(" permission ", TEGZHUMBI_SORT_PERMISSION, permission);
        print_answer(tegzhumbi_sound_change(table, length, &summary, 0, role, type, 0, role, type, 0, permission));
    }
    tegzhumbi_answer next = tegzhumbi_sound_new_role(table, length, &summary, role, type, 0);
    if (next.outcome == TEGZHUMBI_GRANTED) print_name("new role ", TEGZHUMBI_SORT_ROLE, next.number);
    printf("\n");
}

/* Asks whether a lease file of the first user, a draft, may be relabelled as signed by a process of the same user in a role. A name that the table does
 * not have becomes a number that it does not declare, and the answer is refusal 12. */
static void sign_lease(const char *role_name, const char *type_name) {
    uint64_t lease = number_of(TEGZHUMBI_SORT_CLASS, "lease"), object = number_of(TEGZHUMBI_SORT_ROLE, "object_r");
    uint64_t draft = number_of(TEGZHUMBI_SORT_TYPE, "draft_lease_t"), signed_lease = number_of(TEGZHUMBI_SORT_TYPE, "signed_lease_t");
    uint64_t role = number_of(TEGZHUMBI_SORT_ROLE, role_name), type = number_of(TEGZHUMBI_SORT_TYPE, type_name);
    printf("lease signed by a %s", role_name);
    print_answer(tegzhumbi_sound_relabel(table, length, &summary, lease, 0, object, draft, 0, object, signed_lease, 0, role, type));
}

int main(void) {
    size_t text_length = fread(text, 1, sizeof text, stdin);
    tegzhumbi_compiled compiled = tegzhumbi_compile(text, text_length, table, sizeof table);
    if (compiled.number != 0) {
        printf("line %" PRIu32 ": %s (%" PRIu32 " at %" PRIu32 ")\n", compiled.line, tegzhumbi_refusal_text(compiled.number), compiled.number,
               compiled.place);
        return 1;
    }
    length = compiled.place;
    printf("accepted %" PRIu32 " bytes\n", compiled.place);
    /* a table that compile wrote is sound; one that comes from elsewhere may be refused here */
    if (tegzhumbi_summarize(table, length, &summary) != 1) return 1;
    ask_first_user();
    sign_lease("clerk", "desk_t");
    sign_lease("registrar", "roll_t");
    return 0;
}
