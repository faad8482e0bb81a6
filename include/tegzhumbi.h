/* Tegzhumbi: access policies compiled to tables, and questions answered from a table alone.
 *
 * The order of this file is that of a server: compile a text, or load a table that was kept; test it once; ask. docs/SERVER-GUIDE.md goes the same
 * way with examples.
 *
 * Every function is proved to give the numbers that the library's definitions give, for every text, every table and all numbers. What C adds is the
 * caller's to keep:
 *
 * - A pointer is valid for the length that goes with it (for a length of 0 too: pass the address of some byte).
 * - The table lent to tegzhumbi_compile does not overlap the text, and the summary lent to tegzhumbi_summarize does not overlap the table.
 * - The functions named tegzhumbi_sound_.. are asked of a sound table, and with the summary that tegzhumbi_summarize made of exactly these bytes, both
 *   unchanged since. With anything else such a call still ends, reads nothing outside of what it is lent and writes nothing, but what it answers means
 *   nothing: it may grant, and a part that it tells may lie outside of the table.
 *
 * No function keeps a pointer, allocates memory, writes to a const pointer or has a state of its own, so that any number of threads may ask one table at
 * the same time, while nobody writes to it or to its summary. tegzhumbi_compile runs within a stack of 448 KB, and every other function within 24 KB.
 * That is measured, with no part in what is proved. Of the C library only memcpy and memset are called. */
#ifndef TEGZHUMBI_H
#define TEGZHUMBI_H

#include <stddef.h>
#include <stdint.h>

#ifdef __cplusplus
extern "C" {
#endif

/* ---- how long and how many */

/* the most bytes of a text, and of a table */
#define TEGZHUMBI_LONGEST_TEXT 65535
#define TEGZHUMBI_LONGEST_TABLE 186068

/* how many numbers a summary has */
#define TEGZHUMBI_SUMMARY_LENGTH 43

/* the most that one table may have: attributes in each of their three families, permissions in each class. Numbers count from 0. */
#define TEGZHUMBI_MAX_USERS 128
#define TEGZHUMBI_MAX_ROLES 128
#define TEGZHUMBI_MAX_TYPES 512
#define TEGZHUMBI_MAX_ATTRIBUTES 64
#define TEGZHUMBI_MAX_CLASSES 32
#define TEGZHUMBI_MAX_PERMISSIONS 32

/* ---- numbers in answers and questions */

/* The refusals: 1 to 10 of a text, 11 and 12 of a question. tegzhumbi_refusal_text has a sentence for each. */
enum tegzhumbi_refusal {
    TEGZHUMBI_REFUSAL_TEXT_TOO_LONG = 1,
    TEGZHUMBI_REFUSAL_WRONG_BYTE = 2,
    TEGZHUMBI_REFUSAL_NO_FORM = 3,
    TEGZHUMBI_REFUSAL_DECLARED_AGAIN = 4,
    TEGZHUMBI_REFUSAL_NAME_UNDECLARED = 5,
    TEGZHUMBI_REFUSAL_MAXIMUM_PASSED = 6,
    TEGZHUMBI_REFUSAL_STACK_TOO_SMALL = 7,
    TEGZHUMBI_REFUSAL_CYCLE = 8,
    TEGZHUMBI_REFUSAL_CLASH = 9,
    TEGZHUMBI_REFUSAL_MEMORY_TOO_SHORT = 10,
    TEGZHUMBI_REFUSAL_NOT_SOUND = 11,
    TEGZHUMBI_REFUSAL_NUMBER_UNDECLARED = 12
};

/* What a question comes to */
enum tegzhumbi_outcome {
    TEGZHUMBI_GRANTED = 0, /* or valid; or the new role is told */
    TEGZHUMBI_DENIED = 1,  /* or not valid */
    TEGZHUMBI_REFUSED = 2
};

/* The denials of a change (1 to 4) and of a relabelling (1, 2, 5, 6), whose source is the old context and whose target is the new one.
 * tegzhumbi_denial_text has a sentence for each. */
enum tegzhumbi_denial {
    TEGZHUMBI_DENIAL_SOURCE_NOT_VALID = 1,
    TEGZHUMBI_DENIAL_TARGET_NOT_VALID = 2,
    TEGZHUMBI_DENIAL_ROLE_MAY_NOT_CHANGE = 3,
    TEGZHUMBI_DENIAL_CONSTRAINT_FAILS = 4,
    TEGZHUMBI_DENIAL_PROCESS_NOT_VALID = 5,
    TEGZHUMBI_DENIAL_RELABEL_FAILS = 6
};

/* The sorts of names */
enum tegzhumbi_sort {
    TEGZHUMBI_SORT_USER = 0,
    TEGZHUMBI_SORT_ROLE = 1,
    TEGZHUMBI_SORT_TYPE = 2,
    TEGZHUMBI_SORT_USER_ATTRIBUTE = 3,
    TEGZHUMBI_SORT_ROLE_ATTRIBUTE = 4,
    TEGZHUMBI_SORT_TYPE_ATTRIBUTE = 5,
    TEGZHUMBI_SORT_CLASS = 6,
    TEGZHUMBI_SORT_PERMISSION = 7 /* its number is class x TEGZHUMBI_MAX_PERMISSIONS + its place in the class */
};

/* The bodies of a table that have entries. In a set, number n is bit n % 8 (the lowest is 0) of byte n / 8. Numbers of more than one byte have the lowest
 * byte first. */
enum tegzhumbi_body {
    TEGZHUMBI_BODY_USER_ROLES = 2,     /* for each user the set of its roles, 16 bytes */
    TEGZHUMBI_BODY_ROLE_TYPES = 3,     /* for each role the set of its types, 64 bytes */
    TEGZHUMBI_BODY_ROLE_ROLES = 4,     /* for each role the set of the roles that it may become, 16 bytes */
    TEGZHUMBI_BODY_TRANSITIONS = 5,    /* set of roles 16, set of types 64, class 1, new role 1 */
    TEGZHUMBI_BODY_CONSTRAINTS = 6,    /* class 2, mask of permissions 4, first row 2, number of rows 2 */
    TEGZHUMBI_BODY_ROWS = 7,           /* the rows of constraints, 6 bytes */
    TEGZHUMBI_BODY_ATTRIBUTE_SETS = 8, /* the sets of userattributes 16, then of roleattributes 16, then of typeattributes 64 */
    TEGZHUMBI_BODY_RELABELS = 9,       /* the validatetrans statements: class 2, number of rows 2 */
    TEGZHUMBI_BODY_RELABEL_ROWS = 10   /* their rows, 6 bytes */
};

/* ---- 1. compile a text */

/* number 0: accepted, place is the length of the table, and line is 0; else the refusal's number, 1 to 10, its place, and the line of the text that the
 * place is in, counted from 1; 10 has line 0, since its place is a length: the one that is needed */
typedef struct {
    uint32_t number;
    uint32_t place;
    uint32_t line;
} tegzhumbi_compiled;

/* Compiles a text into the lent table. On a refusal the table holds what it held before; else the bytes past its length do. */
tegzhumbi_compiled tegzhumbi_compile(const uint8_t *text, size_t text_len, uint8_t *table, size_t table_len);

/* ---- 2. test a table, once */

/* What tegzhumbi_summarize says of a table, for the questions of part 3. Read it as you like, at the places below; write to it and it is a summary no
 * more. */
typedef struct {
    uint32_t numbers[TEGZHUMBI_SUMMARY_LENGTH];
} tegzhumbi_summary;

/* The places in a summary. At the number of each sort but permissions, 0 to 6: how many of them the table has. Then numbers of names that are treated
 * apart, for which a maximum stands, which no table declares, where there is no such name; and the permissions. */
enum tegzhumbi_summary_place {
    TEGZHUMBI_SUMMARY_OBJECT = 7,         /* the number of the role object_r, or TEGZHUMBI_MAX_ROLES */
    TEGZHUMBI_SUMMARY_PROCESS = 8,        /* the number of the class process, or TEGZHUMBI_MAX_CLASSES */
    TEGZHUMBI_SUMMARY_TRANSITION = 9,     /* the place of its permission transition, or TEGZHUMBI_MAX_PERMISSIONS */
    TEGZHUMBI_SUMMARY_DYNTRANSITION = 10, /* the place of its permission dyntransition, or TEGZHUMBI_MAX_PERMISSIONS */
    TEGZHUMBI_SUMMARY_PERMISSIONS = 11    /* from here on, for each of TEGZHUMBI_MAX_CLASSES classes: how many permissions it has */
};

/* 1: the bytes are a sound table, with anything after it, and *summary is its summary; 0: they are not, and *summary is as it was */
uint32_t tegzhumbi_summarize(const uint8_t *table, size_t table_len, tegzhumbi_summary *summary);

/* The same without a summary: 1: the bytes are a sound table, with anything after it; 0: they are not */
uint32_t tegzhumbi_sound(const uint8_t *table, size_t table_len);

/* ---- 3. ask a table that was tested, with its summary */

/* outcome: TEGZHUMBI_GRANTED, TEGZHUMBI_DENIED or TEGZHUMBI_REFUSED. number: that of the denial or the refusal, or the new role; else 0 (that a context
 * is not valid has no number).
 * constraint: the number of the statement that fails, for denials 4 (among the constrain statements) and 6 (among the validatetrans statements), from 0
 * in the order of the text; else 0. consulted: how many statements were asked, the one that fails included; 0 for all other denials and for refusals */
typedef struct {
    uint32_t outcome;
    uint32_t number;
    uint32_t constraint;
    uint32_t consulted;
} tegzhumbi_answer;

/* Is the context valid? The role is among the user's and the type among the role's, or the role is named object_r. Here and below the only refusal is 12,
 * a number that the table does not declare. */
tegzhumbi_answer tegzhumbi_sound_valid(const uint8_t *table, size_t table_len, const tegzhumbi_summary *summary, uint64_t user, uint64_t role,
                                       uint64_t type);

/* May the source become the target, or do to it what the permission, by its place in the class, names? Denials in order: 1 the source is not valid, 2 the
 * target is not, 3 the role may not change so (asked for the class process, its permissions transition and dyntransition, and where the roles differ),
 * 4 the first constrain statement that fails. */
tegzhumbi_answer tegzhumbi_sound_change(const uint8_t *table, size_t table_len, const tegzhumbi_summary *summary, uint64_t source_user,
                                        uint64_t source_role, uint64_t source_type, uint64_t target_user, uint64_t target_role,
                                        uint64_t target_type, uint64_t class_number, uint64_t permission);

/* May the process relabel a file of the class from the old context to the new one? Denials in order: 1 the old context is not valid, 2 the new one is
 * not, 5 the process is not, 6 the first validatetrans statement that fails. */
tegzhumbi_answer tegzhumbi_sound_relabel(const uint8_t *table, size_t table_len, const tegzhumbi_summary *summary, uint64_t class_number,
                                         uint64_t old_user, uint64_t old_role, uint64_t old_type, uint64_t new_user, uint64_t new_role,
                                         uint64_t new_type, uint64_t process_user, uint64_t process_role, uint64_t process_type);

/* The role of a new process: that of the first matching transition, else the role given. number is the role where outcome is TEGZHUMBI_GRANTED. It is a
 * proposal; the change is still asked. */
tegzhumbi_answer tegzhumbi_sound_new_role(const uint8_t *table, size_t table_len, const tegzhumbi_summary *summary, uint64_t role, uint64_t type,
                                          uint64_t class_number);

/* number 0: the part is the length bytes from table + start on; else the refusal's number, and start and length are 0 */
typedef struct {
    uint32_t number;
    uint32_t start;
    uint32_t length;
} tegzhumbi_part;

/* The name of a number of a sort: its bytes, without a 0 after them */
tegzhumbi_part tegzhumbi_sound_name(const uint8_t *table, size_t table_len, uint64_t sort, uint64_t number);

/* The entry of a body from 2 on (to 8 in a table of edition 1, to 10 in one of edition 2), by its place there, from 0; 12: there is no such entry */
tegzhumbi_part tegzhumbi_sound_entry(const uint8_t *table, size_t table_len, uint64_t body, uint64_t place);

/* ---- the same questions on any bytes: each tests the whole table first, and is refused with 11 where it is not sound */

tegzhumbi_answer tegzhumbi_valid(const uint8_t *table, size_t table_len, uint64_t user, uint64_t role, uint64_t type);

tegzhumbi_answer tegzhumbi_change(const uint8_t *table, size_t table_len, uint64_t source_user, uint64_t source_role, uint64_t source_type,
                                  uint64_t target_user, uint64_t target_role, uint64_t target_type, uint64_t class_number,
                                  uint64_t permission);

tegzhumbi_answer tegzhumbi_relabel(const uint8_t *table, size_t table_len, uint64_t class_number, uint64_t old_user, uint64_t old_role,
                                   uint64_t old_type, uint64_t new_user, uint64_t new_role, uint64_t new_type, uint64_t process_user,
                                   uint64_t process_role, uint64_t process_type);

tegzhumbi_answer tegzhumbi_new_role(const uint8_t *table, size_t table_len, uint64_t role, uint64_t type, uint64_t class_number);

tegzhumbi_part tegzhumbi_name(const uint8_t *table, size_t table_len, uint64_t sort, uint64_t number);

tegzhumbi_part tegzhumbi_entry(const uint8_t *table, size_t table_len, uint64_t body, uint64_t place);

/* ---- 4. show a refusal or a denial to a person: one sentence, without a capital or a full stop, for each number */

static inline const char *tegzhumbi_refusal_text(uint32_t number) {
    switch (number) {
    case TEGZHUMBI_REFUSAL_TEXT_TOO_LONG:
        return "the text is longer than 65,535 bytes";
    case TEGZHUMBI_REFUSAL_WRONG_BYTE:
        return "a byte that belongs nowhere, a bad or long name, or parentheses that do not match";
    case TEGZHUMBI_REFUSAL_NO_FORM:
        return "not a statement or block of a known form";
    case TEGZHUMBI_REFUSAL_DECLARED_AGAIN:
        return "declared again: a name in its family, a permission in its class, or a block";
    case TEGZHUMBI_REFUSAL_NAME_UNDECLARED:
        return "name not declared before its use, or of the wrong sort";
    case TEGZHUMBI_REFUSAL_MAXIMUM_PASSED:
        return "more than the maximum: of things of this sort, of rows, of levels of blocks, or of bytes of a full name";
    case TEGZHUMBI_REFUSAL_STACK_TOO_SMALL:
        return "the expression needs more than five values on the stack";
    case TEGZHUMBI_REFUSAL_CYCLE:
        return "the sets of this attribute mention it, directly or through others";
    case TEGZHUMBI_REFUSAL_CLASH:
        return "this role transition clashes with an earlier one";
    case TEGZHUMBI_REFUSAL_MEMORY_TOO_SHORT:
        return "the lent memory is shorter than the table";
    case TEGZHUMBI_REFUSAL_NOT_SOUND:
        return "not a sound table";
    case TEGZHUMBI_REFUSAL_NUMBER_UNDECLARED:
        return "a number that the table does not declare";
    default:
        return "there is no refusal of this number";
    }
}

static inline const char *tegzhumbi_denial_text(uint32_t number) {
    switch (number) {
    case TEGZHUMBI_DENIAL_SOURCE_NOT_VALID:
        return "the source context, or the old one, is not valid";
    case TEGZHUMBI_DENIAL_TARGET_NOT_VALID:
        return "the target context, or the new one, is not valid";
    case TEGZHUMBI_DENIAL_ROLE_MAY_NOT_CHANGE:
        return "the role may not change so";
    case TEGZHUMBI_DENIAL_CONSTRAINT_FAILS:
        return "a constraint fails";
    case TEGZHUMBI_DENIAL_PROCESS_NOT_VALID:
        return "the process's context is not valid";
    case TEGZHUMBI_DENIAL_RELABEL_FAILS:
        return "a validatetrans statement fails";
    default:
        return "there is no denial of this number";
    }
}

#ifdef __cplusplus
}
#endif

#endif
