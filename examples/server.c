/* server.c: a server in small, in the order of docs/SERVER-GUIDE.md: it compiles its policy at the start, or loads the table that it kept; tests the table
 * once; answers requests by names; and takes a new policy while it runs.
 *
 * usage: server POLICY TABLE <requests     POLICY: the text; TABLE: the file that the table is kept in. One request a line:
 *     valid USER ROLE TYPE
 *     change USER ROLE TYPE USER ROLE TYPE CLASS PERMISSION           of the source, then of the target
 *     relabel CLASS USER ROLE TYPE USER ROLE TYPE USER ROLE TYPE      of the old context, the new one, and the process
 *     newrole ROLE TYPE CLASS
 *     policy FILE                                                     goes on by the policy in this file, if it is accepted
 * examples/build builds it; the library is proved, this program is only compiled. */
#include <inttypes.h>
#include <stdio.h>
#include <string.h>

#include "tegzhumbi.h"

/* A table with its length and its summary: what is asked. The three change together or not at all. */
typedef struct {
    uint8_t table[TEGZHUMBI_LONGEST_TABLE];
    size_t length;
    tegzhumbi_summary summary;
} policy;

typedef struct {
    uint64_t user, role, type;
} context;

/* Two memories: the policy that is asked, and one for the next, so that the first stays until the next is accepted. */
static policy memory[2];
static policy *current = &memory[0], *next = &memory[1];

/* What no number of a table is */
static const uint64_t none = UINT64_MAX;

/* ---- compile, keep, load */

/* The policy that was made next is asked from now on. A server with threads does this where no thread is asking. */
static void use_next(void) {
    policy *old = current;
    current = next;
    next = old;
}

/* Reads at most so many bytes of a file; 0: it cannot be read. That is not an empty text, which is a policy. */
static int read_file(const char *path, uint8_t *bytes, size_t most, size_t *length) {
    FILE *file = fopen(path, "rb");
    if (file == NULL) return 0;
    *length = fread(bytes, 1, most, file);
    int whole = !ferror(file);
    fclose(file);
    return whole;
}

/* Compiles the text in a file into the next memory; 0: refused, and printed as path:line, which editors know. */
static int compile_file(const char *path) {
    static uint8_t text[TEGZHUMBI_LONGEST_TEXT + 1]; /* one byte more than a text may have, so that a longer one is seen */
    size_t length = 0;
    if (!read_file(path, text, sizeof text, &length)) {
        printf("%s: cannot be read\n", path);
        return 0;
    }
    tegzhumbi_compiled compiled = tegzhumbi_compile(text, length, next->table, sizeof next->table);
    if (compiled.number != 0) {
        printf("%s:%" PRIu32 ": %s (%" PRIu32 " at %" PRIu32 ")\n", path, compiled.line, tegzhumbi_refusal_text(compiled.number),
               compiled.number, compiled.place);
        return 0;
    }
    next->length = compiled.place;
    printf("%s: accepted, %" PRIu32 " bytes\n", path, compiled.place);
    return tegzhumbi_summarize(next->table, next->length, &next->summary) == 1;
}

/* Loads a kept table into the next memory; 0: there is none, or it is no sound table. */
static int load_table(const char *path) {
    if (!read_file(path, next->table, sizeof next->table, &next->length)) return 0;
    if (tegzhumbi_summarize(next->table, next->length, &next->summary) != 1) {
        printf("kept table: %s\n", tegzhumbi_refusal_text(TEGZHUMBI_REFUSAL_NOT_SOUND));
        return 0;
    }
    printf("kept table: loaded, %u bytes\n", (unsigned)next->length);
    return 1;
}

/* Keeps the table that is asked. A file that is cut short is no sound table, and is not loaded at the next start. */
static int keep_table(const char *path) {
    FILE *file = fopen(path, "wb");
    if (file == NULL) return 0;
    int written = fwrite(current->table, 1, current->length, file) == current->length;
    return fclose(file) == 0 && written;
}

/* ---- ask */

/* Whether the name of a number is this one */
static int is_named(uint64_t sort, uint64_t number, const char *wanted) {
    tegzhumbi_part name = tegzhumbi_sound_name(current->table, current->length, sort, number);
    return name.number == 0 && name.length == strlen(wanted) && memcmp(current->table + name.start, wanted, name.length) == 0;
}

/* The number of a name among so many numbers of a sort, counted from the first of them; none where none has it. */
static uint64_t number_from(uint64_t sort, uint64_t first, uint64_t count, const char *wanted) {
    for (uint64_t number = 0; number < count; number++)
        if (is_named(sort, first + number, wanted)) return number;
    return none;
}

static uint64_t number_of(uint64_t sort, const char *wanted) {
    return number_from(sort, 0, current->summary.numbers[sort], wanted);
}

/* The place of a permission in its class */
static uint64_t permission_of(uint64_t class_number, const char *wanted) {
    if (class_number >= TEGZHUMBI_MAX_CLASSES) return none;
    uint64_t count = current->summary.numbers[TEGZHUMBI_SUMMARY_PERMISSIONS + class_number];
    return number_from(TEGZHUMBI_SORT_PERMISSION, class_number * TEGZHUMBI_MAX_PERMISSIONS, count, wanted);
}

/* The context of three names */
static context context_of(char **names) {
    context found = {number_of(TEGZHUMBI_SORT_USER, names[0]), number_of(TEGZHUMBI_SORT_ROLE, names[1]), number_of(TEGZHUMBI_SORT_TYPE, names[2])};
    return found;
}

/* Prints an answer: the sentence of a refusal or a denial with its number, and for a statement that fails which one it is. */
static void print_answer(tegzhumbi_answer answer) {
    if (answer.outcome == TEGZHUMBI_REFUSED)
        printf("refused %" PRIu32 ", %s\n", answer.number, tegzhumbi_refusal_text(answer.number));
    else if (answer.outcome == TEGZHUMBI_GRANTED)
        printf("granted, %" PRIu32 " consulted\n", answer.consulted);
    else if (answer.number == TEGZHUMBI_DENIAL_CONSTRAINT_FAILS || answer.number == TEGZHUMBI_DENIAL_RELABEL_FAILS)
        printf("denied %" PRIu32 ", %s: number %" PRIu32 ", %" PRIu32 " consulted\n", answer.number, tegzhumbi_denial_text(answer.number),
               answer.constraint, answer.consulted);
    else
        printf("denied %" PRIu32 ", %s\n", answer.number, tegzhumbi_denial_text(answer.number));
}

static void ask_valid(char **names) {
    context asked = context_of(names);
    tegzhumbi_answer answer = tegzhumbi_sound_valid(current->table, current->length, &current->summary, asked.user, asked.role, asked.type);
    if (answer.outcome == TEGZHUMBI_REFUSED)
        print_answer(answer);
    else
        printf("%s\n", answer.outcome == TEGZHUMBI_GRANTED ? "valid" : "not valid");
}

static void ask_change(char **names) {
    context source = context_of(names), target = context_of(names + 3);
    uint64_t class_number = number_of(TEGZHUMBI_SORT_CLASS, names[6]);
    print_answer(tegzhumbi_sound_change(current->table, current->length, &current->summary, source.user, source.role, source.type, target.user,
                                        target.role, target.type, class_number, permission_of(class_number, names[7])));
}

static void ask_relabel(char **names) {
    uint64_t class_number = number_of(TEGZHUMBI_SORT_CLASS, names[0]);
    context from = context_of(names + 1), to = context_of(names + 4), process = context_of(names + 7);
    print_answer(tegzhumbi_sound_relabel(current->table, current->length, &current->summary, class_number, from.user, from.role, from.type, to.user,
                                         to.role, to.type, process.user, process.role, process.type));
}

static void ask_new_role(char **names) {
    uint64_t role = number_of(TEGZHUMBI_SORT_ROLE, names[0]), type = number_of(TEGZHUMBI_SORT_TYPE, names[1]);
    uint64_t class_number = number_of(TEGZHUMBI_SORT_CLASS, names[2]);
    tegzhumbi_answer answer = tegzhumbi_sound_new_role(current->table, current->length, &current->summary, role, type, class_number);
    if (answer.outcome != TEGZHUMBI_GRANTED) {
        print_answer(answer);
        return;
    }
    tegzhumbi_part name = tegzhumbi_sound_name(current->table, current->length, TEGZHUMBI_SORT_ROLE, answer.number);
    printf("%.*s\n", (int)name.length, (const char *)current->table + name.start);
}

/* ---- requests */

static const struct {
    const char *word;
    size_t names;
    void (*ask)(char **names);
} questions[] = {{"valid", 3, ask_valid}, {"change", 8, ask_change}, {"relabel", 10, ask_relabel}, {"newrole", 3, ask_new_role}};

/* Asks the question of a request, which is its word and names; 0: there is none of that word with so many names. */
static int ask(char **words, size_t count) {
    for (size_t k = 0; k < sizeof questions / sizeof questions[0]; k++) {
        if (strcmp(words[0], questions[k].word) != 0 || count != questions[k].names + 1) continue;
        questions[k].ask(words + 1);
        return 1;
    }
    return 0;
}

/* Cuts a line into words, of which there are at most so many. */
static size_t split(char *line, char **words, size_t most) {
    size_t count = 0;
    for (char *word = strtok(line, " \n"); word != NULL && count < most; word = strtok(NULL, " \n")) words[count++] = word;
    return count;
}

int main(int argc, char **argv) {
    if (argc != 3 || !(load_table(argv[2]) || compile_file(argv[1]))) return 1;
    use_next();
    if (!keep_table(argv[2])) return 1;
    char line[1024], *words[12];
    while (fgets(line, sizeof line, stdin) != NULL) {
        printf("%.*s: ", (int)strcspn(line, "\n"), line);
        size_t count = split(line, words, 12);
        if (count == 2 && strcmp(words[0], "policy") == 0) {
            /* a text that is refused changes nothing: the requests after it are asked of the policy before */
            if (!compile_file(words[1])) continue;
            use_next();
            if (!keep_table(argv[2])) return 1;
        } else if (count == 0 || !ask(words, count)) {
            printf("no such request\n");
        }
    }
    return 0;
}
