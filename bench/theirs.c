/* theirs.c: libsepol's decision for the same question, so many times, on the policy that secilc wrote.
 *
 * usage: theirs change FILE SOURCE TARGET CLASS PERMISSION TIMES
 *        theirs relabel FILE OLD NEW CLASS PROCESS TIMES
 * Prints whether it is allowed and, as its last word, the best time of one decision in nanoseconds. */
#include <sepol/policydb/policydb.h>
#include <sepol/policydb/services.h>
#include <sepol/sepol.h>
#include <stdio.h>
#include <stdlib.h>
#include <string.h>
#include <time.h>

static double now(void) {
    struct timespec t;
    clock_gettime(CLOCK_MONOTONIC, &t);
    return 1e9 * (double)t.tv_sec + (double)t.tv_nsec;
}

static int change(sepol_security_id_t source, sepol_security_id_t target, sepol_security_class_t class, sepol_access_vector_t permission) {
    struct sepol_av_decision decision;
    memset(&decision, 0, sizeof decision);
    if (sepol_compute_av(source, target, class, permission, &decision) < 0) exit(6);
    return (decision.allowed & permission) != 0;
}

/* libsepol offers this decision only together with its reasons as text. */
static int relabel(sepol_security_id_t old, sepol_security_id_t new, sepol_security_id_t process, sepol_security_class_t class) {
    char *reasons = NULL;
    int refused = sepol_validate_transition_reason_buffer(old, new, process, class, &reasons, 0);
    free(reasons);
    return refused == 0;
}

static sepol_security_id_t context(char *name) {
    sepol_security_id_t sid;
    if (sepol_context_to_sid(name, strlen(name) + 1, &sid) < 0) exit(3);
    return sid;
}

int main(int argc, char **argv) {
    if (argc != 8) return 2;
    int relabelling = !strcmp(argv[1], "relabel");
    FILE *file = fopen(argv[2], "rb");
    if (!file || sepol_set_policydb_from_file(file) < 0) return 2;
    sepol_security_id_t source = context(argv[3]), target = context(argv[4]), process = 0;
    sepol_security_class_t class;
    sepol_access_vector_t permission = 0;
    if (sepol_string_to_security_class(argv[5], &class) < 0) return 4;
    if (relabelling) process = context(argv[6]);
    else if (sepol_string_to_av_perm(class, argv[6], &permission) < 0) return 5;
    int allowed = 0;
    double best = 1e18;
    for (int i = 0; i < atoi(argv[7]); i++) {
        double start = now();
        allowed = relabelling ? relabel(source, target, process, class) : change(source, target, class, permission);
        double took = now() - start;
        if (took < best) best = took;
    }
    printf("allowed %d best %.0f\n", allowed, best);
    return 0;
}
