/* Prints the findings of a certificate: lint_file PROFILE CERTIFICATE ISSUER, where the last two name files in DER.
 *
 * The exit status is 0 where no rule is broken, 1 where there are findings, 2 where the call is refused, and 3 where the
 * arguments are no such three or a file cannot be read.
 */
#include <stdio.h>
#include <stdlib.h>

#include "dlozamife.h"

enum { CLEAN = 0, BROKEN = 1, REFUSED = 2, UNREADABLE = 3 };

/* One octet more than a certificate may have, so that a longer file is refused and not cut short. */
enum { SIDE = DLOZAMIFE_MOST + 1 };

/* Reads the file of that name, or says why it cannot be read. */
static int load(const char *name, uint8_t *side, size_t *length) {
    FILE *file = fopen(name, "rb");
    if (file == NULL) {
        perror(name);
        return 0;
    }
    *length = fread(side, 1, SIDE, file);
    int good = !ferror(file);
    if (!good) {
        perror(name);
    }
    fclose(file);
    return good;
}

/* A profile past 255 counts as 255: neither exists. */
static uint8_t profile_in(const char *text) {
    unsigned long profile = strtoul(text, NULL, 10);
    return (uint8_t)(profile < 255 ? profile : 255);
}

static void print_refusal(uint64_t answer) {
    printf("refused %u side %u at %u\n", dlozamife_number(answer), dlozamife_side(answer), dlozamife_place(answer));
}

static void print_findings(uint64_t count, const uint8_t *report) {
    printf("findings %llu\n", (unsigned long long)count);
    for (size_t i = 0; i < count; i++) {
        printf("  %u at %u length %u %s\n", dlozamife_rule(report, i), dlozamife_start(report, i),
               dlozamife_length(report, i), dlozamife_level(report, i) == DLOZAMIFE_SHOULD ? "should" : "must");
    }
}

int main(int count, char **arguments) {
    static uint8_t certificate[SIDE], issuer[SIDE], room[DLOZAMIFE_REPORT_ROOM];
    size_t certificate_length, issuer_length;
    if (count != 4) {
        fputs("usage: lint_file PROFILE CERTIFICATE ISSUER\n", stderr);
        return UNREADABLE;
    }
    if (!load(arguments[2], certificate, &certificate_length) || !load(arguments[3], issuer, &issuer_length)) {
        return UNREADABLE;
    }
    uint64_t answer = dlozamife_lint(certificate, certificate_length, issuer, issuer_length, profile_in(arguments[1]),
                                     room, sizeof room);
    if (dlozamife_is_refused(answer)) {
        print_refusal(answer);
        return REFUSED;
    }
    print_findings(answer, room);
    return answer == 0 ? CLEAN : BROKEN;
}
