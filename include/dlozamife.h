/* The certificate linter and the deck's writer, for programs that link libexport.a (x86-64 Linux).
 *
 * What is said here of answers and of the lent room is proved, for every certificate, issuer, profile, number and room
 * (crates/export); the few functions below that take an answer or a report apart are plain C.
 *
 *     tools/archive                        writes target/staticlib/libexport.a (crates/export_c)
 *     cc -I include program.c target/staticlib/libexport.a
 *
 * examples/c has a program that uses it. A program in Rust declares the two functions in an extern "C" block, with
 * *const u8 or *mut u8 and usize for each pointer and its length, u8, u32 and u64.
 *
 * THE CALLER SEES TO IT that no pointer is null, that each points to as many octets as the length behind it says, that
 * the room is apart from the certificate and the issuer, and that nothing else writes to any of them during the call.
 * Where a length is 0, nothing is read or written there. There is nothing else to see to: any octets may be passed, any
 * profile and any number. A call always ends. It keeps nothing, allocates nothing, touches no file, and takes some 20,000
 * octets of the stack; calls on other buffers may run beside it.
 *
 * AN ANSWER is one number. Below 2^63 it is a count. From there on it is a refusal: dlozamife_is_refused says so, and
 * dlozamife_number, dlozamife_side and dlozamife_place say which, on which side and where. A refused call has changed no
 * octet of the room. The first refusal that applies is given:
 *
 *     1  the certificate has no octets, or more than 8,192         side 1, place 0
 *     2  the issuer's certificate has no octets, or more           side 2, place 0
 *     3  the profile is not 1, 2, 3 or 4                           side 0, place 0
 *     4  not sound DER                                             its side, the first faulty element
 *     5  a SET whose members do not ascend                         its side, the first such SET
 *     6  not a certificate                                         its side, the first element not allowed there
 *     8  the record number is 0                                    side 0, place 0
 *     7  too little room                                           side 0, place 0
 *
 * 4, 5 and 6 are tried on the certificate (side 1), then on the issuer's (side 2). A place is where an element starts,
 * counted in octets from 0. docs/RULES.md has all numbers in plain words.
 */
#ifndef DLOZAMIFE_H
#define DLOZAMIFE_H

#include <stddef.h>
#include <stdint.h>

#ifdef __cplusplus
extern "C" {
#endif

/* Profiles: servers with domain and with organization validation, delegated OCSP responders, and subordinate CAs. */
#define DLOZAMIFE_DOMAIN 1
#define DLOZAMIFE_ORGANIZATION 2
#define DLOZAMIFE_RESPONDER 3
#define DLOZAMIFE_SUBORDINATE 4

/* The most octets of a certificate. */
#define DLOZAMIFE_MOST 8192

/* The octets of a finding in a report, and a room that the program which lists decks lends for a report. */
#define DLOZAMIFE_FINDING 8
#define DLOZAMIFE_REPORT_ROOM 65536

/* The level of a finding: what its rule asks for must be so, or should. */
#define DLOZAMIFE_MUST 1
#define DLOZAMIFE_SHOULD 2

/* The octets of a block, and a room for the blocks of any record: 33 of them. */
#define DLOZAMIFE_BLOCK 512
#define DLOZAMIFE_RECORD_ROOM 16896

/* Lints a certificate with its issuer's, both in DER, under a profile. Answers how many findings there are, and writes
 * them to the front of the room, eight octets each; the room behind them stays as it was. Every broken rule is found, once
 * for each offending item, and none besides: 0 says that no judged rule is broken, of either level. Findings rise by rule,
 * then by start, and no two are equal. Refusals: 1 to 6, and 7 where the room is shorter than eight octets a finding. */
uint64_t dlozamife_lint(const uint8_t *certificate, size_t certificate_length, const uint8_t *issuer,
                        size_t issuer_length, uint8_t profile, uint8_t *room, size_t room_length);

/* Writes a record of a deck: its number, the profile, and the certificate with its issuer's. Answers how many blocks it
 * takes, and writes them to the front of the room, 512 octets each; the room behind them stays as it was. To add the
 * record to a deck, append these octets. What the certificates hold is not looked at. Refusals: 1, 2, 3, 8, and 7 where
 * the room is shorter than 512 octets a block. */
uint64_t dlozamife_write_record(uint32_t number, uint8_t profile, const uint8_t *certificate, size_t certificate_length,
                                const uint8_t *issuer, size_t issuer_length, uint8_t *room, size_t room_length);

/* Whether an answer is a refusal, and no count. */
static inline int dlozamife_is_refused(uint64_t answer) {
    return answer >> 63 != 0;
}

/* A refusal's number. */
static inline unsigned dlozamife_number(uint64_t answer) {
    return (unsigned)(answer >> 32 & 0xFFFF);
}

/* Its side: 1 the certificate, 2 the issuer's, 0 neither. */
static inline unsigned dlozamife_side(uint64_t answer) {
    return (unsigned)(answer >> 16 & 0xFFFF);
}

/* Its place: where an element of that side starts. */
static inline unsigned dlozamife_place(uint64_t answer) {
    return (unsigned)(answer & 0xFFFF);
}

/* The number of two octets, the high one first. */
static inline unsigned dlozamife_pair(const uint8_t *octets) {
    return (unsigned)octets[0] << 8 | octets[1];
}

/* Of finding i of a report, counted from 0 and below the answer: the rule that is broken, the start and the whole length of
 * the element of the certificate that breaks it, or that encloses what is missing, and the level of the rule. */
static inline unsigned dlozamife_rule(const uint8_t *room, size_t i) {
    return dlozamife_pair(room + DLOZAMIFE_FINDING * i);
}

static inline unsigned dlozamife_start(const uint8_t *room, size_t i) {
    return dlozamife_pair(room + DLOZAMIFE_FINDING * i + 2);
}

static inline unsigned dlozamife_length(const uint8_t *room, size_t i) {
    return dlozamife_pair(room + DLOZAMIFE_FINDING * i + 4);
}

static inline unsigned dlozamife_level(const uint8_t *room, size_t i) {
    return dlozamife_pair(room + DLOZAMIFE_FINDING * i + 6);
}

#ifdef __cplusplus
}
#endif

#endif
