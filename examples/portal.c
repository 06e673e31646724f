/*
 * A portal in C: certificates arrive, a curator's policy with own names stands, an astronomer searches; semesters pass; lists are linked; rows gain
 * epochs; keys are vetted.
 *
 *     bash library
 *     cc -Iinclude examples/portal.c target/staticlib/libcapi.a -o portal && ./portal
 */
#include <stdio.h>
#include "txindurbe.h"

#define ARCHIVE TXB_KEY(0) /* our key: names under it are own names */
#define OBSERVATORY TXB_KEY(1)
#define PARTNER TXB_KEY(2)
#define AUTHORITY TXB_KEY(3)
enum { COMPROMISED = 0, RELEASED = 1, WITHDRAWN = 2, PUBLIC = 10 };
#define WORDS(area) (sizeof(area) / sizeof((area)[0]))

/* Our released list is the observatory's. Public: draw x from our released list, by its name; x is absent from what the observatory withdrew; head x. */
static uint32_t not_withdrawn[] = {
    TXB_EQUAL_WIDTHS, 2, RELEASED, TXB_PLUS, 10, 5, PUBLIC, TXB_PLUS, 15, 23,
    4, 0, OBSERVATORY, RELEASED, TXB_PLUS,
    7, 2,
    1, 4, 0, ARCHIVE, RELEASED, TXB_PLUS, 1, 2, 0,
    4, 1, 1, 0, 4, 0, OBSERVATORY, WITHDRAWN, TXB_MINUS,
    1, 1, 0};

/* Name 0, -, the compromised keys: what an authority says of them. Our released list is the observatory's, and all of it is public. */
static const uint32_t external[] = {
    TXB_EQUAL_WIDTHS, 3, COMPROMISED, TXB_MINUS, 14, 5, RELEASED, TXB_PLUS, 19, 5, PUBLIC, TXB_PLUS, 24, 5,
    4, 0, AUTHORITY, COMPROMISED, TXB_MINUS,
    4, 0, OBSERVATORY, RELEASED, TXB_PLUS,
    4, 0, ARCHIVE, RELEASED, TXB_PLUS};
static uint32_t rewritten[TXB_POLICY_WORDS];

/* The policy that stands, our key, and the search for what the policy calls public. */
static const uint32_t *policy = not_withdrawn;
static size_t policy_words = WORDS(not_withdrawn);
static uint32_t our_key = ARCHIVE;
static const uint32_t everything_public[] = {4, 0, ARCHIVE, PUBLIC, TXB_PLUS};

static uint32_t store[TXB_STORE_WORDS], links[TXB_LINKS_WORDS]; /* both start empty: their counts are 0 */
static uint32_t answer[TXB_ANSWER_WORDS], definitions[TXB_DEFINITIONS_WORDS], scratch[TXB_SCRATCH_WORDS];

/* The clock; the semester that the certificates arriving are for, from the first minute up to the end; the epoch appended to their rows, 0 for none. */
static uint32_t now, first, end, epoch;

/* The minute at which a day begins. */
static uint32_t day(uint32_t year, uint32_t month, uint32_t day_of_month) {
    uint32_t minutes;
    uint32_t number = txb_minutes(year, month, day_of_month, 0, 0, &minutes);
    if (number != 0)
        printf("the date was refused with %u\n", (unsigned)number);
    return minutes;
}

/* The signature has been checked before. */
static void arrives(uint32_t key, uint32_t name, uint32_t polarity, uint32_t atom) {
    const uint32_t width = epoch == 0 ? 1 : 2;
    const uint32_t certificate[TXB_CERTIFICATE_WORDS] = {key, name, polarity, width, atom, epoch, 0, 0, first, end};
    uint32_t reply = txb_file(store, WORDS(store), certificate, WORDS(certificate));
    if (reply > TXB_HELD)
        printf("the certificate was refused with %u\n", (unsigned)reply);
}

/* The observatory says what its list has to do with its partner's: with + it contains it, with - it is contained in it. */
static void is_linked(uint32_t name, uint32_t polarity) {
    const uint32_t link[TXB_LINK_WORDS] = {OBSERVATORY, name, polarity, PARTNER, name};
    uint32_t reply = txb_file_link(links, WORDS(links), link, WORDS(link));
    if (reply > TXB_HELD)
        printf("the link was refused with %u\n", (unsigned)reply);
}

/* The external policy now stands, rewritten so that each key is vetted. */
static void rewrite(void) {
    uint32_t part;
    size_t words;
    uint32_t number = txb_rewrite(external, WORDS(external), our_key, rewritten, WORDS(rewritten), &part, &words);
    if (number != 0) {
        printf("the policy was refused with %u in part %u\n", (unsigned)number, (unsigned)part);
        return;
    }
    policy = rewritten;
    policy_words = words;
}

static void search(void) {
    uint32_t year, month, day_of_month, hour, minute, part, verdict, draws;
    if (txb_date(now, &year, &month, &day_of_month, &hour, &minute) == 0)
        printf("%u-%02u-%02u %02u:%02u, ", (unsigned)year, (unsigned)month, (unsigned)day_of_month, (unsigned)hour, (unsigned)minute);
    uint32_t number = txb_query(policy, policy_words, everything_public, WORDS(everything_public), our_key, now, store, WORDS(store), links, WORDS(links),
                                answer, WORDS(answer), definitions, WORDS(definitions), scratch, WORDS(scratch), &part, &verdict, &draws);
    if (number != 0) {
        printf("the search was refused with %u in part %u\n", (unsigned)number, (unsigned)part);
        return;
    }
    static const char *const marks[] = {"exact", "lower", "upper"};
    printf("%s, %u draws, %s:", marks[verdict], (unsigned)draws, answer[0] == 0 ? "rows" : "all rows but");
    for (uint32_t row = 0; row < answer[1]; row++) {
        const uint32_t *words = &answer[2 + 5 * row];
        for (uint32_t atom = 1; atom <= words[0]; atom++)
            printf("%c%u", atom == 1 ? ' ' : '/', (unsigned)words[atom]);
    }
    printf("\n");
}

int main(void) {
    first = day(2027, 1, 1);
    end = day(2027, 7, 1);
    now = day(2027, 3, 20);
    search();                       /* 2027-03-20 00:00, lower, 0 draws, rows: */
    arrives(OBSERVATORY, RELEASED, TXB_PLUS, 7);
    search();                       /* 2027-03-20 00:00, lower, 1 draws, rows: */
    arrives(OBSERVATORY, WITHDRAWN, TXB_MINUS, 7);
    search();                       /* 2027-03-20 00:00, lower, 1 draws, rows: 7 */
    arrives(OBSERVATORY, RELEASED, TXB_PLUS, 8);
    search();                       /* 2027-03-20 00:00, lower, 2 draws, rows: 7 */
    /* Our released list is the policy's definition, whatever is certified under our key; and our key must be a key. */
    arrives(ARCHIVE, RELEASED, TXB_PLUS, 6);
    arrives(OBSERVATORY, WITHDRAWN, TXB_MINUS, 6);
    search();                       /* 2027-03-20 00:00, lower, 2 draws, rows: 7 */
    our_key = 5;
    search();                       /* 2027-03-20 00:00, the search was refused with 20 in part 17 */
    our_key = ARCHIVE;
    now = first - 1;
    search();                       /* 2026-12-31 23:59, lower, 0 draws, rows: */
    now = first;
    search();                       /* 2027-01-01 00:00, lower, 2 draws, rows: 7 */
    now = end - 1;
    search();                       /* 2027-06-30 23:59, lower, 2 draws, rows: 7 */
    now = end;
    search();                       /* 2027-07-01 00:00, lower, 0 draws, rows: */
    first = end;
    end = day(2028, 1, 1);
    arrives(OBSERVATORY, RELEASED, TXB_PLUS, 7);
    search();                       /* 2027-07-01 00:00, lower, 1 draws, rows: */
    arrives(OBSERVATORY, WITHDRAWN, TXB_MINUS, 7);
    search();                       /* 2027-07-01 00:00, lower, 1 draws, rows: 7 */
    arrives(PARTNER, RELEASED, TXB_PLUS, 9);
    search();                       /* 2027-07-01 00:00, lower, 1 draws, rows: 7 */
    is_linked(RELEASED, TXB_PLUS);
    search();                       /* 2027-07-01 00:00, lower, 2 draws, rows: 7 */
    arrives(PARTNER, WITHDRAWN, TXB_MINUS, 9);
    search();                       /* 2027-07-01 00:00, lower, 2 draws, rows: 7 */
    is_linked(WITHDRAWN, TXB_MINUS);
    search();                       /* 2027-07-01 00:00, lower, 2 draws, rows: 7 9 */
    /* Rows gain an epoch: 5/2027. In format 1 the pattern x passes over it; in format 2 x is 5, and it is 5 that must be absent from what is withdrawn. */
    epoch = 2027;
    arrives(OBSERVATORY, RELEASED, TXB_PLUS, 5);
    arrives(OBSERVATORY, WITHDRAWN, TXB_MINUS, 5);
    search();                       /* 2027-07-01 00:00, lower, 3 draws, rows: 7 9 */
    not_withdrawn[0] = TXB_WIDER_ROWS;
    search();                       /* 2027-07-01 00:00, lower, 3 draws, rows: 7 9 */
    epoch = 0;
    arrives(OBSERVATORY, WITHDRAWN, TXB_MINUS, 5);
    search();                       /* 2027-07-01 00:00, lower, 3 draws, rows: 5 7 9 */
    not_withdrawn[0] = TXB_EQUAL_WIDTHS;
    search();                       /* 2027-07-01 00:00, lower, 3 draws, rows: 7 9 */
    /* What is public is an own name: our key is vetted as the observatory's is. */
    rewrite();
    search();                       /* 2027-07-01 00:00, lower, 0 draws, rows: */
    arrives(AUTHORITY, COMPROMISED, TXB_MINUS, OBSERVATORY);
    search();                       /* 2027-07-01 00:00, lower, 0 draws, rows: */
    arrives(AUTHORITY, COMPROMISED, TXB_MINUS, ARCHIVE);
    search();                       /* 2027-07-01 00:00, lower, 0 draws, rows: 5/2027 7 9 */
    return 0;
}
