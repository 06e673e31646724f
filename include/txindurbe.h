/*
 * Txindurbe: a policy engine for an archive of visibilities.
 *
 * File certificates into a store and links into a link store, then ask queries under a policy, at a minute; the answer is a table of rows marked exact, lower
 * or upper.
 *
 * Everything is in 32-bit words, lengths are counted in words. Every call ends, whatever the words: what is malformed is refused with a number, and whatever
 * a call returns, it has written all of its out-parameters. No pointer may be null, not even one with the length 0 (nothing is then looked at there). What a
 * call writes, areas and out-parameters, must overlap nothing else that is passed to it. Calls keep nothing between them: threads may call at once, each with
 * areas of its own, as long as nobody files into a store that another one reads.
 *
 * Link with libcapi.a (made by: bash library).
 */
#ifndef TXINDURBE_H
#define TXINDURBE_H

#include <stddef.h>
#include <stdint.h>

#ifdef __cplusplus
extern "C" {
#endif

/* The version of this interface, and the same as one number that grows with it. */
#define TXINDURBE_VERSION_MAJOR 0
#define TXINDURBE_VERSION_MINOR 8
#define TXINDURBE_VERSION_PATCH 0
#define TXINDURBE_VERSION (TXINDURBE_VERSION_MAJOR * 1000000 + TXINDURBE_VERSION_MINOR * 1000 + TXINDURBE_VERSION_PATCH)

/* Atoms below 2^31 are numbers, those from there up keys: this is the key kN. */
#define TXB_KEY(n) (UINT32_C(0x80000000) + (uint32_t)(n))

/* A name is a number from 0 to 65,535 with a polarity. The + list and the - list of one number are unrelated lists: a certificate of the one says nothing
 * about the other. */
enum {
    TXB_PLUS = 0,                    /* a certificate says that its row is in the list; with none held, no row is known to be */
    TXB_MINUS = 1                    /* a certificate says that its row is not in the list; with none held, any row may be */
};

/* A row is one to four atoms. The rows of a table ascend strictly: atom by atom, unsigned; where one row ends and the other goes on, the shorter comes first:
 * 7, 7/1, 7/1/2, 8. */

/* Minutes are counted from 2000-01-01 00:00 UTC. Any word is a minute; those below 52,596,000 have a date, in 2000 to 2099. A certificate has a term of
 * validity: it holds from its first minute up to, but without, its end minute. At 4,294,967,295 none holds. */

/* The certificates of a store ascend strictly: by key, name and polarity, then by the row, in the order above, then by first minute, then by end minute. One
 * row may be certified with several terms. A store from before version 0.5 has certificates without a term and is not to be used as it is: every eight words
 * behind its count are to be filed again into an empty store, with a first and an end minute behind them. */

/* A link is about two lists of one polarity. With + it says that the first list contains the other, with - that the first is contained in the other. Either
 * way, what is certified of the other list is so of the first one; and so on along any number of links, circles too. A link has no term: it holds at every
 * minute. The links of a link store ascend strictly, word by word. */

/* A policy's word 0 is its format. It says which rows the pattern of a draw matches, in the policy's definitions and in every query asked under it; format 2
 * is for rows that observatories append atoms to, as an epoch. A row that is not matched is passed over, and is a draw all the same. The row of an absent
 * guard, and the key's row that a list is vetted by (code 8), are whole rows in both formats. */
enum {
    TXB_EQUAL_WIDTHS = 1,            /* a pattern matches rows that have as many atoms as it: the pattern x matches 7, and not 7/2027 */
    TXB_WIDER_ROWS = 2               /* a pattern of width w matches every row of at least w atoms by its first w: x matches 7 and 7/2027, with x = 7 */
};

/* Our key is the archive's own: the word our_key of each call that checks definitions. Where it stands as the fixed issuer of a list (code 4), in a policy or
 * in a query, the list is an own name and stands for a definition: the one of that name and polarity. It must be available at that place, which those before
 * it in the policy are, and in a query any; else TXB_NOT_IN_SCOPE. An own name has the definition's rows, whatever is certified or linked under our key. It is
 * open, and so not to be drawn from, just where its definition is: a - own name may be drawn from if that is not open, a + own name may not if it is. A vetted
 * list (code 8) of our key is vetted as any other, and what it vets is the definition. A variable that holds our key reads certificates and links as with any
 * key, and links that lead to our key's lists reach what is certified of them. With another word as our key, the same words of a policy may mean something
 * else. */

/* Lengths. A longer store or area is fine. A store of either kind starts empty if its first word is 0, whatever the others are. */
enum {
    TXB_POLICY_WORDS = 8192,         /* the most words of a policy: an area of so many takes every rewritten one */
    TXB_STORE_WORDS = 16001,         /* a count, then up to 1,600 certificates */
    TXB_CERTIFICATE_WORDS = 10,      /* key, name, polarity, width (1 to 4), four atoms, unused ones 0, first minute, end minute */
    TXB_LINKS_WORDS = 1281,          /* a link store: a count, then up to 256 links */
    TXB_LINK_WORDS = 5,              /* key, name, polarity of both lists, other key, other name */
    TXB_ANSWER_WORDS = 642,          /* form (0 these rows, 1 all rows but these), count, then width and four atoms a row; 128 rows at most */
    TXB_DEFINITIONS_WORDS = 10272,
    TXB_SCRATCH_WORDS = 16384
};

/* Verdicts: how the table is to be read. */
enum {
    TXB_EXACT = 0,                   /* the rows that belong to the query, whatever the lists have beside what links and certificates that hold at the minute
                                        asked for say of them */
    TXB_LOWER = 1,                   /* exactly the rows that belong to it under all such lists */
    TXB_UPPER = 2,                   /* a row that is missing here belongs to it under no such lists */
    TXB_NO_VERDICT = 3               /* refused: there is no table */
};

/* Replies to filing that are no refusals. */
enum {
    TXB_FILED = 0,                   /* the certificate or link is new and now in its store */
    TXB_HELD = 1                     /* it was there already, a certificate with the same term */
};

/* Refusal numbers. txb_file gives 8, 9, 10 and 17, txb_file_link 18 and 19, txb_judge 1 to 7 and 20, txb_query 1 to 8, 11 to 14, 18 and 20, txb_rewrite 1 to
 * 7, 11, 15 and 20, txb_minutes and txb_date 16. In which order: 20, 1, 2, then 3 to 7 of each definition in turn, then of the query (3, 4 or 5 at the first
 * word where one of them applies, the lowest there, then 6, then 7); after these, txb_query gives 8, 18, 11, then 12, 13 or 14 as it is met while reading, and
 * txb_rewrite, which has no query, 15, then 11. */
enum {
    TXB_BAD_HEADER = 1,              /* policy: under 2 or over 8,192 words, a format other than 1 and 2, over 16 definitions, or the table is cut short */
    TXB_BAD_TABLE = 2,               /* policy: a table entry breaks a rule, or the parts do not end with the policy */
    TXB_BAD_WORD = 3,                /* a code, tag, count, width, name or polarity outside its rule; a fixed issuer that is a number; words that run
                                        out or are left over; a query of 0 or over 1,024 words */
    TXB_NOT_IN_SCOPE = 4,            /* a variable not in scope, a wrong new number, a 17th variable, a definition that is not available, by its number or by
                                        an own name */
    TXB_TOO_DEEP = 5,                /* an expression at depth 16, or a ninth draw */
    TXB_NO_POLARITY = 6,             /* a definition does not have its declared polarity, or a query has none */
    TXB_OPEN_DRAW = 7,               /* a draw from an expression that may be a complement */
    TXB_BAD_STORE = 8,               /* the store is too short or unsound; so is one with a certificate whose end is not after its first minute */
    TXB_BAD_CERTIFICATE = 9,         /* the certificate is not ten words, or unsound in its key, name, polarity, width or unused atoms */
    TXB_STORE_FULL = 10,             /* 1,600 certificates are held and this one is new */
    TXB_SHORT_AREA = 11,             /* the answer, definition or scratch area is too short, or the area for a rewritten policy */
    TXB_COMPLEMENT_DRAWN = 12,       /* a complement is drawn from while reading */
    TXB_TOO_MANY_ROWS = 13,          /* a value lists over 128 rows: that of the query, of a definition, or of anything read on the way, as one name's list
                                        with what links join to it */
    TXB_TOO_MANY_DRAWS = 14,         /* a draw is due and 1,000,000 were made */
    TXB_NOT_EXTERNAL = 15,           /* policy: an external rule is broken, or the output would pass 8,192 words */
    TXB_BAD_DATE = 16,               /* a date that does not exist or lies outside 2000 to 2099, or a minute that has none */
    TXB_BAD_TERM = 17,               /* the certificate's end is not after its first minute */
    TXB_BAD_LINK = 18,               /* the link is not five words, or one of its keys is a number, one of its names over 65,535, or its polarity over 1; or
                                        the link store is too short or unsound */
    TXB_LINKS_FULL = 19,             /* 256 links are held and this one is new */
    TXB_NOT_A_KEY = 20               /* the word given as our key is a number and not a key */
};

/* The part that a refusal is about: 0 to 15 a definition, or one of these. */
enum {
    TXB_QUERY_PART = 16,
    TXB_NO_PART = 17                 /* neither; also where nothing is refused */
};

/* Files one certificate. Returns TXB_FILED, TXB_HELD or a refusal number: TXB_BAD_STORE, TXB_BAD_CERTIFICATE, TXB_BAD_TERM, then, if it is not held,
 * TXB_STORE_FULL. Only TXB_FILED changes the store, and never a word past its last record. */
uint32_t txb_file(uint32_t *store, size_t store_words, const uint32_t *certificate, size_t certificate_words);

/* Files one link. Returns TXB_FILED, TXB_HELD or a refusal number: TXB_BAD_LINK, then, if it is not held, TXB_LINKS_FULL. Only TXB_FILED changes the link
 * store, and never a word past its last link. */
uint32_t txb_file_link(uint32_t *links, size_t links_words, const uint32_t *link, size_t link_words);

/* Judges a policy and a query without a store. Returns 0 and the verdict that an answer would have, with the part TXB_NO_PART; or a refusal number,
 * TXB_NOT_A_KEY or one from 1 to 7, and its part, with the verdict TXB_NO_VERDICT. */
uint32_t txb_judge(const uint32_t *policy, size_t policy_words, const uint32_t *query, size_t query_words, uint32_t our_key, uint32_t *part,
                   uint32_t *verdict);

/* Answers a query from those certificates of the store that hold at the minute, and from the links. A name is read with the certified rows of every name that
 * links of its polarity reach from it, an own name as the set that its definition has come to. A row counts once, however many of its certificates hold then.
 * Returns 0, the verdict and the number of draws, with the part TXB_NO_PART: the table then fills 2 + 5 * count words of the answer area, and the rest of it
 * is unchanged. Or returns a refusal number and its part, with the verdict TXB_NO_VERDICT and 0 draws: the answer area is then unchanged, and what it holds
 * from an earlier query is no answer to this one. TXB_NOT_A_KEY comes before all others; TXB_BAD_LINK right after TXB_BAD_STORE, also where no name is read.
 * The definition and scratch areas hold arbitrary words afterwards; what was in them makes no difference. */
uint32_t txb_query(const uint32_t *policy, size_t policy_words, const uint32_t *query, size_t query_words, uint32_t our_key, uint32_t minute,
                   const uint32_t *store, size_t store_words, const uint32_t *links, size_t links_words, uint32_t *answer, size_t answer_words,
                   uint32_t *definitions, size_t definitions_words, uint32_t *scratch, size_t scratch_words, uint32_t *part, uint32_t *verdict,
                   uint32_t *draws);

/* Rewrites an external policy, so that it relies on no list of a compromised key. In an external policy definition 0 may be the name 0, -, which lists the
 * compromised keys; every other definition is +, and none has a difference, an absent guard or code 8. Each key's list (code 4) in a later definition becomes
 * vetted (code 8, the same words, then definition 0): that list if the key's row is absent from definition 0, no rows otherwise. The keys of lists that links
 * reach from it are not vetted. Own names become vetted too: they have no rows if our key is compromised. Without a definition of name 0, -, the output equals
 * the input; either way it has the same format, and is meant for the same word as our key. Queries are not rewritten. Returns 0 and the output's length, with
 * the part TXB_NO_PART: the output fills so many words of the area, and the rest of it is unchanged. Or returns a refusal number and its part, with the length
 * 0: the area is then unchanged. TXB_NOT_A_KEY comes before all others, TXB_NOT_EXTERNAL after 1 to 7, TXB_SHORT_AREA after that, if the area has fewer words
 * than the output. */
uint32_t txb_rewrite(const uint32_t *policy, size_t policy_words, uint32_t our_key, uint32_t *area, size_t area_words, uint32_t *part, size_t *length);

/* Where the words of a part stand (0 to 15 a definition, 16 the query), to show what a refusal is about. Returns how many they are. They start at the word
 * start of the policy, and of_query is 0; or they are the whole query, at any length, of_query is 1 and start 0. There are none if there is no such definition
 * or the policy is refused with 1 or 2. */
size_t txb_part(const uint32_t *policy, size_t policy_words, const uint32_t *query, size_t query_words, uint32_t number, uint32_t *of_query, size_t *start);

/* Where one name's certificates stand in the store, ten words each, whenever they hold. Returns how many words they take; they start at the word start of the
 * store. There are none if the store holds none or is unsound. */
size_t txb_certificates_of(const uint32_t *store, size_t store_words, uint32_t key, uint32_t name, uint32_t polarity, size_t *start);

/* The minute that begins at a date: a year from 2000 to 2099, a month from 1, a day from 1, an hour from 0 and a minute from 0, all in UTC. Returns 0; or
 * TXB_BAD_DATE, with 0 minutes. */
uint32_t txb_minutes(uint32_t year, uint32_t month, uint32_t day, uint32_t hour, uint32_t minute, uint32_t *minutes);

/* The date at which a minute begins. Returns 0; or TXB_BAD_DATE, with a date of zeros, from 52,596,000 on. */
uint32_t txb_date(uint32_t minutes, uint32_t *year, uint32_t *month, uint32_t *day, uint32_t *hour, uint32_t *minute);

#ifdef __cplusplus
}
#endif

#endif
