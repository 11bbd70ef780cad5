/* Trackvesper for C and C++: fitting books, what follows from them, questions about them; makers' lists as N-Triples.
 * Link with libtrackvesper.a (`make target/staticlib/libtrackvesper.a` makes it, `make install` installs it).
 *
 * What holds for every call here:
 * - Any numbers and any bytes may be handed in. A call ends, answers, and is proved to answer and to leave in what was lent exactly
 *   what its contract in the sources says; what the contract says is said here in words.
 * - A lane or a run of bytes is a pointer and a length, counted in elements. The pointer is aligned as its type is and not NULL; where the
 *   length is 0 any such pointer will do (the address of a local variable, say).
 * - What is lent to be changed must not overlap with anything else that is lent in the same call.
 * - Nothing is allocated and nothing is kept between calls: any number of threads may call at once, each with its own lanes.
 * - What a call needs on the stack is said with it; no call calls back. */
#ifndef TRACKVESPER_H
#define TRACKVESPER_H

#include <stddef.h>
#include <stdint.h>

#ifdef __cplusplus
extern "C" {
#endif

/* The version of the library that this header belongs to. */
#define TRACKVESPER_VERSION "3.0.0"

/* Sizes: the most that is ever looked at or needed. */
enum {
    TRACKVESPER_MOST_INPUT = 65535,      /* bytes of a book or of a makers' list */
    TRACKVESPER_MOST_ROWS = 1024,        /* rows of a table */
    TRACKVESPER_MOST_CLOSED_BOOK = 17416, /* bytes of a closed book: 8 and 17 for each of 1,024 rows */
    TRACKVESPER_MOST_NAMES = 512,        /* entries of a list of names */
    TRACKVESPER_MOST_TEXT = 32768,       /* bytes of its texts */
    TRACKVESPER_MOST_STEPS = 48,         /* steps of a compiled question, and the records that compiling wants lent */
    TRACKVESPER_MOST_ANSWERS = 256,      /* answers of a run */
    TRACKVESPER_ANSWER_TERMS = 16,       /* terms of an answer, one for each term variable */
    TRACKVESPER_ANSWER_ANNOTATIONS = 8,  /* annotations of an answer */
    TRACKVESPER_MILLIAMPS = 49152,       /* a measured value is this and so many milliamps */
    TRACKVESPER_MOST_MILLIAMPS = 16382,
    TRACKVESPER_UNBOUND = 65535          /* the term of a variable that an answer does not bind; its annotation is 0 */
};

/* Kinds of annotation. */
enum {
    TRACKVESPER_YEARS = 1,
    TRACKVESPER_DEGREE = 3,
    TRACKVESPER_STRICT_DEGREE = 4,
    TRACKVESPER_SHEETS = 5 /* six sheets; bit k: the sheets whose numbers are the set bits of k are enough together */
};

/* Rule sets: which rules closing draws by. */
enum {
    TRACKVESPER_BASIC_RULES = 1,     /* of every book of edition 1, and of one of edition 2 that says so */
    TRACKVESPER_REFLEXIVE_RULES = 2  /* these and the reflexive lines that have a premise; in a book of edition 2 */
};

/* Numbers given back by these calls. 0 is done; the README has the whole list, with the places. */
enum {
    TRACKVESPER_DONE = 0,
    TRACKVESPER_CUT = 1,            /* a book ends inside a field */
    TRACKVESPER_HEAD = 2,           /* no head first, a head of another length than its edition has, a second head */
    TRACKVESPER_EDITION = 3,
    TRACKVESPER_KIND = 4,           /* no such kind of annotation */
    TRACKVESPER_BASE_YEAR = 5,
    TRACKVESPER_TAG = 6,            /* a field that is neither head nor row */
    TRACKVESPER_LENGTH = 7,         /* a row's field of another length */
    TRACKVESPER_TERM = 8,           /* TRACKVESPER_UNBOUND as a term */
    TRACKVESPER_PREDICATE = 9,      /* the predicate is not a name */
    TRACKVESPER_ANNOTATION = 10,    /* the annotation is not legal */
    TRACKVESPER_LANES = 11,         /* lanes of unequal length, or too long */
    TRACKVESPER_NO_ROOM = 12,       /* for a row or for the bytes of the output */
    TRACKVESPER_TOO_LONG = 13,      /* the input is over TRACKVESPER_MOST_INPUT bytes */
    TRACKVESPER_COUNT = 14,         /* a count over the lanes' length */
    TRACKVESPER_ORDER = 15,         /* a row not above the one before */
    TRACKVESPER_NO_FIT = 16,        /* a question's field does not fit its holder, is missing, or bytes are left over */
    TRACKVESPER_NOT_THERE = 17,     /* a question's tag that may not stand there */
    TRACKVESPER_MARK = 18,          /* a wrong length, slot mark or test mark */
    TRACKVESPER_VARIABLE = 19,      /* a variable's number too large */
    TRACKVESPER_PARTS = 20,         /* a 33rd part */
    TRACKVESPER_NOT_BOUND = 21,     /* a test names a variable that its part does not surely bind */
    TRACKVESPER_OUTSIDE = 22,       /* a test's annotation variable stands outside its part too */
    TRACKVESPER_STEP = 23,          /* a wrong number of steps, or an illegal step */
    TRACKVESPER_NO_LOOKS = 24,      /* the looks allowed are used up; the answers given stand */
    TRACKVESPER_NOT_NTRIPLES = 26,  /* a line is not N-Triples */
    TRACKVESPER_NAMES_FULL = 27,    /* a text that is new finds no entry or too few bytes */
    TRACKVESPER_MISSES_LARGER = 28, /* sheets: a combination is enough and a larger one is not */
    TRACKVESPER_RULE_SET = 36,      /* no such rule set */
    TRACKVESPER_NO_TEXT = 39        /* a row's subject is a literal, or one of its terms has no text */
};

/* The page of calls. A table is four lanes of equal length, at most 1,024, and a count: row i is subj[i], pred[i], obj[i], ann[i].
 * The number is answered; *place and what else there is to answer are always written. docs/REFERENCE.md has the orders of refusal and
 * what is left behind, call by call. */

/* Checks a table: 4, 11, 14, then row by row 8, 9, 10, 28, 15. */
uint8_t trackvesper_check(uint8_t kind, const uint16_t *subj, size_t subj_length, const uint16_t *pred, size_t pred_length,
                          const uint16_t *obj, size_t obj_length, const uint64_t *ann, size_t ann_length, size_t count,
                          size_t *place);

/* Adds a triple; *count goes in as the table's count and comes out as the new one. A refusal changes nothing. */
uint8_t trackvesper_add(uint8_t kind, uint16_t *subj, size_t subj_length, uint16_t *pred, size_t pred_length,
                        uint16_t *obj, size_t obj_length, uint64_t *ann, size_t ann_length, size_t *count,
                        uint16_t s, uint16_t p, uint16_t o, uint64_t a, size_t *place);

/* Reads a book into the lanes: a new table. *kind, *base, *rules and *count are 0 after a refusal. */
uint8_t trackvesper_read(const uint8_t *book, size_t book_length, uint16_t *subj, size_t subj_length,
                         uint16_t *pred, size_t pred_length, uint16_t *obj, size_t obj_length, uint64_t *ann, size_t ann_length,
                         size_t *place, uint8_t *kind, uint16_t *base, uint8_t *rules, size_t *count);

/* Writes a table as a book: 7 + 17 * count bytes, or 8 + 17 * count in rule set 2, whose head has a byte more. A refusal changes
 * nothing. */
uint8_t trackvesper_write(uint8_t kind, uint16_t base, uint8_t rules, const uint16_t *subj, size_t subj_length,
                          const uint16_t *pred, size_t pred_length, const uint16_t *obj, size_t obj_length,
                          const uint64_t *ann, size_t ann_length, size_t count, uint8_t *out, size_t out_length,
                          size_t *place, size_t *length);

/* Closes a table under a rule set: 4, 36, then as the check, then 12; *count goes in as the table's count and comes out as the new one.
 * Less than 28 KB of stack. */
uint8_t trackvesper_close(uint8_t kind, uint8_t rules, uint16_t *subj, size_t subj_length, uint16_t *pred, size_t pred_length,
                          uint16_t *obj, size_t obj_length, uint64_t *ann, size_t ann_length, size_t *count, size_t *place);

/* A step: what it does (0 SEEK, 1 FORK, 2 GO, 3 TEST, 4 GIVE), a test's mark, a target, then mark and number of each slot. */
typedef struct trackvesper_step {
    uint8_t op, test;
    size_t target;
    uint8_t subj_mark;
    uint16_t subj;
    uint8_t pred_mark;
    uint16_t pred;
    uint8_t obj_mark;
    uint16_t obj;
    uint8_t ann_mark;
    uint64_t ann;
} trackvesper_step;

typedef struct trackvesper_compiled {
    uint8_t number;
    size_t place, steps;
} trackvesper_compiled;

typedef struct trackvesper_ran {
    uint8_t number;
    size_t place, answers;
    uint32_t looks;
} trackvesper_ran;

/* Compiles a question into at least 48 records; those past its steps stay as they were. A refusal changes nothing. */
trackvesper_compiled trackvesper_compile(uint8_t kind, const uint8_t *question, size_t question_length,
                                         trackvesper_step *records, size_t records_length);

/* Runs the first steps of the records over a table, with some looks allowed. Answer i is terms[16 * i] to terms[16 * i + 15] and
 * anns[8 * i] to anns[8 * i + 7]; the lanes are 16n and 8n long, n up to 256. Less than 128 KB of stack: it goes as deep as there are steps. */
trackvesper_ran trackvesper_run(uint8_t kind, const uint16_t *subj, size_t subj_length, const uint16_t *pred, size_t pred_length,
                                const uint16_t *obj, size_t obj_length, const uint64_t *ann, size_t ann_length, size_t count,
                                const trackvesper_step *records, size_t records_length, size_t steps, uint32_t allowed,
                                uint16_t *terms, size_t terms_length, uint64_t *anns, size_t anns_length);

/* Compiles a question and runs it, with records of its own. Less than 128 KB of stack, as running. */
uint8_t trackvesper_ask(uint8_t kind, const uint16_t *subj, size_t subj_length, const uint16_t *pred, size_t pred_length,
                        const uint16_t *obj, size_t obj_length, const uint64_t *ann, size_t ann_length, size_t count,
                        const uint8_t *question, size_t question_length, uint32_t allowed,
                        uint16_t *terms, size_t terms_length, uint64_t *anns, size_t anns_length,
                        size_t *place, size_t *answers, uint32_t *looks);

/* Calls that answer one word. */

/* The number and the place (or length) in a word that a call answered. */
static inline uint32_t trackvesper_number(uint64_t answer) { return (uint32_t)(answer >> 32); }
static inline uint32_t trackvesper_rest(uint64_t answer) { return (uint32_t)(answer & 0xFFFFFFFFu); }

/* Reads the book, works out what follows from it under its rule set and writes the closed book to out.
 *
 * The answer is number * 2^32 + rest. Number 0 is done, and rest is the length written; the bytes of out past
 * it are left as they were. Any other number is a refusal, rest is its place in the book, and out is untouched.
 * There is room for 1,024 rows; a closed book of n rows is 7 + 17 * n bytes, 8 + 17 * n in rule set 2, so
 * TRACKVESPER_MOST_CLOSED_BOOK bytes of output are always enough. It needs less than 48 KB of stack. */
uint64_t trackvesper_close_book(const uint8_t *book, size_t book_length, uint8_t *out, size_t out_length);

/* Reads a file of N-Triples into a new table and a new list of names; every row gets the annotation.
 *
 * The table is four lanes of equal length, at most 1,024: row i is subj[i], pred[i], obj[i], ann[i]. The list is
 * terms and ends of equal length, at most 512, and text of at most 32,768 bytes: entry i is the number terms[i] with
 * the bytes of text from ends[i - 1] (0 for i = 0) up to, not including, ends[i]. What stood in the lanes is not looked
 * at. Shorter lanes, of length 0 too, are room for fewer.
 *
 * The answer is names * 2^16 + rows when done; what lies behind the last row, entry and text is zero. Else it is
 * number * 2^32 + place (26: the line that begins there is not N-Triples; 27: the names do not fit; 12: the rows do
 * not): the lanes are then all zero, or as they were after 11 and 13. It needs less than 8 KB of stack. */
uint64_t trackvesper_read_triples(uint8_t kind, uint64_t annotation, const uint8_t *file, size_t file_length,
                                  uint16_t *subj, size_t subj_length, uint16_t *pred, size_t pred_length,
                                  uint16_t *obj, size_t obj_length, uint64_t *ann, size_t ann_length,
                                  uint16_t *terms, size_t terms_length, uint16_t *ends, size_t ends_length,
                                  uint8_t *text, size_t text_length);

/* Writes the first count rows of a table, by the first names entries of a list, as canonical N-Triples.
 *
 * The answer is the length when done; the bytes of out past it are left as they were. Else it is
 * number * 2^32 + place (39: the row at place has a literal as its subject, or a term that has no text; 12: out is
 * too short), and out is untouched. It needs less than 8 KB of stack. */
uint64_t trackvesper_write_triples(uint8_t kind, const uint16_t *subj, size_t subj_length,
                                   const uint16_t *pred, size_t pred_length, const uint16_t *obj, size_t obj_length,
                                   const uint64_t *ann, size_t ann_length, size_t count,
                                   const uint16_t *terms, size_t terms_length, const uint16_t *ends, size_t ends_length,
                                   const uint8_t *text, size_t text_length, size_t names,
                                   uint8_t *out, size_t out_length);

#ifdef __cplusplus
}
#endif

#endif
