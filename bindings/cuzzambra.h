/*
 * Cuzzambra for C: play books for the interlocks of brake test benches.
 *
 * The library is crates/cuzzambra/out/libcuzzambra.a, which `rt lib` builds in crates/cuzzambra. It has no state, takes no
 * memory but the stack, and reads and writes nothing but what each call is lent: any call may be made at any time, from
 * any thread. Of the C library it needs memcpy and memset. It is built for x86-64, where size_t has 64 bits.
 *
 * Every call returns, for any bytes. It serves, or refuses with exactly one reason, and the same arguments give the same
 * result. What each call is proved to give is stated by the contracts of crates/cuzzambra/src/lib.rt; this file says it in
 * words. Nothing proves that a caller keeps to what is said of buffers here.
 *
 * Buffers. A buffer is a pointer and a length: the number of its elements. The pointer is never null, at length 0 too. No
 * length is more than SSIZE_MAX bytes. A buffer that is written (book of a solve call, answers of a replay) overlaps no
 * other buffer of the call; what is `const` is only read.
 *
 * Stack. A call on the texts of a rule was measured to take at most 620,000 bytes of stack, and a call on a diagram 150,000.
 * This is measured on x86-64 and not proved; CUZZAMBRA_STACK leaves room.
 */
#ifndef CUZZAMBRA_H
#define CUZZAMBRA_H

#include <stddef.h>
#include <stdint.h>

#ifdef __cplusplus
extern "C" {
#endif

#define CUZZAMBRA_STACK 1048576

/* The longest book: 8 bytes and 24 for each of 255 positions. A buffer of this length is never too short. */
#define CUZZAMBRA_LONGEST_BOOK 6128

/*
 * What a call comes to.
 *
 * Served: number, layer, text and place are 0, and length is
 *   - of a solve call: the length of the book, 8 + 24 n for a game of n positions, written at the head of the buffer;
 *   - of an accept call: the book's length;
 *   - of a replay: the number of answers that were written, which is the number of calls in the row.
 * Refused: number is one of the numbers below, layer is that number's layer, length is 0, and
 *   - place is the byte of the text or of the diagram at which the cause stands, or what is said at the number; else 0;
 *   - text is the text that has the place: CUZZAMBRA_SIGNALS, CUZZAMBRA_RULE, or 0 where it stands in neither.
 */
struct cuzzambra_outcome {
    uint32_t number;
    uint32_t layer;
    uint32_t text;
    size_t place;
    size_t length;
};

enum { CUZZAMBRA_SIGNALS = 1, CUZZAMBRA_RULE = 2 };

/* Layers: the part that refuses. */
enum {
    CUZZAMBRA_LAYER_TEXT = 1,
    CUZZAMBRA_LAYER_SIGNALS = 2,
    CUZZAMBRA_LAYER_RULE = 3,
    CUZZAMBRA_LAYER_COMPILE = 4,
    CUZZAMBRA_LAYER_STORE = 5,
    CUZZAMBRA_LAYER_DIAGRAM = 6,
    CUZZAMBRA_LAYER_GAME = 7,
    CUZZAMBRA_LAYER_RUN = 8,
    CUZZAMBRA_LAYER_SOLVE = 9
};

/* Refusals. docs/REFUSALS.md has an example of each. */
enum {
    /* layer text, in the signals text or the rule */
    CUZZAMBRA_TEXT_TOO_LONG = 1,       /* a text of more than 1,024 bytes; place 0 */
    CUZZAMBRA_STRANGE_BYTE = 2,        /* a byte that begins no word; place: the byte. Of a row: a kind that no call has;
                                          text is 0 and place is the index of that call in the row */
    CUZZAMBRA_MISPLACED = 3,           /* a word that is not allowed there, or the end; place: the word, or the length */
    /* layer signals, in the signals text */
    CUZZAMBRA_BAD_NAME = 4,            /* a name of more than eight letters and digits, or repeated; place: the name */
    CUZZAMBRA_TOO_MANY_SIGNALS = 6,    /* a fifth input or output; place: the name */
    /* layer rule, in the rule */
    CUZZAMBRA_UNKNOWN_NAME = 5,        /* a name that no signal has; place: the name */
    CUZZAMBRA_UNSUPPORTED = 7,         /* U or F; place: the word */
    CUZZAMBRA_TOO_DEEP = 8,            /* the 33rd level; place: the word that opens it */
    /* layer compile, of the rule's game; text 0 but at 9, which is of the rule */
    CUZZAMBRA_RULE_TOO_LARGE = 9,      /* more than 64 parts or 32 duties; place 0 */
    CUZZAMBRA_START_LOST = 10,         /* the rule is lost before the first round; place 0 */
    CUZZAMBRA_TOO_WIDE = 11,           /* a list of more than 32 sets of duties; place: the position being left, 0 for the start */
    CUZZAMBRA_TOO_MANY_POSITIONS = 12, /* a 256th position; place 0 */
    /* layer store */
    CUZZAMBRA_STORE_TOO_SHORT = 13,    /* the buffer of a solve call is shorter than the book, or that of a replay has room
                                          for fewer answers than the row has calls; place 0 */
    /* layer diagram */
    CUZZAMBRA_DIAGRAM_FIELD = 14,      /* a field or the length is wrong; place: the field's first byte, or the length */
    CUZZAMBRA_DIAGRAM_CHAIN = 15,      /* an index names no record or one reached already, or no chain reaches a record;
                                          place: the index, or the record */
    CUZZAMBRA_DIAGRAM_REPEAT = 16,     /* a chain has two records for one move; place: the later record */
    /* layer run */
    CUZZAMBRA_NOT_THIS_BOOK = 18,      /* the bytes are not this game's book; place 0 */
    CUZZAMBRA_OUT_OF_RANGE = 19,       /* an input or output that does not exist: told to a call of a row only */
    CUZZAMBRA_RUN_LOST = 20            /* an opening of a lost run: told to a call of a row only */
};

/*
 * SOLVING. Solves the game of the source and writes its book at the head of `book`; bytes behind it stay as they were.
 * Refused, `book` stays as it was. The book is the only one of its game (docs/FORMATS.md has it byte by byte): for each
 * position its status, the number of rounds that it can still be held, the input that spoils it fastest, and an answer to
 * each input.
 *
 * Refusals of the source come first: of texts 1 to 12, in the order of docs/REFUSALS.md; of a diagram 14 to 16. Then 13.
 */
struct cuzzambra_outcome cuzzambra_solve_rule(
    const uint8_t *signals, size_t signals_length,
    const uint8_t *rule, size_t rule_length,
    uint8_t *book, size_t book_length);

struct cuzzambra_outcome cuzzambra_solve_diagram(
    const uint8_t *diagram, size_t diagram_length,
    uint8_t *book, size_t book_length);

/*
 * ACCEPTING. Served exactly when `book` is, byte by byte and at its exact length, the book of the source's game. Writes
 * nothing. Refusals of the source come first, then 18.
 */
struct cuzzambra_outcome cuzzambra_accept_rule(
    const uint8_t *signals, size_t signals_length,
    const uint8_t *rule, size_t rule_length,
    const uint8_t *book, size_t book_length);

struct cuzzambra_outcome cuzzambra_accept_diagram(
    const uint8_t *diagram, size_t diagram_length,
    const uint8_t *book, size_t book_length);

/*
 * RUNS. A row of calls is carried through a run of the game by its book, from the start of the run, and each call is
 * answered. A round is opened with its input, its output may be set, and then it is closed (the game moves) or abandoned
 * (as if it had never been opened). A round still open behind the last call is abandoned.
 */
enum {
    CUZZAMBRA_OPEN = 1,     /* number: the input. Answer: the book's output */
    CUZZAMBRA_SET = 2,      /* number: the output that closing is to bear */
    CUZZAMBRA_CLOSE = 3,    /* from here on number is not read */
    CUZZAMBRA_ABANDON = 4,
    CUZZAMBRA_POSITION = 5,
    CUZZAMBRA_COUNT = 6,
    CUZZAMBRA_SPOILING = 7,
    /* kinds that only an answer has */
    CUZZAMBRA_REFUSED = 8,
    CUZZAMBRA_NOT_ALLOWED = 9
};

struct cuzzambra_call {
    uint8_t kind;
    uint8_t number;
};

/* A count of rounds is -1 where the run is lost, and CUZZAMBRA_UNLIMITED where every number of rounds can be held. */
#define CUZZAMBRA_UNLIMITED 65536

/*
 * What a call was told, and where the run stood after it.
 * kind: the call's kind where it was served; CUZZAMBRA_REFUSED where it was refused, and CUZZAMBRA_NOT_ALLOWED where it is
 * not allowed where it stood (a setting between rounds, an opening in a round): both change nothing.
 * value: of an opening the book's output; of CUZZAMBRA_POSITION the position, 0 where the run is lost; of CUZZAMBRA_COUNT
 * the count; of CUZZAMBRA_SPOILING the spoiling input, -1 where there is none; of CUZZAMBRA_REFUSED the refusal's number,
 * 19 or 20; else 0.
 * position, count: of the run after the call; position 0 and count -1 where it is lost.
 */
struct cuzzambra_answer {
    uint32_t kind;
    int32_t value;
    uint32_t position;
    int32_t count;
};

/*
 * Served, answer k is that of call k, and answers behind those of the row stay as they were. Refused, none is written.
 * Refusals of the source come first; then 13, then 2 (a kind that no call has), then 18.
 */
struct cuzzambra_outcome cuzzambra_replay_rule(
    const uint8_t *signals, size_t signals_length,
    const uint8_t *rule, size_t rule_length,
    const uint8_t *book, size_t book_length,
    const struct cuzzambra_call *row, size_t row_length,
    struct cuzzambra_answer *answers, size_t answers_length);

struct cuzzambra_outcome cuzzambra_replay_diagram(
    const uint8_t *diagram, size_t diagram_length,
    const uint8_t *book, size_t book_length,
    const struct cuzzambra_call *row, size_t row_length,
    struct cuzzambra_answer *answers, size_t answers_length);

#ifdef __cplusplus
}
#endif

#endif
