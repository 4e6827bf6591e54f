/*
 * Random bytes for every call of the library: fuzz COUNT SEED [DIAGRAM..]. The diagrams in the files are among the sources.
 *
 * COUNT calls are made on fresh inputs: sources that are well formed, changed a little, or made of any bytes, and books
 * and rows likewise. Of each call it is checked that it returns (an alarm says when not), reads and writes only what it
 * is lent (pages behind each buffer may not be touched, guard bytes stand before it), leaves what it may only read,
 * gives an outcome of the documented range, writes nothing where it refuses and nothing behind what it serves, and, made
 * again, does the same. What is solved is also accepted, and with a byte changed refused.
 */
#include "../bindings/cuzzambra.h"
#include "buffer.h"
#include "make.h"
#include "prng.h"
#include <inttypes.h>
#include <signal.h>

enum { SECONDS = 60, POOL = 64, MOST_SEEDS = 8 };

enum entry { SOLVE_RULE, SOLVE_DIAGRAM, ACCEPT_RULE, ACCEPT_DIAGRAM, REPLAY_RULE, REPLAY_DIAGRAM, ENTRIES };

static const char *const ENTRY_NAMES[ENTRIES] = {"solve_rule",     "solve_diagram", "accept_rule",
                                                 "accept_diagram", "replay_rule",   "replay_diagram"};

/* A source with its book, where it has one. */
struct source {
    int is_rule;
    struct bytes signals;
    struct bytes text;
    uint8_t book[CUZZAMBRA_LONGEST_BOOK];
    size_t book_length;
};

static struct source pool[POOL];
static struct bytes seeds[MOST_SEEDS];
static size_t seed_count;
static struct buffer signals, text, book, row, answers;
static uint64_t counts[ENTRIES][22];
static uint64_t done, seed;
static enum entry entry;

static void fail(const char *what)
{
    fprintf(stderr, "FAILED: %s: %s (input %" PRIu64 " of seed %" PRIu64 ")\n", ENTRY_NAMES[entry], what, done, seed);
    exit(1);
}

static void on_signal(int number)
{
    static const char said[] = "FAILED: a signal ended a call: it hung, or touched what it was not lent\n";
    ssize_t written = write(2, said, sizeof said - 1);
    fprintf(stderr, "%s, input %" PRIu64 " of seed %" PRIu64 ", signal %d\n", ENTRY_NAMES[entry], done, seed, number);
    _exit(written < 0 ? 2 : 1);
}

static void check(int holds, const char *what)
{
    if (!holds) {
        fail(what);
    }
}

/* The layer of each refusal's number; 0 for a number that no call comes to. */
static const uint32_t LAYER_OF[22] = {0, 1, 1, 1, 2, 3, 2, 3, 3, 4, 4, 4, 4, 5, 6, 6, 6, 0, 8, 0, 0, 0};

static int is_of_text(uint32_t number)
{
    return number >= 1 && number <= 9;
}

/* Whether a refusal of this number can come from this call. */
static int can_come(uint32_t number)
{
    int is_rule = entry == SOLVE_RULE || entry == ACCEPT_RULE || entry == REPLAY_RULE;
    int is_solve = entry == SOLVE_RULE || entry == SOLVE_DIAGRAM;
    int is_replay = entry == REPLAY_RULE || entry == REPLAY_DIAGRAM;
    if (number <= 12) {
        return is_rule || (number == 2 && is_replay);
    }
    if (number <= 16) {
        return number == 13 ? is_solve || is_replay : !is_rule;
    }
    return !is_solve;
}

static void check_place(struct cuzzambra_outcome o)
{
    size_t longest = o.text == CUZZAMBRA_SIGNALS ? signals.length : text.length;
    if (o.number == 2 && o.text == 0) {
        check(o.place < row.length / 2 && (row.at[2 * o.place] == 0 || row.at[2 * o.place] > 7),
              "the place of a kind that no call has");
    } else if (is_of_text(o.number)) {
        check(o.text == CUZZAMBRA_SIGNALS || o.text == CUZZAMBRA_RULE, "a text that has the place");
        check(o.place <= longest, "a place in the text");
    } else {
        check(o.text == 0, "no text has the place");
        check(o.number < 14 || o.number > 16 || o.place <= text.length, "a place in the diagram");
        check(o.number != CUZZAMBRA_TOO_WIDE || o.place <= 255, "a position as the place");
    }
}

static void check_outcome(struct cuzzambra_outcome o)
{
    check(o.number < 22, "the number of the outcome");
    check(o.layer == LAYER_OF[o.number], "the layer of the number");
    if (o.number == 0) {
        check(o.text == 0 && o.place == 0, "a served call has no place");
    } else {
        check(LAYER_OF[o.number] != 0 && can_come(o.number), "a refusal that this call can give");
        check(o.length == 0, "a refused call has no length");
        check_place(o);
    }
    counts[entry][o.number]++;
}

static void check_guards(void)
{
    check(guard_is_whole(&signals) && guard_is_whole(&text) && guard_is_whole(&book) && guard_is_whole(&row) &&
              guard_is_whole(&answers),
          "bytes before a buffer");
}

static int same_outcome(struct cuzzambra_outcome a, struct cuzzambra_outcome b)
{
    return a.number == b.number && a.layer == b.layer && a.text == b.text && a.place == b.place && a.length == b.length;
}

static struct cuzzambra_outcome solve(void)
{
    if (entry == SOLVE_RULE) {
        return cuzzambra_solve_rule(signals.at, signals.length, text.at, text.length, book.at, book.length);
    }
    return cuzzambra_solve_diagram(text.at, text.length, book.at, book.length);
}

static struct cuzzambra_outcome accept(int is_rule)
{
    if (is_rule) {
        return cuzzambra_accept_rule(signals.at, signals.length, text.at, text.length, book.at, book.length);
    }
    return cuzzambra_accept_diagram(text.at, text.length, book.at, book.length);
}

static struct cuzzambra_outcome replay(int is_rule)
{
    const struct cuzzambra_call *calls = (const struct cuzzambra_call *)row.at;
    struct cuzzambra_answer *told = (struct cuzzambra_answer *)(void *)answers.at;
    size_t room = answers.length / sizeof *told;
    if (is_rule) {
        return cuzzambra_replay_rule(signals.at, signals.length, text.at, text.length, book.at, book.length, calls,
                                     row.length / 2, told, room);
    }
    return cuzzambra_replay_diagram(text.at, text.length, book.at, book.length, calls, row.length / 2, told, room);
}

/* Whether the bytes of a buffer from `from` on are all this byte. */
static int is_filled(const struct buffer *buffer, size_t from, uint8_t byte)
{
    const uint8_t *rest = buffer->at + from;
    size_t length = buffer->length - from;
    return length == 0 || (rest[0] == byte && memcmp(rest, rest + 1, length - 1) == 0);
}

static void fill(struct buffer *buffer, size_t length, uint8_t byte)
{
    set_length(buffer, length);
    memset(buffer->at, byte, length);
}

/* The bytes that a call may only read. */
static struct bytes kept_signals, kept_text;
static uint8_t kept_book[ROOM], kept_row[ROOM];

static void keep(void)
{
    memcpy(kept_signals.at, signals.at, signals.length);
    memcpy(kept_text.at, text.at, text.length);
    memcpy(kept_book, book.at, book.length);
    memcpy(kept_row, row.at, row.length);
}

static void check_kept(int book_too)
{
    check(memcmp(kept_signals.at, signals.at, signals.length) == 0, "the signals text is only read");
    check(memcmp(kept_text.at, text.at, text.length) == 0, "the rule or the diagram is only read");
    check(!book_too || memcmp(kept_book, book.at, book.length) == 0, "the book is only read");
    check(memcmp(kept_row, row.at, row.length) == 0, "the row is only read");
}

/* What was solved is accepted, and with a byte changed it is not. */
static void check_solved(struct source *source, size_t length)
{
    struct cuzzambra_outcome o;
    memcpy(source->book, book.at, length);
    source->book_length = length;
    put(&book, source->book, length);
    o = accept(source->is_rule);
    check(o.number == 0 && o.length == length, "a solved book is accepted");
    book.at[below(length)] ^= (uint8_t)(1 + below(255));
    o = accept(source->is_rule);
    check(o.number == CUZZAMBRA_NOT_THIS_BOOK, "a solved book with a byte changed is refused");
}

static void try_solve(struct source *source)
{
    uint8_t byte = (uint8_t)next_random();
    size_t room = chance(20) ? CUZZAMBRA_LONGEST_BOOK : chance(80) ? 400 : below(400);
    fill(&book, room, byte);
    keep();
    struct cuzzambra_outcome o = solve();
    check_outcome(o);
    check_guards();
    check_kept(0);
    check(o.length <= room && (o.number != 0 || (o.length >= 32 && o.length % 24 == 8)), "the length of a book");
    check(is_filled(&book, o.length, byte), "bytes behind the book, or of a refused solve, are not written");
    if (chance(25)) {
        memcpy(kept_book, book.at, o.length);
        fill(&book, room, (uint8_t)~byte);
        check(same_outcome(o, solve()) && memcmp(kept_book, book.at, o.length) == 0,
              "a call that is made again does the same");
    }
    source->book_length = 0;
    if (o.number == 0) {
        check_solved(source, o.length);
    }
}

static void try_accept(struct source *source)
{
    keep();
    struct cuzzambra_outcome o = accept(source->is_rule);
    check_outcome(o);
    check_guards();
    check_kept(1);
    check(o.number != 0 || o.length == book.length, "the length of an accepted book");
    check(!chance(25) || same_outcome(o, accept(source->is_rule)), "a call that is made again does the same");
}

static void check_answers(size_t length)
{
    const struct cuzzambra_answer *told = (const struct cuzzambra_answer *)(const void *)answers.at;
    for (size_t k = 0; k < length; k++) {
        check(told[k].kind == row.at[2 * k] || told[k].kind == CUZZAMBRA_REFUSED ||
                  told[k].kind == CUZZAMBRA_NOT_ALLOWED,
              "the kind of an answer");
        check(told[k].value >= -1 && told[k].value <= CUZZAMBRA_UNLIMITED, "the value of an answer");
        check(told[k].kind != CUZZAMBRA_REFUSED || told[k].value == 19 || told[k].value == 20,
              "a refusal of a call of a row");
        check(told[k].position <= 255, "the position of an answer");
        check(told[k].count >= -1 && told[k].count <= CUZZAMBRA_UNLIMITED, "the count of an answer");
        check((told[k].position == 0) == (told[k].count == -1), "a lost run is at no position");
    }
}

static void try_replay(struct source *source)
{
    static uint8_t kept_answers[ROOM];
    uint8_t byte = (uint8_t)next_random();
    size_t calls = row.length / 2;
    size_t room = chance(90) ? calls + below(4) : below(calls + 1);
    fill(&answers, room * sizeof(struct cuzzambra_answer), byte);
    keep();
    struct cuzzambra_outcome o = replay(source->is_rule);
    size_t written = o.length * sizeof(struct cuzzambra_answer);
    check_outcome(o);
    check_guards();
    check_kept(1);
    check(o.number != 0 || o.length == calls, "an answer for each call");
    check(o.length <= room && is_filled(&answers, written, byte),
          "answers behind the row, or of a refused replay, are not written");
    check_answers(o.length);
    if (chance(25)) {
        memcpy(kept_answers, answers.at, written);
        fill(&answers, room * sizeof(struct cuzzambra_answer), (uint8_t)~byte);
        check(same_outcome(o, replay(source->is_rule)) && memcmp(kept_answers, answers.at, written) == 0,
              "a call that is made again does the same");
    }
}

static void random_bytes(struct bytes *out)
{
    out->length = below(80);
    for (size_t k = 0; k < out->length; k++) {
        out->at[k] = (uint8_t)next_random();
    }
}

static void new_rule(struct source *source)
{
    size_t inputs = chance(95) ? below(3) : below(5);
    size_t outputs = chance(95) ? below(3) : below(5);
    source->is_rule = 1;
    make_signals(&source->signals, inputs, outputs);
    make_rule(&source->text, inputs, outputs);
    size_t kind = below(100);
    if (kind < 20) {
        mutate(&source->signals);
    } else if (kind < 60) {
        mutate(&source->text);
    } else if (kind < 65) {
        random_bytes(chance(50) ? &source->signals : &source->text);
    }
}

static void new_diagram(struct source *source)
{
    source->is_rule = 0;
    source->signals.length = 0;
    if (seed_count > 0 && chance(10)) {
        source->text = seeds[below(seed_count)];
    } else {
        make_diagram(&source->text);
    }
    size_t kind = below(100);
    if (kind < 60) {
        mutate(&source->text);
    } else if (kind < 65) {
        random_bytes(&source->text);
    }
}

/* A source of the pool of this kind, with a book if one is found soon. */
static struct source *from_pool(int is_rule)
{
    struct source *source = NULL;
    for (size_t k = 0; k < 16; k++) {
        source = &pool[2 * below(POOL / 2) + (size_t)is_rule];
        if (source->book_length > 0) {
            break;
        }
    }
    return source;
}

static void lend(struct source *source)
{
    put(&signals, source->signals.at, source->signals.length);
    put(&text, source->text.at, source->text.length);
    set_length(&row, 0);
    set_length(&answers, 0);
}

/* The source's book, as it is or damaged. */
static void lend_book(const struct source *source, size_t damaged)
{
    size_t length = source->book_length;
    put(&book, source->book, length);
    if (!chance(damaged)) {
        return;
    }
    if (length > 0 && chance(80)) {
        for (size_t k = 1 + below(3); k > 0; k--) {
            book.at[below(length)] = (uint8_t)next_random();
        }
    } else {
        fill(&book, below(length + 40), (uint8_t)next_random());
        memcpy(book.at, source->book, length < book.length ? length : book.length);
    }
}

static void try_one(void)
{
    static const enum entry MIX[20] = {
        SOLVE_RULE,     SOLVE_RULE,    SOLVE_RULE,     SOLVE_DIAGRAM,  SOLVE_DIAGRAM,  SOLVE_DIAGRAM,  SOLVE_DIAGRAM,
        SOLVE_DIAGRAM,  SOLVE_DIAGRAM, SOLVE_DIAGRAM,  ACCEPT_RULE,    ACCEPT_DIAGRAM, ACCEPT_DIAGRAM, ACCEPT_DIAGRAM,
        ACCEPT_DIAGRAM, REPLAY_RULE,   REPLAY_DIAGRAM, REPLAY_DIAGRAM, REPLAY_DIAGRAM, REPLAY_DIAGRAM,
    };
    static struct bytes calls;
    entry = MIX[below(20)];
    int is_rule = entry == SOLVE_RULE || entry == ACCEPT_RULE || entry == REPLAY_RULE;
    if (entry == SOLVE_RULE || entry == SOLVE_DIAGRAM) {
        struct source *source = &pool[2 * below(POOL / 2) + (size_t)is_rule];
        (is_rule ? new_rule : new_diagram)(source);
        lend(source);
        try_solve(source);
        return;
    }
    struct source *source = from_pool(is_rule);
    lend(source);
    if (entry == ACCEPT_RULE || entry == ACCEPT_DIAGRAM) {
        lend_book(source, 80);
        try_accept(source);
        return;
    }
    lend_book(source, 15);
    make_row(&calls);
    put(&row, calls.at, calls.length);
    try_replay(source);
}

static void read_seed(const char *file)
{
    FILE *in = fopen(file, "rb");
    if (in == NULL) {
        perror(file);
        exit(2);
    }
    if (seed_count == MOST_SEEDS) {
        fprintf(stderr, "%s: there are more than %d diagrams\n", file, MOST_SEEDS);
        exit(2);
    }
    struct bytes *out = &seeds[seed_count++];
    out->length = fread(out->at, 1, LONGEST, in);
    fclose(in);
}

static void report(void)
{
    for (size_t e = 0; e < ENTRIES; e++) {
        uint64_t all = 0;
        for (size_t k = 0; k < 22; k++) {
            all += counts[e][k];
        }
        printf("%-15s %12" PRIu64 " inputs, %" PRIu64 " served", ENTRY_NAMES[e], all, counts[e][0]);
        for (size_t k = 1; k < 22; k++) {
            if (counts[e][k] > 0) {
                printf(", %" PRIu64 " refused by %zu", counts[e][k], k);
            }
        }
        printf("\n");
    }
}

static uint64_t read_number(const char *word)
{
    char *end;
    uint64_t number = strtoull(word, &end, 10);
    if (*word < '0' || *word > '9' || *end != '\0') {
        fprintf(stderr, "fuzz: %s is no number\n", word);
        exit(2);
    }
    return number;
}

int main(int argc, char **argv)
{
    if (argc < 3) {
        fprintf(stderr, "usage: fuzz COUNT SEED [DIAGRAM..]\n");
        return 2;
    }
    uint64_t count = read_number(argv[1]);
    seed = read_number(argv[2]);
    prng_state = seed;
    for (int k = 3; k < argc; k++) {
        read_seed(argv[k]);
    }
    signal(SIGALRM, on_signal);
    signal(SIGSEGV, on_signal);
    signal(SIGBUS, on_signal);
    signal(SIGILL, on_signal);
    signal(SIGFPE, on_signal);
    signals = new_buffer();
    text = new_buffer();
    book = new_buffer();
    row = new_buffer();
    answers = new_buffer();
    for (size_t k = 0; k < POOL; k++) {
        pool[k].is_rule = (int)(k % 2);
    }
    printf("seed %" PRIu64 ", %" PRIu64 " inputs\n", seed, count);
    fflush(stdout);
    for (done = 0; done < count; done++) {
        if (done % 64 == 0) {
            alarm(SECONDS);
        }
        try_one();
    }
    alarm(0);
    report();
    printf("passed: %" PRIu64 " inputs of seed %" PRIu64 "\n", count, seed);
    return 0;
}
