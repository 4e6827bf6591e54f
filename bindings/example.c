/* Compiles and solves the rule of the example bench, and runs three rounds by its book. */
#include "cuzzambra.h"
#include <stdio.h>
#include <stdlib.h>

enum { LONGEST_TEXT = 1025 };

struct text {
    uint8_t bytes[LONGEST_TEXT];
    size_t length;
};

/* A text that fills the buffer is too long, and the library says so. */
static struct text read_text(const char *file)
{
    struct text text;
    FILE *in = fopen(file, "rb");
    if (in == NULL) {
        perror(file);
        exit(1);
    }
    text.length = fread(text.bytes, 1, LONGEST_TEXT, in);
    fclose(in);
    return text;
}

static size_t served(const char *call, struct cuzzambra_outcome outcome)
{
    if (outcome.number != 0) {
        fprintf(stderr, "%s: refusal %u, layer %u, text %u, place %zu\n", call, (unsigned)outcome.number,
                (unsigned)outcome.layer, (unsigned)outcome.text, outcome.place);
        exit(1);
    }
    return outcome.length;
}

int main(int argc, char **argv)
{
    /* Load in the first round; in the second the bench sets the lock alone, where the clamp is due; then the door. */
    static const struct cuzzambra_call row[] = {
        {CUZZAMBRA_OPEN, 2}, {CUZZAMBRA_CLOSE, 0}, {CUZZAMBRA_OPEN, 0},  {CUZZAMBRA_SET, 3},   {CUZZAMBRA_CLOSE, 0},
        {CUZZAMBRA_OPEN, 1}, {CUZZAMBRA_SET, 0},   {CUZZAMBRA_CLOSE, 0}, {CUZZAMBRA_COUNT, 0},
    };
    enum { CALLS = sizeof row / sizeof row[0] };
    static uint8_t book[CUZZAMBRA_LONGEST_BOOK];
    struct cuzzambra_answer answers[CALLS];
    if (argc != 3) {
        fprintf(stderr, "usage: example SIGNALS RULE\n");
        return 1;
    }
    struct text signals = read_text(argv[1]);
    struct text rule = read_text(argv[2]);

    size_t length = served(
        "solve", cuzzambra_solve_rule(signals.bytes, signals.length, rule.bytes, rule.length, book, sizeof book));
    printf("book: %zu bytes, %u positions\n", length, (unsigned)book[3]);

    served("accept", cuzzambra_accept_rule(signals.bytes, signals.length, rule.bytes, rule.length, book, length));
    printf("accepted\n");

    size_t told = served("replay", cuzzambra_replay_rule(signals.bytes, signals.length, rule.bytes, rule.length, book,
                                                         length, row, CALLS, answers, CALLS));
    for (size_t k = 0; k < told; k++) {
        printf("call %u %u: answer %u %d, position %u, count %d\n", (unsigned)row[k].kind, (unsigned)row[k].number,
               (unsigned)answers[k].kind, (int)answers[k].value, (unsigned)answers[k].position, (int)answers[k].count);
    }

    book[0]++;
    struct cuzzambra_outcome outcome =
        cuzzambra_accept_rule(signals.bytes, signals.length, rule.bytes, rule.length, book, length);
    printf("one byte wrong: refusal %u, layer %u\n", (unsigned)outcome.number, (unsigned)outcome.layer);
    return 0;
}
