/* Random texts, diagrams and rows: well formed ones, and what is done to them. */
#ifndef MAKE_H
#define MAKE_H

#include "prng.h"
#include <stdint.h>
#include <stdio.h>
#include <string.h>

enum { LONGEST = 8192 };

struct bytes {
    uint8_t at[LONGEST];
    size_t length;
};

static void add_text(struct bytes *bytes, const char *text)
{
    size_t length = strlen(text);
    if (bytes->length + length <= LONGEST) {
        memcpy(bytes->at + bytes->length, text, length);
        bytes->length += length;
    }
}

static const char *const NAMES[8] = {"a", "b", "c", "d", "p", "q", "r", "s"};

/* A signals text of so many inputs and outputs, at most four of each. */
static void make_signals(struct bytes *out, size_t inputs, size_t outputs)
{
    out->length = 0;
    add_text(out, "in");
    for (size_t k = 0; k < inputs; k++) {
        add_text(out, " ");
        add_text(out, NAMES[k]);
    }
    add_text(out, chance(50) ? "\nout" : " out");
    for (size_t k = 0; k < outputs; k++) {
        add_text(out, " ");
        add_text(out, NAMES[4 + k]);
    }
}

static void add_name(struct bytes *out, size_t inputs, size_t outputs)
{
    size_t k = inputs + outputs == 0 || chance(3) ? 8 : below(inputs + outputs);
    add_text(out, k == 8 ? (chance(50) ? "true" : "false") : k < inputs ? NAMES[k] : NAMES[4 + k - inputs]);
}

/* A rule of at most so many levels over these signals. */
static void add_rule(struct bytes *out, size_t inputs, size_t outputs, size_t levels)
{
    static const char *const BETWEEN[3] = {" | ", " & ", " R "};
    size_t kind = levels == 0 ? 0 : below(10);
    if (kind < 3) {
        add_text(out, chance(30) ? "!" : "");
        add_name(out, inputs, outputs);
    } else if (kind < 5) {
        add_text(out, kind == 3 ? "X (" : "G (");
        add_rule(out, inputs, outputs, levels - 1);
        add_text(out, ")");
    } else {
        add_text(out, "(");
        add_rule(out, inputs, outputs, levels - 1);
        add_text(out, BETWEEN[kind % 3]);
        add_rule(out, inputs, outputs, levels - 1);
        add_text(out, ")");
    }
}

/* What rules of a bench look like: a few duties that hold for ever. */
static void add_duties(struct bytes *out, size_t inputs, size_t outputs)
{
    for (size_t k = 1 + below(3); k > 0; k--) {
        add_text(out, "G (!");
        add_name(out, inputs, outputs);
        add_text(out, chance(40) ? " | X " : " | ");
        add_name(out, inputs, outputs);
        add_text(out, k > 1 ? ") & " : ")");
    }
}

/* A rule near one of the limits: its length, levels, parts, duties, the width of its lists, its positions. */
static void add_large(struct bytes *out, size_t inputs, size_t outputs)
{
    size_t kind = below(4), times = 1 + below(kind == 0 ? 40 : kind == 3 ? 9 : 24);
    for (size_t k = 0; k < times; k++) {
        if (kind == 0) {
            add_text(out, "X ");
        } else if (kind == 1) {
            add_rule(out, inputs, outputs, 2);
            add_text(out, chance(50) ? " & " : " | ");
        } else if (kind == 2) {
            add_text(out, "(");
            add_name(out, inputs, outputs);
            add_text(out, " | X ");
            add_name(out, inputs, outputs);
            add_text(out, ") & ");
        } else {
            add_text(out, k == 0 ? "G (!a | " : "X ");
        }
    }
    add_name(out, inputs, outputs);
    add_text(out, kind == 3 ? ")" : "");
    for (size_t k = chance(10) ? below(40) : 0; k > 0; k--) {
        add_text(out, "                              \n");
    }
}

static void make_rule(struct bytes *out, size_t inputs, size_t outputs)
{
    size_t kind = below(100);
    out->length = 0;
    if (kind < 40) {
        add_duties(out, inputs, outputs);
    } else if (kind < 95) {
        add_rule(out, inputs, outputs, 1 + below(4));
    } else {
        add_large(out, inputs, outputs);
    }
}

/* Words and bytes that texts may hold, put in at random places. */
static const char *const PIECES[] = {"G",  "X", "R", "U",    "F",     "(",  ")",   "!", "&",         "|", " ",
                                     "\n", "a", "p", "true", "false", "in", "out", "^", "abcdefghi", "0"};

static void insert(struct bytes *bytes, size_t at, const uint8_t *piece, size_t length)
{
    if (bytes->length + length <= LONGEST) {
        memmove(bytes->at + at + length, bytes->at + at, bytes->length - at);
        memcpy(bytes->at + at, piece, length);
        bytes->length += length;
    }
}

static void cut(struct bytes *bytes, size_t at, size_t length)
{
    memmove(bytes->at + at, bytes->at + at + length, bytes->length - at - length);
    bytes->length -= length;
}

/* One change of some bytes: one is replaced, changed in a bit, cut, doubled, or a piece is put in. */
static void mutate_once(struct bytes *bytes)
{
    size_t at = below(bytes->length + 1);
    size_t kind = at == bytes->length ? 5 : below(7);
    uint8_t any = (uint8_t)next_random();
    const char *piece = PIECES[below(sizeof PIECES / sizeof PIECES[0])];
    switch (kind) {
    case 0:
        bytes->at[at] = any;
        break;
    case 1:
        bytes->at[at] ^= (uint8_t)(1u << below(8));
        break;
    case 2:
        cut(bytes, at, 1 + below(bytes->length - at));
        break;
    case 3:
        insert(bytes, at, &any, 1);
        break;
    case 4:
        bytes->at[at] = (uint8_t)(bytes->at[at] + 1);
        break;
    case 5:
        insert(bytes, at, (const uint8_t *)piece, strlen(piece));
        break;
    default:
        cut(bytes, at, 1);
        break;
    }
}

static void mutate(struct bytes *bytes)
{
    for (size_t k = 1 + below(3); k > 0; k--) {
        mutate_once(bytes);
    }
}

/* A diagram with a record for some of the moves; every chain is right. Few are large. */
static void make_diagram(struct bytes *out)
{
    int few = !chance(3);
    size_t inputs = below(few ? 3 : 5), outputs = below(few ? 3 : 5), size = 1 + below(few ? 8 : 255), records = 0;
    size_t head = 8, first = 8 + 2 * size;
    memset(out->at, 0, LONGEST);
    for (size_t p = 0; p < size; p++) {
        size_t index = head + 2 * p;
        for (size_t move = 0; move < ((size_t)1 << (inputs + outputs)); move++) {
            uint8_t *record = out->at + first + 8 * records;
            if (chance(25) || first + 8 * (records + 1) > LONGEST) {
                continue;
            }
            record[0] = (uint8_t)(move >> outputs);
            record[1] = (uint8_t)(move & (((size_t)1 << outputs) - 1));
            record[2] = (uint8_t)(1 + below(size));
            records++;
            out->at[index] = (uint8_t)(records >> 8);
            out->at[index + 1] = (uint8_t)records;
            index = (size_t)(record - out->at) + 4;
        }
    }
    const uint8_t fields[6] = {(uint8_t)inputs,         (uint8_t)outputs, (uint8_t)size, (uint8_t)(1 + below(size)),
                               (uint8_t)(records >> 8), (uint8_t)records};
    memcpy(out->at, fields, sizeof fields);
    out->length = first + 8 * records;
}

/* A row of calls, two bytes each: some row of rounds, or any calls; few kinds are no call's. */
static void make_row(struct bytes *out)
{
    size_t calls = below(48);
    int strange = chance(5);
    out->length = 2 * calls;
    for (size_t k = 0; k < calls; k++) {
        size_t kind = chance(60) ? (k % 3 == 0 ? 1 : k % 3 == 1 ? 2 : 3) : 1 + below(7);
        out->at[2 * k] = (uint8_t)(strange && chance(5) ? next_random() : kind);
        out->at[2 * k + 1] = (uint8_t)(chance(90) ? below(4) : next_random());
    }
}

#endif
