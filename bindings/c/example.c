/*
 * A host of the monitor: reads a terms text and a requests text, makes the
 * requests in one go, as a set list, and prints the answers.
 *
 *     example TERMS REQUESTS [STORED]
 *
 * One line for each request: its number, the answer, and for a refusal its
 * number, separated by tabs. Refused terms print one line only, which says so, and
 * the reason on standard error. Where a third file is named, the monitor is
 * stored in it; read as TERMS, later or elsewhere, it goes on from there.
 *
 * Exit: 0 where the answers are printed, or the line that says what is refused;
 * 1 where nothing could be answered or stored; 2 where it is called wrongly.
 */
#include "cuckooormolu.h"
#include "request_line.h"

#include <stdio.h>
#include <stdlib.h>
#include <string.h>

/* TERMS may be any text that a monitor stores. */
#define MOST_TERMS_BYTES CUCKOOORMOLU_STORED_BYTES
#define MOST_REQUESTS_BYTES 65536

static uint8_t terms_text[MOST_TERMS_BYTES + 1];
static uint8_t requests_text[MOST_REQUESTS_BYTES + 1];

static struct cuckooormolu monitor;

/* The requests, and for each line whether it is one. */
static struct cuckooormolu_record records[MOST_REQUESTS_BYTES];
static bool formed[MOST_REQUESTS_BYTES];

/* The bytes of a file, one more than allowed at most. A file that can't be
 * opened counts as empty. */
static size_t contents(const char *name, uint8_t *bytes, size_t room)
{
    FILE *file = fopen(name, "rb");
    if (file == NULL) {
        perror(name);
        return 0;
    }
    size_t length = fread(bytes, 1, room, file);
    fclose(file);
    return length;
}

/* Takes the lines of a text, and gives their count. A line that is no request
 * has no record. */
static size_t take_all(const uint8_t *text, size_t length, size_t *count)
{
    const uint8_t *end = text + length;
    size_t lines = 0;
    *count = 0;
    while (text < end) {
        const uint8_t *feed = memchr(text, '\n', (size_t)(end - text));
        const uint8_t *stop = feed == NULL ? end : feed + 1;
        formed[lines] = request_line(text, stop, &records[*count]);
        *count += formed[lines++];
        text = stop;
    }
    return lines;
}

static void print_answers(size_t lines)
{
    const struct cuckooormolu_record *record = records;
    for (size_t line = 0; line < lines; line++) {
        if (!formed[line])
            printf("%zu\trefuse\t%d\n", line + 1, CUCKOOORMOLU_REFUSED_FORM);
        else if (cuckooormolu_answer_granted(record->answer))
            printf("%zu\tgrant\n", line + 1);
        else if (cuckooormolu_answer_denied(record->answer))
            printf("%zu\tdeny\n", line + 1);
        else
            printf("%zu\trefuse\t%d\n", line + 1, CUCKOOORMOLU_REFUSED_NAME);
        record += formed[line];
    }
}

/* Asks for the size, stores into memory of that size, and that to a file. */
static bool store_to(const char *name)
{
    size_t size;
    if (!cuckooormolu_done(cuckooormolu_monitor_store_size(&monitor, &size)))
        return false;
    uint8_t *text = malloc(size);
    FILE *file = fopen(name, "wb");
    bool done = text != NULL && file != NULL &&
                cuckooormolu_done(cuckooormolu_monitor_store(&monitor, text,
                                                             size, NULL)) &&
                fwrite(text, 1, size, file) == size;
    free(text);
    if (file != NULL && fclose(file) != 0)
        done = false;
    return done;
}

int main(int argc, char **argv)
{
    if (argc < 3 || argc > 4) {
        fprintf(stderr, "usage: example TERMS REQUESTS [STORED]\n");
        return 2;
    }
    size_t terms_bytes = contents(argv[1], terms_text, sizeof terms_text);
    size_t requests_bytes =
        contents(argv[2], requests_text, sizeof requests_text);
    if (terms_bytes > MOST_TERMS_BYTES) {
        printf("terms\t%d\t0\n", CUCKOOORMOLU_REFUSED_SHORT);
        fprintf(stderr, "%s: more than %d bytes\n", argv[1], MOST_TERMS_BYTES);
        return 0;
    }
    size_t line;
    struct cuckooormolu_result result =
        cuckooormolu_monitor_read(&monitor, terms_text, terms_bytes, &line);
    if (!cuckooormolu_done(result)) {
        printf("terms\t%zu\t%zu\n", cuckooormolu_refusal(result), line);
        fprintf(stderr, "%s, line %zu: %s\n", argv[1], line,
                cuckooormolu_words(result));
        return 0;
    }
    if (requests_bytes > MOST_REQUESTS_BYTES) {
        printf("requests\t%d\t0\n", CUCKOOORMOLU_REFUSED_SHORT);
        fprintf(stderr, "%s: more than %d bytes\n", argv[2],
                MOST_REQUESTS_BYTES);
        return 0;
    }
    size_t count;
    size_t lines = take_all(requests_text, requests_bytes, &count);
    result = cuckooormolu_monitor_set_list(&monitor, records, count, NULL);
    if (!cuckooormolu_done(result)) {
        fprintf(stderr, "%s\n", cuckooormolu_words(result));
        return 1;
    }
    print_answers(lines);
    if (argc == 4 && !store_to(argv[3])) {
        fprintf(stderr, "%s: the state could not be stored\n", argv[3]);
        return 1;
    }
    return 0;
}
