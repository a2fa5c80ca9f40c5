/* The copies of a script, the words of its line, and the replies of script.c. */
#ifndef SCRIPT_WORDS_H
#define SCRIPT_WORDS_H

#include "mapdb.h"
#include <inttypes.h>
#include <stdio.h>
#include <stdlib.h>
#include <string.h>

enum { WORDS = 8, MESSAGES = 4096 };

typedef struct message {
    mapdb_operation *operations;
    uint64_t count;
} message;

static mapdb_copy copies[MAPDB_PROCESSORS];
static uint32_t processors;
static message messages[MESSAGES];
static uint32_t message_count;
static unsigned long line_number;
static char *words[WORDS];
static int word_count;

static void stop(const char *why)
{
    fprintf(stderr, "line %lu: %s\n", line_number, why);
    exit(1);
}

static void *room_for(size_t count, size_t size)
{
    void *room = calloc(count + 1, size);

    if (room == NULL)
        exit(4);
    return room;
}

/* Ends where memory ran out, and else tells whether the call was done. */
static bool is_done(uint32_t status)
{
    if (status == MAPDB_MEMORY)
        exit(4);
    return status == MAPDB_DONE;
}

/* Words. */

static uint64_t number(const char *word, int base)
{
    char *end;
    uint64_t value = strtoull(word, &end, base);

    if (*word == 0 || *end != 0)
        stop("no number");
    return value;
}

static uint32_t decimal(int place)
{
    return (uint32_t)number(words[place], 10);
}

static uint64_t hexadecimal(int place)
{
    return number(words[place], 16);
}

static mapdb_space space_at(int place)
{
    mapdb_space space = {0, 0};
    char *dot = strchr(words[place], '.');

    if (dot != NULL) {
        *dot = 0;
        space.version = (uint32_t)number(dot + 1, 10);
    }
    space.number = decimal(place);
    return space;
}

static uint32_t rights_of(const char *word)
{
    if (strlen(word) != 3)
        stop("no rights");
    return (word[0] == 'r' ? 4u : 0) + (word[1] == 'w' ? 2u : 0) + (word[2] == 'x' ? 1u : 0);
}

static mapdb_fpage fpage_at(int place)
{
    mapdb_fpage made = {0, 0, 0};
    char *word = words[place], *colon = strchr(word, ':'), *slash;

    if (colon != NULL) {
        *colon = 0;
        made.rights = rights_of(colon + 1);
    }
    slash = strchr(word, '/');
    if (strcmp(word, "all") == 0)
        made.order = MAPDB_TOP_ORDER;
    else if (slash != NULL) {
        *slash = 0;
        made.address = number(word, 16);
        made.order = (uint32_t)number(slash + 1, 10);
    } else if (strcmp(word, "nil") != 0)
        stop("no fpage");
    return made;
}

/* The copy of the processor of a word, or none, which is told. */
static mapdb_copy *copy_at(int place)
{
    uint32_t processor = decimal(place);

    if (processor < processors)
        return &copies[processor];
    puts("refused no-processor");
    return NULL;
}

/* Replies. */

static const char *rights_text(uint32_t rights)
{
    static char text[4];

    text[0] = rights & MAPDB_READ ? 'r' : '-';
    text[1] = rights & MAPDB_WRITE ? 'w' : '-';
    text[2] = rights & MAPDB_EXECUTE ? 'x' : '-';
    return text;
}

static void write_space(mapdb_space space)
{
    printf(" %" PRIu32, space.number);
    if (space.version != 0)
        printf(".%" PRIu32, space.version);
}

static void write_frame(uint64_t frame, uint32_t rights)
{
    printf(" %05" PRIx64 ":%s", frame, rights_text(rights));
}

static void refuse_command(uint32_t status, const mapdb_issued *issued)
{
    if (status != MAPDB_SPACE_ENDED && status != MAPDB_ROOT_SPACE &&
        status != MAPDB_NUMBERS_SPENT && status != MAPDB_FULL)
        stop(mapdb_status_name(status));
    printf("refused %s", mapdb_status_name(status));
    if (status == MAPDB_SPACE_ENDED)
        write_space(issued->space);
    puts("");
}

static void reply_taken(uint32_t status, const mapdb_taken *taken)
{
    if (is_done(status))
        printf("taken %" PRIu64 "\n", taken->count);
    else if (status == MAPDB_CLASH)
        printf("refused clash %" PRIu64 ".%" PRIu32 "\n", taken->number, taken->processor);
    else if (status == MAPDB_FULL)
        puts("refused full");
    else
        printf("refused bad %" PRIu64 " %s\n", taken->place, mapdb_status_name(status));
}

static void reply_mapped(uint32_t status, const mapdb_issued *issued)
{
    uint64_t place;

    if (!is_done(status)) {
        refuse_command(status, issued);
        return;
    }
    printf(issued->count == 0 ? "records none" : "records");
    for (place = 0; place < issued->count; place++)
        printf(" %" PRIu64 ".%" PRIu32, issued->first + place, decimal(1));
    puts("");
}

#endif
