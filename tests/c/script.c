/*
 * Runs a script of docs/SCRIPT.md over the library for C, so that its replies can be compared with
 * those of `l4map run`. It has every line but `tree`, and takes well-spelled scripts: a line that
 * it cannot read ends it with status 1.
 */
#include "script_words.h"

static void do_processors(void)
{
    for (processors = 0; processors < decimal(1); processors++)
        if (!is_done(mapdb_create(&copies[processors], processors)))
            stop("processor-count");
}

static void do_map(void)
{
    mapdb_copy *copy = copy_at(1);
    mapdb_space sender = space_at(2), receiver = space_at(5);
    mapdb_fpage page = fpage_at(3), window = fpage_at(6);
    mapdb_issued issued = {0, 0, {0, 0}};

    if (copy != NULL)
        reply_mapped(mapdb_map(copy, sender, hexadecimal(4), &page, receiver, &window, &issued),
                     &issued);
}

static void do_words(void)
{
    mapdb_copy *copy = copy_at(1);
    mapdb_space sender = space_at(2), receiver = space_at(5);
    mapdb_issued issued = {0, 0, {0, 0}};

    if (copy != NULL)
        reply_mapped(mapdb_map_words(copy, sender, hexadecimal(3), hexadecimal(4), receiver,
                                     hexadecimal(6), &issued),
                     &issued);
}

static void do_unmap(void)
{
    mapdb_copy *copy = copy_at(1);
    mapdb_fpage page = fpage_at(3);
    mapdb_issued issued = {0, 0, {0, 0}};
    uint32_t status;

    if (copy == NULL)
        return;
    status = mapdb_unmap(copy, space_at(2), &page, strcmp(words[4], "flush") == 0, &issued);
    if (is_done(status))
        printf("revocations %" PRIu64 "\n", issued.count);
    else
        refuse_command(status, &issued);
}

static void do_end(void)
{
    mapdb_copy *copy = copy_at(1);
    mapdb_space space = space_at(2);
    mapdb_issued issued = {0, 0, {0, 0}};
    uint32_t status;

    if (copy == NULL)
        return;
    status = mapdb_end(copy, space, &issued);
    if (!is_done(status)) {
        refuse_command(status, &issued);
        return;
    }
    printf("ended");
    write_space(space);
    puts("");
}

static void do_rights(void)
{
    mapdb_copy *copy = copy_at(1);
    mapdb_space space = space_at(2);
    mapdb_found *found = (mapdb_found *)room_for(MAPDB_OPERATIONS, sizeof *found);
    uint64_t count = 0, place;

    if (copy != NULL &&
        is_done(mapdb_rights(copy, space, hexadecimal(3) >> 12, found, MAPDB_OPERATIONS, &count))) {
        printf(count == 0 ? "rights none" : "rights");
        for (place = 0; place < count; place++)
            write_frame(found[place].frame, found[place].rights);
        puts("");
    }
    free(found);
}

static void do_served(void)
{
    mapdb_copy *copy = copy_at(1);
    mapdb_found found;

    if (copy == NULL)
        return;
    if (is_done(mapdb_served(copy, space_at(2), hexadecimal(3) >> 12, &found))) {
        printf("served");
        write_frame(found.frame, found.rights);
        puts("");
    } else
        puts("served none");
}

static void do_version(void)
{
    mapdb_copy *copy = copy_at(1);
    uint32_t version;

    if (copy != NULL && is_done(mapdb_free_version(copy, decimal(2), &version)))
        printf("version %" PRIu32 "\n", version);
}

/* The operations of a copy between marks, or none, which is told. */
static bool given(mapdb_copy *copy, uint32_t first, uint32_t end, message *made)
{
    size_t room = end > first ? end - first : 0;

    if (room > MAPDB_OPERATIONS)
        room = MAPDB_OPERATIONS;
    made->operations = (mapdb_operation *)room_for(room, sizeof *made->operations);
    if (is_done(mapdb_give(copy, first, end, made->operations, room, &made->count)))
        return true;
    free(made->operations);
    puts("refused bad-mark");
    return false;
}

static void do_send(void)
{
    mapdb_copy *copy = copy_at(1);

    if (message_count == MESSAGES)
        stop("too many messages");
    if (copy != NULL && given(copy, decimal(2), decimal(3), &messages[message_count])) {
        printf("message %" PRIu32 " %" PRIu64 "\n", message_count, messages[message_count].count);
        message_count++;
    }
}

static void do_deliver(void)
{
    mapdb_copy *copy = copy_at(2);
    uint32_t place = decimal(1);
    mapdb_taken taken;

    if (copy == NULL)
        return;
    if (place >= message_count) {
        puts("refused no-message");
        return;
    }
    reply_taken(mapdb_take(copy, messages[place].operations, messages[place].count, &taken),
                &taken);
}

static void do_merge(void)
{
    mapdb_copy *copy = copy_at(1), *other = copy == NULL ? NULL : copy_at(2);
    message whole;
    mapdb_taken taken;
    uint32_t held, own;

    if (other == NULL || !is_done(mapdb_counts(other, &held, &own)) ||
        !given(other, 0, held, &whole))
        return;
    reply_taken(mapdb_take(copy, whole.operations, whole.count, &taken), &taken);
    free(whole.operations);
}

static void do_compare(bool whether_same)
{
    mapdb_copy *copy = copy_at(1), *other = copy == NULL ? NULL : copy_at(2);
    bool answer = true;

    if (other == NULL)
        return;
    if (copy != other && !is_done(whether_same ? mapdb_same(copy, other, &answer)
                                               : mapdb_covers(copy, other, &answer)))
        stop("no answer");
    printf("%s %s\n", words[0], answer ? "yes" : "no");
}

static void do_save(void)
{
    mapdb_copy *copy = copy_at(1);
    uint8_t none[1], *text;
    uint64_t count = 0;

    if (copy == NULL || is_done(mapdb_snapshot(copy, none, 0, &count)))
        return;
    text = (uint8_t *)room_for(count, 1);
    if (is_done(mapdb_snapshot(copy, text, count, &count)))
        printf("snapshot %s\n", (const char *)text);
    free(text);
}

static void do_load(const char *text)
{
    mapdb_copy *copy = copy_at(1);
    mapdb_taken taken;
    uint32_t status;

    if (copy == NULL)
        return;
    status = mapdb_load(copy, (const uint8_t *)text, strlen(text), &taken);
    if (status == MAPDB_NOT_JSON)
        puts("refused snapshot not-json");
    else if (status == MAPDB_SNAPSHOT_SHAPE)
        puts("refused snapshot shape");
    else if (status == MAPDB_SNAPSHOT_VERSION)
        puts("refused snapshot version");
    else if (status >= MAPDB_TOO_SMALL && status <= MAPDB_UNALIGNED)
        printf("refused snapshot %s\n", mapdb_status_name(status));
    else
        reply_taken(status, &taken);
}

static void do_table(void)
{
    mapdb_copy *copy = copy_at(1);
    mapdb_row none[1], *rows;
    uint64_t count = 0, place;

    if (copy == NULL)
        return;
    if (is_done(mapdb_table(copy, none, 0, &count))) {
        puts("table 0");
        return;
    }
    rows = (mapdb_row *)room_for(count, sizeof *rows);
    if (!is_done(mapdb_table(copy, rows, count, &count)))
        stop("no table");
    printf("table %" PRIu64 "\n", count);
    for (place = 0; place < count; place++) {
        printf("row");
        write_space(rows[place].space);
        printf(" %05" PRIx64 " %" PRIu64, rows[place].page, rows[place].count);
        write_frame(rows[place].frame, rows[place].rights);
        puts("");
    }
    free(rows);
}

typedef struct kind {
    const char *word;
    int words;
    void (*run)(void);
} kind;

static void do_same(void)
{
    do_compare(true);
}

static void do_covers(void)
{
    do_compare(false);
}

static const kind kinds[] = {
    {"processors", 2, do_processors}, {"map", 7, do_map},         {"words", 7, do_words},
    {"unmap", 5, do_unmap},           {"end", 3, do_end},         {"rights", 4, do_rights},
    {"served", 4, do_served},         {"version", 3, do_version}, {"send", 4, do_send},
    {"deliver", 3, do_deliver},       {"merge", 3, do_merge},     {"same", 3, do_same},
    {"covers", 3, do_covers},         {"save", 2, do_save},       {"table", 2, do_table},
};

/* Takes the next word off the line, or none. */
static char *next_word(char **line)
{
    char *word = *line + strspn(*line, " ");

    if (*word == 0)
        return NULL;
    *line = word + strcspn(word, " ");
    if (**line != 0)
        *(*line)++ = 0;
    return word;
}

static void run_line(char *line)
{
    size_t place, length = strcspn(line, "\n");

    if (length != 0 && line[length - 1] == '\r')
        length--;
    line[length] = 0;
    for (word_count = 0; word_count < WORDS; word_count++) {
        if (word_count == 2 && strcmp(words[0], "load") == 0) {
            do_load(line + strspn(line, " "));
            return;
        }
        if ((words[word_count] = next_word(&line)) == NULL)
            break;
    }
    if (word_count == 0 || words[0][0] == '#')
        return;
    for (place = 0; place < sizeof kinds / sizeof *kinds; place++)
        if (strcmp(words[0], kinds[place].word) == 0 && word_count == kinds[place].words) {
            kinds[place].run();
            return;
        }
    stop("unknown");
}

int main(void)
{
    /* The longest line of a script is 8,388,608 bytes, and may end with a return. */
    static char line[8388608 + 3];
    uint32_t place;

    while (fgets(line, sizeof line, stdin) != NULL) {
        line_number++;
        run_line(line);
    }
    for (place = 0; place < message_count; place++)
        free(messages[place].operations);
    for (place = 0; place < MAPDB_PROCESSORS; place++)
        mapdb_destroy(&copies[place]);
    return 0;
}
