/* Replays a day through the C functions: replay TABLE EVENTS [heaps] reads two files as ./replay does and prints what that prints on
 * standard output, by the engine that looks through a row's children or by the one with heaps. */
#include <errno.h>
#include <inttypes.h>
#include <stdio.h>
#include <stdlib.h>
#include <string.h>

#include "marginlilac.h"

enum { MOST_COLUMNS = 3, REPORT_WORDS = 5, MOST_LINE = 64, MOST_TEXT = 65536 };

static const char table_heading[] = "identifier,parent,share";

/* A table's text and how far it has been read. Lines count from 1. */
struct text {
    char bytes[MOST_TEXT + 1];
    size_t length, at;
    uint32_t line;
};

/* The lines of a file below its heading, column by column. */
struct lines {
    size_t count;
    uint32_t *column[MOST_COLUMNS];
};

/* What the engine writes. Words are little-endian in memory on every machine that the archive is for, so that arrays can be lent as bytes. */
struct results {
    uint32_t *order;
    uint64_t *report;
    int64_t *lags;
    uint32_t *working;
    uint32_t answer[4];
};

static void fail(const char *name, size_t line)
{
    fprintf(stderr, "replay: cannot read %s, line %zu\n", name, line);
    exit(EXIT_FAILURE);
}

/* So many words of this size, and not a byte more; for none of them one, since no slice may be a null pointer. */
static void *room(size_t words, size_t size)
{
    void *memory = calloc(words > 0 ? words : 1, size);
    if (memory == NULL) {
        fputs("replay: out of memory\n", stderr);
        exit(EXIT_FAILURE);
    }
    return memory;
}

/* How many lines a file has, which is read from its beginning again afterwards. */
static size_t count_lines(FILE *file)
{
    size_t count = 0;
    for (int c; (c = getc(file)) != EOF;)
        count += c == '\n';
    rewind(file);
    return count;
}

static int is_end(const char *text)
{
    return strcmp(text, "\n") == 0 || strcmp(text, "\r\n") == 0;
}

/* Numbers with commas between them, and the end of a line; 0 if it is anything else. */
static int read_numbers(const char *text, struct lines *lines, size_t line, size_t columns)
{
    for (size_t column = 0; column < columns; column++) {
        char *end;
        errno = 0;
        unsigned long number = strtoul(text, &end, 10);
        if (*text < '0' || *text > '9' || errno != 0 || number > UINT32_MAX)
            return 0;
        if (column + 1 < columns && *end++ != ',')
            return 0;
        lines->column[column][line] = (uint32_t)number;
        text = end;
    }
    return is_end(text);
}

static struct lines room_for(size_t count, size_t columns)
{
    struct lines lines = {.count = count};
    for (size_t column = 0; column < columns; column++)
        lines.column[column] = room(count, sizeof(uint32_t));
    return lines;
}

static FILE *opened(const char *name)
{
    FILE *file = fopen(name, "rb");
    if (file == NULL)
        fail(name, 1);
    return file;
}

static struct lines read_events(const char *name)
{
    static const char heading[] = "class,length";
    size_t columns = 2, length = strlen(heading);
    char text[MOST_LINE];
    FILE *file = opened(name);
    size_t count = count_lines(file);
    if (fgets(text, sizeof text, file) == NULL || strncmp(text, heading, length) != 0 || !is_end(text + length))
        fail(name, 1);
    struct lines lines = room_for(count - 1, columns);
    for (size_t line = 0; line < lines.count; line++)
        if (fgets(text, sizeof text, file) == NULL || !read_numbers(text, &lines, line, columns))
            fail(name, line + 2);
    if (getc(file) != EOF)
        fail(name, count + 1);
    fclose(file);
    return lines;
}

/* The byte that is looked at; -1 at the end. */
static int looked_at(const struct text *text)
{
    return text->at < text->length ? (unsigned char)text->bytes[text->at] : -1;
}

/* This and the next three give the number of a fault, or 0. Here it is that of a CR with no LF after it. */
static uint32_t read_line_feed(struct text *text)
{
    int c = looked_at(text);
    if (c != '\n')
        return c < 0 ? 47 : 46;
    text->at++;
    text->line++;
    return 0;
}

static uint32_t read_heading(struct text *text)
{
    for (const char *wanted = table_heading; *wanted != '\0'; wanted++, text->at++)
        if (looked_at(text) != *wanted)
            return looked_at(text) < 0 ? 47 : 41;
    switch (looked_at(text)) {
    case '\r':
        text->at++;
        return read_line_feed(text);
    case '\n':
        return 46;
    case -1:
        return 47;
    default:
        return 41;
    }
}

/* A number, and the comma or CR after it. */
static uint32_t read_field(struct text *text, size_t column, uint32_t *word)
{
    uint64_t number = 0;
    size_t begin = text->at;
    int c;
    for (; (c = looked_at(text)) >= '0' && c <= '9'; text->at++) {
        if (text->at > begin && number == 0)
            return 43;
        number = number * 10 + (uint64_t)(c - '0');
        if (number > UINT32_MAX)
            return 44;
    }
    if (c < 0)
        return 47;
    if (text->at == begin)
        return 42;
    if (c == '\n')
        return 46;
    if (c != ',' && c != '\r')
        return 42;
    if ((c == ',') != (column + 1 < MOST_COLUMNS))
        return 45;
    text->at++;
    *word = (uint32_t)number;
    return 0;
}

static uint32_t read_row(struct text *text, struct lines *table)
{
    uint32_t row[MOST_COLUMNS], fault = 0;
    size_t place = text->line - 2;
    for (size_t column = 0; column < MOST_COLUMNS && fault == 0; column++)
        fault = read_field(text, column, &row[column]);
    if (fault == 0)
        fault = read_line_feed(text);
    for (size_t column = 0; column < MOST_COLUMNS && fault == 0; column++)
        table->column[column][place] = row[column];
    return fault;
}

/* A table by the strict form of its text; where that has a fault, the answer is its number and its line. */
static struct lines read_table(const char *name, uint32_t *answer)
{
    static struct text text;
    FILE *file = opened(name);
    size_t count = count_lines(file);
    struct lines table = room_for(count > 0 ? count - 1 : 0, MOST_COLUMNS);
    text.length = fread(text.bytes, 1, sizeof text.bytes, file);
    text.line = 1;
    if (ferror(file))
        fail(name, 1);
    fclose(file);
    if (text.length > MOST_TEXT) {
        answer[0] = 40;
        return table;
    }
    uint32_t fault = read_heading(&text);
    while (fault == 0 && text.at < text.length)
        fault = read_row(&text, &table);
    answer[0] = fault;
    answer[1] = fault != 0 ? text.line : 0;
    return table;
}

static void run(int heaps, const struct lines *table, const struct lines *events, struct results *results)
{
    size_t rows = table->count, count = events->count;
    results->order = room(count, sizeof *results->order);
    results->report = room(rows * REPORT_WORDS, sizeof *results->report);
    results->lags = room(rows, sizeof *results->lags);
    results->working = room(count, sizeof *results->working);
    (heaps ? marginlilac_run_heaps : marginlilac_run)(
        (const uint8_t *)table->column[0], rows * sizeof(uint32_t),
        (const uint8_t *)table->column[1], rows * sizeof(uint32_t),
        (const uint8_t *)table->column[2], rows * sizeof(uint32_t),
        (const uint8_t *)events->column[0], count * sizeof(uint32_t),
        (const uint8_t *)events->column[1], count * sizeof(uint32_t),
        (uint8_t *)results->order, count * sizeof *results->order,
        (uint8_t *)results->report, rows * REPORT_WORDS * sizeof *results->report,
        (uint8_t *)results->lags, rows * sizeof *results->lags,
        (uint8_t *)results->working, count * sizeof *results->working,
        (uint8_t *)results->answer, sizeof results->answer);
}

static void print(const struct lines *table, const struct results *results)
{
    const uint32_t *answer = results->answer;
    printf("answer,place,second,count\r\n");
    printf("%" PRIu32 ",%" PRIu32 ",%" PRIu32 ",%" PRIu32 "\r\n", answer[0], answer[1], answer[2], answer[3]);
    if (answer[0] != 0)
        return;
    printf("order\r\n");
    for (size_t place = 0; place < answer[3]; place++)
        printf("%" PRIu32 "\r\n", results->order[place]);
    printf("identifier,bytes,start,finish,virtual,held,lag\r\n");
    for (size_t row = 0; row < table->count; row++) {
        printf("%" PRIu32, table->column[0][row]);
        for (size_t word = 0; word < REPORT_WORDS; word++)
            printf(",%" PRIu64, results->report[row * REPORT_WORDS + word]);
        printf(",%" PRId64 "\r\n", results->lags[row]);
    }
}

static void release(struct lines *lines)
{
    for (size_t column = 0; column < MOST_COLUMNS; column++)
        free(lines->column[column]);
}

int main(int argc, char **argv)
{
    int heaps = argc == 4 && strcmp(argv[3], "heaps") == 0;
    if (argc != 3 && !heaps) {
        fputs("replay: give a class table and an event list: replay TABLE EVENTS [heaps]\n", stderr);
        return EXIT_FAILURE;
    }
    struct results results = {0};
    struct lines events = {0}, table = read_table(argv[1], results.answer);
    if (results.answer[0] == 0) {
        events = read_events(argv[2]);
        run(heaps, &table, &events, &results);
    }
    print(&table, &results);
    free(results.order);
    free(results.report);
    free(results.lags);
    free(results.working);
    release(&table);
    release(&events);
    return EXIT_SUCCESS;
}
