/*
 * Reads and writes picture files for the examples: binary PPM (P6) with the maximum value 255. If a file cannot be read or written, the
 * program prints a line that says why and exits with status 1.
 */
#ifndef EXAMPLES_PPM_H
#define EXAMPLES_PPM_H

#include <ctype.h>
#include <errno.h>
#include <stdarg.h>
#include <stdbool.h>
#include <stddef.h>
#include <stdint.h>
#include <stdio.h>
#include <stdlib.h>
#include <string.h>

#include "rdp6.h"

struct picture {
    size_t width, height;
    uint8_t *rgb; /* R, G and B of each pixel, row by row from the top, as PPM has it */
};

static inline void fail(const char *format, ...)
{
    va_list arguments;
    va_start(arguments, format);
    fflush(stdout);
    vfprintf(stderr, format, arguments);
    fputc('\n', stderr);
    va_end(arguments);
    exit(1);
}

static inline uint8_t *allocate(size_t size)
{
    uint8_t *bytes = malloc(size);
    if (bytes == NULL)
        fail("There is not enough memory for this picture: %zu more bytes are needed", size);
    return bytes;
}

/* The next character of a header. A comment, from '#' to the end of the line, counts as the end of the line. */
static inline int header_char(FILE *file)
{
    int next = getc(file);
    if (next == '#')
        do
            next = getc(file);
        while (next != '\n' && next != '\r' && next != EOF);
    return next;
}

/* A word of a header: its first characters, and its length. */
struct word {
    char text[24];
    size_t length;
};

/* The next word, with the blank that ends it. Its length is 0 if the file ends before it. */
static inline struct word header_word(FILE *file)
{
    struct word word = {"", 0};
    int next = header_char(file);
    while (isspace(next))
        next = header_char(file);
    for (; next != EOF && !isspace(next); next = header_char(file)) {
        if (word.length < sizeof word.text - 1)
            word.text[word.length] = isprint(next) ? (char)next : '?';
        word.length++;
    }
    return word;
}

/* The number that the word is; 0 if it is none, or longer than the text of a word. */
static inline size_t word_number(struct word word)
{
    size_t number = 0;
    for (size_t i = 0; i < word.length; i++) {
        if (i == sizeof word.text - 1 || !isdigit((unsigned char)word.text[i]))
            return 0;
        if (number <= RDP6_MAX_SIDE) /* it is too large already */
            number = 10 * number + (size_t)(word.text[i] - '0');
    }
    return number;
}

/* The next number of a header, which must be from first to last. */
static inline size_t header_number(FILE *file, const char *path, const char *name, size_t first, size_t last)
{
    char range[80];
    if (first == last)
        snprintf(range, sizeof range, "%zu", first);
    else
        snprintf(range, sizeof range, "a number from %zu to %zu", first, last);
    struct word word = header_word(file);
    if (word.length == 0)
        fail("%s: the %s is missing; it must be %s", path, name, range);
    size_t number = word_number(word);
    if (number < first || number > last)
        fail("%s: the %s is \"%s%s\", not %s", path, name, word.text, word.length < sizeof word.text ? "" : "...", range);
    return number;
}

/* Whether the file starts with P6 and a blank or a comment. These are read. */
static inline bool starts_with_p6(FILE *file)
{
    int first = getc(file), second = getc(file), third = header_char(file);
    return first == 'P' && second == '6' && (isspace(third) || third == EOF);
}

static inline struct picture read_ppm(const char *path)
{
    FILE *file = fopen(path, "rb");
    bool binary = file != NULL && starts_with_p6(file);
    if (file == NULL || ferror(file))
        fail("%s cannot be read: %s", path, strerror(errno));
    if (!binary)
        fail("%s is not a binary PPM file: it does not start with P6 and a blank. ImageMagick makes one from another picture: "
             "convert OTHER.png -depth 8 OTHER.ppm",
             path);
    size_t width = header_number(file, path, "width", 1, RDP6_MAX_SIDE);
    size_t height = header_number(file, path, "height", 1, RDP6_MAX_SIDE);
    header_number(file, path, "maximum value", 255, 255);
    size_t size = 3 * width * height;
    struct picture picture = {width, height, allocate(size)};
    size_t count = fread(picture.rgb, 1, size, file);
    if (ferror(file))
        fail("%s cannot be read: %s", path, strerror(errno));
    if (count < size)
        fail("%s: %zu x %zu pixels need %zu bytes, but only %zu were found", path, width, height, size, count);
    fclose(file);
    return picture;
}

static inline void write_ppm(const char *path, struct picture picture)
{
    size_t area = picture.width * picture.height;
    FILE *file = fopen(path, "wb");
    bool written = file != NULL && fprintf(file, "P6\n%zu %zu\n255\n", picture.width, picture.height) > 0 &&
                   fwrite(picture.rgb, 3, area, file) == area;
    if (file == NULL || fclose(file) != 0 || !written)
        fail("%s cannot be written: %s", path, strerror(errno));
}

#endif
