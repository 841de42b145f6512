/* Lists the dynamic symbols of a file, and reads no more of it than the library names.
 *
 * usage: parts FILE          index, value, size, type, binding, visibility, section, name
 *
 * The last line, on standard error, says how much of the file was read.
 */
#include <fcntl.h>
#include <inttypes.h>
#include <stdio.h>
#include <stdlib.h>
#include <sys/stat.h>
#include <unistd.h>

#include "nugwier.h"

/* what is loaded of a file */
struct parts {
    int descriptor;
    uint64_t size, read;
    struct nugwier_range *ranges;
    size_t count;
};

static int fail(const char *what, struct nugwier_status status)
{
    char text[128];
    size_t length = nugwier_error_text(&status, (uint8_t *)text, sizeof text);
    if (length > sizeof text) length = sizeof text;
    fprintf(stderr, "%s: %.*s\n", what, (int)length, text);
    return 1;
}

/* Reads a range of the file. Returns whether all of it was read: the file may have been cut off. */
static bool read_range(int descriptor, uint8_t *bytes, size_t length, uint64_t start)
{
    for (size_t done = 0; done < length;) {
        ssize_t got = pread(descriptor, bytes + done, length - done, (off_t)(start + done));
        if (got <= 0) return false;
        done += (size_t)got;
    }
    return true;
}

/* Loads the range that a status names, and at least 4096 bytes if the file has them: more small ranges then lie in
 * it. */
static void load(struct parts *parts, struct nugwier_status missing)
{
    uint64_t start = missing.first, end = missing.second;
    if (end - start < 4096) end = parts->size - start < 4096 ? parts->size : start + 4096;
    size_t length = (size_t)(end - start);
    uint8_t *bytes = malloc(length);
    struct nugwier_range *ranges = realloc(parts->ranges, (parts->count + 1) * sizeof *ranges);
    if (!bytes || !ranges || !read_range(parts->descriptor, bytes, length, start)) perror("load"), exit(1);
    ranges[parts->count] = (struct nugwier_range){start, bytes, length};
    parts->ranges = ranges;
    parts->count++;
    parts->read += length;
}

static struct nugwier_status open_file(struct parts *parts, struct nugwier_file *file)
{
    for (;;) {
        struct nugwier_status status = nugwier_open_ranges(parts->size, parts->ranges, parts->count, file);
        if (status.code != NUGWIER_NOT_LOADED) return status;
        load(parts, status);
    }
}

static struct nugwier_status find_symbols(struct parts *parts, struct nugwier_file *file,
                                          struct nugwier_symbol_table *table)
{
    for (;;) {
        file->ranges = parts->ranges;
        file->ranges_len = parts->count;
        struct nugwier_status status = nugwier_symbol_table(file, true, table);
        if (status.code != NUGWIER_NOT_LOADED) return status;
        load(parts, status);
    }
}

static void list(const struct nugwier_symbol_table *table)
{
    static struct nugwier_named_symbol places[256];
    size_t first = 0, got;
    while ((got = nugwier_named_symbols(&table->symbols, table->strings, table->strings_len, first, places, 256)) > 0) {
        for (size_t i = 0; i < got; i++) {
            const struct nugwier_symbol *one = &places[i].symbol;
            printf("%zu %016" PRIx64 " %" PRIu64 " %d %d %d %d %.*s\n", first + i, one->value, one->size,
                   one->info & 15, one->info >> 4, one->other & 3, one->shndx, (int)places[i].name_len,
                   (const char *)places[i].name);
        }
        first += got;
    }
}

int main(int argc, char **argv)
{
    if (argc != 2) return fputs("usage: parts FILE\n", stderr), 2;
    struct parts parts = {open(argv[1], O_RDONLY), 0, 0, NULL, 0};
    struct stat about;
    if (parts.descriptor < 0 || fstat(parts.descriptor, &about)) return perror(argv[1]), 1;
    parts.size = (uint64_t)about.st_size;
    struct nugwier_file file = {0};
    struct nugwier_symbol_table table = {0};
    struct nugwier_status status = open_file(&parts, &file);
    if (status.code) return fail("open", status);
    status = find_symbols(&parts, &file, &table);
    if (status.code) return fail("symbols", status);
    if (table.found) list(&table);
    fprintf(stderr, "%" PRIu64 " of %" PRIu64 " bytes read, in %zu ranges\n", parts.read, parts.size, parts.count);
    for (size_t i = 0; i < parts.count; i++) free((void *)parts.ranges[i].bytes);
    free(parts.ranges);
    return 0;
}
