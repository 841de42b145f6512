/* Lists the symbols of a file, or looks one up: by a walk over the names, or in a hash section.
 *
 * usage: example FILE symbols|dynsyms        index, value, size, type, binding, visibility, section, name
 *        example FILE sections               index, type, offset, size, name
 *        example FILE relocs                 section, offset, type, symbol
 *        example FILE notes                  owner and type
 *        example FILE dynamic                tag and value
 *        example FILE versions               index and version of each dynamic symbol
 *        example FILE name NAME              the first dynamic symbol with the name
 *        example FILE hash NAME              the same in the GNU or the SysV hash section
 *        example FILE check                  whether the hash sections are sound
 *        example FILE fault                  whether the file is sound, or its first fault
 */
#include <fcntl.h>
#include <inttypes.h>
#include <stdio.h>
#include <stdlib.h>
#include <string.h>
#include <sys/mman.h>
#include <sys/stat.h>
#include <unistd.h>

#include "nugwier.h"

static const uint8_t *bytes_of(const char *text) { return (const uint8_t *)text; }

static int fail(const char *what, struct nugwier_status status)
{
    char text[128];
    size_t length = nugwier_error_text(&status, (uint8_t *)text, sizeof text);
    if (length > sizeof text) length = sizeof text;
    fprintf(stderr, "%s: %.*s\n", what, (int)length, text);
    return 1;
}

static int list_symbols(const struct nugwier_symbol_table *table)
{
    static struct nugwier_named_symbol places[256];
    size_t first = 0, got;
    while ((got = nugwier_named_symbols(&table->symbols, table->strings, table->strings_len, first, places, 256)) > 0) {
        for (size_t i = 0; i < got; i++) {
            const struct nugwier_symbol *one = &places[i].symbol;
            printf("%zu %016" PRIx64 " %" PRIu64 " %d %d %d %d %.*s\n", first + i, one->value, one->size,
                   one->info & 15, one->info >> 4, one->other & 3, one->shndx, (int)places[i].name_len,
                   (const char *)places[i].name);
        }
        first += got;
    }
    if (first == nugwier_symbol_count(&table->symbols)) return 0;
    struct nugwier_symbol symbol = {0};
    struct nugwier_bytes name = {0};
    struct nugwier_status status = nugwier_symbol(&table->symbols, first, &symbol);
    if (!status.code) status = nugwier_string(table->strings, table->strings_len, symbol.name, &name);
    return fail("symbol or its name", status);
}

static int list_sections(const struct nugwier_file *file)
{
    struct nugwier_section_names names = {0};
    struct nugwier_status status = nugwier_section_names(file, &names);
    if (status.code) return fail("names of the sections", status);
    size_t count = file->has_sections ? nugwier_section_count(&file->sections) : 0;
    for (size_t i = 0; i < count; i++) {
        struct nugwier_section section = {0};
        struct nugwier_bytes name = {0};
        status = nugwier_section(file, i, &section);
        if (status.code) return fail("section", status);
        if (names.found) {
            status = nugwier_string(names.strings, names.strings_len, section.name, &name);
            if (status.code) return fail("name of a section", status);
        }
        printf("%zu %" PRIu32 " %06" PRIx64 " %06" PRIx64 " %.*s\n", i, section.kind, section.offset, section.size,
               (int)name.bytes_len, (const char *)name.bytes);
    }
    return 0;
}

static int list_relocations(const struct nugwier_file *file)
{
    size_t count = file->has_sections ? nugwier_section_count(&file->sections) : 0;
    for (size_t i = 0; i < count; i++) {
        struct nugwier_section section = {0};
        struct nugwier_table table = {0};
        struct nugwier_status status = nugwier_section(file, i, &section);
        if (status.code) return fail("section", status);
        if (section.kind == 4) {
            struct nugwier_rela rela = {0};
            status = nugwier_section_relas(file, &section, &table);
            if (status.code) return fail("relocations", status);
            for (size_t j = 0; j < nugwier_rela_count(&table) && !nugwier_rela(&table, j, &rela).code; j++)
                printf("%zu %" PRIx64 " %" PRIu32 " %" PRIu32 " %" PRId64 "\n", i, rela.offset, rela.kind,
                       rela.symbol, rela.addend);
        } else if (section.kind == 9) {
            struct nugwier_rel rel = {0};
            status = nugwier_section_rels(file, &section, &table);
            if (status.code) return fail("relocations", status);
            for (size_t j = 0; j < nugwier_rel_count(&table) && !nugwier_rel(&table, j, &rel).code; j++)
                printf("%zu %" PRIx64 " %" PRIu32 " %" PRIu32 "\n", i, rel.offset, rel.kind, rel.symbol);
        }
    }
    return 0;
}

static int list_notes(const struct nugwier_file *file)
{
    size_t count = file->has_segments ? nugwier_segment_count(&file->segments) : 0;
    for (size_t i = 0; i < count; i++) {
        struct nugwier_segment segment = {0};
        struct nugwier_notes notes = {0};
        struct nugwier_note note = {0};
        size_t offset = 0;
        struct nugwier_status status = nugwier_segment(file, i, &segment);
        if (status.code) return fail("segment", status);
        if (segment.kind != 4) continue;
        status = nugwier_segment_notes(file, &segment, &notes);
        if (status.code) return fail("notes", status);
        while (!nugwier_note(&notes, &offset, &note).code) {
            if (note.kind == 1) {
                printf("%zu abi-tag %" PRIu32 " %" PRIu32 ".%" PRIu32 ".%" PRIu32 "\n", i, note.tag.os, note.tag.major,
                       note.tag.minor, note.tag.subminor);
            } else if (note.kind == 2) {
                printf("%zu build-id ", i);
                for (size_t j = 0; j < note.desc_len; j++) printf("%02x", note.desc[j]);
                printf("\n");
            } else {
                printf("%zu %.*s %" PRIu64 " %zu\n", i, (int)strnlen((const char *)note.name, note.name_len),
                       (const char *)note.name, note.n_type, note.desc_len);
            }
        }
    }
    return 0;
}

static int list_dynamic(const struct nugwier_file *file)
{
    struct nugwier_dynamic_table table = {0};
    struct nugwier_dynamic one = {0};
    struct nugwier_status status = nugwier_dynamic_table(file, &table);
    if (status.code) return fail("dynamic entries", status);
    if (!table.found) return 0;
    for (size_t i = 0; !nugwier_dynamic(&table.entries, i, &one).code; i++) {
        struct nugwier_name name = {0};
        nugwier_d_tag_name(one.tag, &name);
        printf("%016" PRIx64 " %016" PRIx64 " %.*s\n", (uint64_t)one.tag, one.value, (int)name.bytes_len,
               (const char *)name.bytes);
        if (one.tag == 0) break;
    }
    return 0;
}

static int list_versions(const struct nugwier_file *file, const struct nugwier_symbol_table *table)
{
    struct nugwier_versions versions = {0};
    struct nugwier_status status = nugwier_version_table(file, &versions);
    if (status.code) return fail("versions", status);
    if (!versions.found) return 0;
    struct nugwier_version_place places[256];
    nugwier_place_versions(&versions, places, 256);
    for (size_t i = 0; i < nugwier_symbol_count(&table->symbols); i++) {
        struct nugwier_version version = {0};
        struct nugwier_requirement requirement = {0};
        struct nugwier_definition defined = {0};
        struct nugwier_symbol symbol = {0};
        status = nugwier_symbol(&table->symbols, i, &symbol);
        if (status.code) return fail("symbol", status);
        status = nugwier_version_index(&versions, i, &version);
        if (status.code) return fail("version index", status);
        status = nugwier_placed_requirement(&versions, places, 256, i, &requirement);
        if (status.code) return fail("requirement", status);
        if (requirement.found) {
            printf("%zu @%.*s %.*s\n", i, (int)requirement.name_len, (const char *)requirement.name,
                   (int)requirement.file_len, (const char *)requirement.file);
            continue;
        }
        status = nugwier_placed_definition(&versions, places, 256, i, &defined);
        if (status.code) return fail("definition", status);
        if (defined.found) {
            bool found = false;
            struct nugwier_bytes name = {0};
            status = nugwier_version_name(&defined.names, &found, &name);
            if (status.code) return fail("name of a version", status);
            printf("%zu %s%.*s\n", i, version.hidden ? "@" : "@@", (int)name.bytes_len, (const char *)name.bytes);
        }
    }
    return 0;
}

/* The bytes of the first section of a name: 1 if there is one. */
static int section_bytes(const struct nugwier_file *file, const char *name, struct nugwier_data *part)
{
    bool found = false;
    struct nugwier_section section = {0};
    struct nugwier_status status = nugwier_section_by_name(file, bytes_of(name), strlen(name), &found, &section);
    if (status.code || !found) return 0;
    return nugwier_section_data(file, &section, part).code == 0;
}

static int find_by_hash(const struct nugwier_file *file, const struct nugwier_symbol_table *table, const char *name)
{
    static struct nugwier_common common;
    struct nugwier_found found = {0};
    struct nugwier_status status = nugwier_common(file, &common);
    if (status.code) return fail("symbols and hash sections", status);
    if (common.has_gnu)
        status = nugwier_gnu_look_up(&common.gnu, &table->symbols, table->strings, table->strings_len, bytes_of(name),
                                     strlen(name), &found);
    else if (common.has_sysv)
        status = nugwier_sysv_look_up(&common.sysv, &table->symbols, table->strings, table->strings_len,
                                      bytes_of(name), strlen(name), &found);
    else
        return fputs("no hash section\n", stderr), 1;
    if (status.code) return fail("look-up", status);
    if (found.found) printf("%zu %016" PRIx64 "\n", found.index, found.symbol.value);
    return 0;
}

static int find_by_name(const struct nugwier_symbol_table *table, const char *wanted)
{
    for (size_t i = 0; i < nugwier_symbol_count(&table->symbols); i++) {
        struct nugwier_symbol symbol = {0};
        struct nugwier_bytes name = {0};
        struct nugwier_status status = nugwier_symbol(&table->symbols, i, &symbol);
        if (status.code) return fail("symbol", status);
        status = nugwier_string(table->strings, table->strings_len, symbol.name, &name);
        if (status.code || name.bytes_len != strlen(wanted)) continue;
        if (name.bytes_len && memcmp(name.bytes, wanted, name.bytes_len)) continue;
        printf("%zu %016" PRIx64 "\n", i, symbol.value);
        return 0;
    }
    return 0;
}

static int check(const struct nugwier_file *file, const struct nugwier_symbol_table *table)
{
    const char *names[2] = {".gnu.hash", ".hash"};
    for (int i = 0; i < 2; i++) {
        struct nugwier_data part = {0};
        struct nugwier_verdict verdict = {0};
        if (!section_bytes(file, names[i], &part)) continue;
        struct nugwier_status status = nugwier_hash_check(i == 0, part.bytes, part.bytes_len, &table->symbols,
                                                          table->strings, table->strings_len, &verdict);
        if (status.code) return fail(names[i], status);
        printf("%s %s %zu\n", names[i], verdict.sound ? "sound" : "not sound", verdict.indexed);
    }
    return 0;
}

static int list_fault(const struct nugwier_file *file)
{
    struct nugwier_fault fault = {0};
    char text[256];
    bool sound = false;
    struct nugwier_status status = nugwier_check(file, &sound, &fault);
    if (status.code) return fail("check", status);
    if (sound) return puts("sound"), 0;
    size_t length = nugwier_fault_text(&fault, (uint8_t *)text, sizeof text);
    printf("%.*s\n", (int)length, text);
    return 1;
}

static int answer(const struct nugwier_file *file, const char *what, const char *name)
{
    struct nugwier_symbol_table table = {0};
    if (!strcmp(what, "sections")) return list_sections(file);
    if (!strcmp(what, "relocs")) return list_relocations(file);
    if (!strcmp(what, "notes")) return list_notes(file);
    if (!strcmp(what, "dynamic")) return list_dynamic(file);
    if (!strcmp(what, "fault")) return list_fault(file);
    struct nugwier_status status = nugwier_symbol_table(file, strcmp(what, "symbols") != 0, &table);
    if (status.code) return fail("symbol table", status);
    if (!table.found) return 0;
    if (!strcmp(what, "symbols") || !strcmp(what, "dynsyms")) return list_symbols(&table);
    if (!strcmp(what, "versions")) return list_versions(file, &table);
    if (!strcmp(what, "check")) return check(file, &table);
    if (!strcmp(what, "name") && name) return find_by_name(&table, name);
    if (!strcmp(what, "hash") && name) return find_by_hash(file, &table, name);
    return fputs("unknown request\n", stderr), 2;
}

int main(int argc, char **argv)
{
    if (argc < 3) return fputs("usage: example FILE REQUEST [NAME]\n", stderr), 2;
    int descriptor = open(argv[1], O_RDONLY);
    struct stat about;
    if (descriptor < 0 || fstat(descriptor, &about)) return perror(argv[1]), 1;
    size_t size = (size_t)about.st_size;
    const uint8_t *bytes = size ? mmap(NULL, size, PROT_READ, MAP_PRIVATE, descriptor, 0) : NULL;
    if (bytes == MAP_FAILED) return perror(argv[1]), 1;
    struct nugwier_file file = {0};
    struct nugwier_status status = nugwier_open(bytes, size, &file);
    return status.code ? fail("open", status) : answer(&file, argv[2], argc > 3 ? argv[3] : NULL);
}
