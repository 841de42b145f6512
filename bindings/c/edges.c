/* Calls each function with no bytes, with empty tables, and with a file in which one byte after the other is damaged.
 * Built with -fsanitize=address,undefined it shows that what C gives and gets is used as nugwier.h says.
 *
 * usage: edges FILE
 */
#include <stdio.h>
#include <stdlib.h>
#include <string.h>

#include "nugwier.h"

static unsigned long seen;

/* How many symbols are compared with what places find of them: all of the file as it is, few of damaged ones. */
static size_t most_placed = SIZE_MAX;

/* Reads each byte, so that the sanitizer sees a range that is not there. */
static void touch(const uint8_t *bytes, size_t length)
{
    for (size_t i = 0; i < length; i++) seen += bytes[i];
}

static void expect(int holds, const char *what)
{
    if (!holds) {
        fprintf(stderr, "edges: %s\n", what);
        exit(1);
    }
}

static bool same_status(struct nugwier_status one, struct nugwier_status other)
{
    return one.code == other.code && one.first == other.first && one.second == other.second;
}

static bool same_bytes(const uint8_t *one, size_t length, const uint8_t *other, size_t other_length)
{
    return length == other_length && (!length || !memcmp(one, other, length));
}

static bool same_table(const struct nugwier_table *one, const struct nugwier_table *other)
{
    return one->little == other->little && one->is_64 == other->is_64 &&
           same_bytes(one->bytes, one->bytes_len, other->bytes, other->bytes_len);
}

static void read_notes(const struct nugwier_notes *notes)
{
    struct nugwier_note note = {0};
    struct nugwier_note many[4];
    memset(many, 0, sizeof many);
    size_t offset = 0, end = 0, before = 0;
    size_t got = nugwier_note_list(notes, &end, many, 4);
    for (size_t i = 0; i < 100 && !nugwier_note(notes, &offset, &note).code; i++) {
        touch(note.name, note.name_len);
        touch(note.desc, note.desc_len);
        if (i >= got) continue;
        expect(note.kind == many[i].kind && note.desc_len == many[i].desc_len, "a note of many is another one");
        before = offset;
    }
    expect(before == end, "many notes leave another offset");
}

/* An opened section answers as the section does. */
static void read_opened(const struct nugwier_data *part, const struct nugwier_symbol_table *table, bool gnu,
                        struct nugwier_status looked, const struct nugwier_found *found)
{
    struct nugwier_gnu opened_gnu;
    struct nugwier_sysv opened_sysv;
    struct nugwier_found again;
    memset(&opened_gnu, 0, sizeof opened_gnu);
    memset(&opened_sysv, 0, sizeof opened_sysv);
    memset(&again, 0, sizeof again);
    bool little = table->symbols.little, is_64 = table->symbols.is_64;
    const uint8_t *name = (const uint8_t *)"printf";
    struct nugwier_status status =
        gnu ? nugwier_gnu_open(little, is_64, part->bytes, part->bytes_len, &opened_gnu)
            : nugwier_sysv_open(little, is_64, part->bytes, part->bytes_len, &opened_sysv);
    if (!status.code)
        status = gnu ? nugwier_gnu_look_up(&opened_gnu, &table->symbols, table->strings, table->strings_len, name, 6,
                                           &again)
                     : nugwier_sysv_look_up(&opened_sysv, &table->symbols, table->strings, table->strings_len, name, 6,
                                            &again);
    expect(status.code == looked.code && status.first == looked.first && status.second == looked.second,
           "an opened section has another error");
    expect(again.found == found->found && again.index == found->index && again.symbol.value == found->symbol.value,
           "an opened section finds another symbol");
}

static void read_hash(const struct nugwier_data *part, const struct nugwier_symbol_table *table, bool gnu)
{
    struct nugwier_found found = {0};
    struct nugwier_verdict verdict = {0};
    const uint8_t *name = (const uint8_t *)"printf";
    struct nugwier_status looked = (gnu ? nugwier_gnu_find : nugwier_sysv_find)(
        part->bytes, part->bytes_len, &table->symbols, table->strings, table->strings_len, name, 6, &found);
    struct nugwier_status checked = nugwier_hash_check(gnu, part->bytes, part->bytes_len, &table->symbols,
                                                       table->strings, table->strings_len, &verdict);
    if (!checked.code && verdict.sound) expect(looked.code == 0, "a look-up in a sound section failed");
    read_opened(part, table, gnu, looked, &found);
}

static void read_section(const struct nugwier_file *file, const struct nugwier_section *section,
                         const struct nugwier_symbol_table *table)
{
    struct nugwier_data part = {0};
    struct nugwier_bytes strings = {0};
    struct nugwier_table records = {0};
    struct nugwier_notes notes = {0};
    struct nugwier_rel rels[8];
    struct nugwier_rela relas[8];
    if (!nugwier_section_data(file, section, &part).code) {
        touch(part.bytes, part.bytes_len < 512 ? part.bytes_len : 512);
        if (section->kind == 0x6ffffff6) read_hash(&part, table, true);
        if (section->kind == 5) read_hash(&part, table, false);
    }
    if (!nugwier_section_strings(file, section, &strings).code && strings.bytes_len)
        touch(strings.bytes + strings.bytes_len - 1, 1);
    if (!nugwier_section_rels(file, section, &records).code) nugwier_rels(&records, 0, rels, 8);
    if (!nugwier_section_relas(file, section, &records).code) nugwier_relas(&records, 0, relas, 8);
    if (!nugwier_section_notes(file, section, &notes).code) read_notes(&notes);
}

static void read_versions(const struct nugwier_file *file)
{
    struct nugwier_versions versions = {0};
    if (nugwier_version_table(file, &versions).code || !versions.found) return;
    for (size_t i = 0; i < 20; i++) {
        struct nugwier_version version = {0};
        struct nugwier_requirement requirement = {0};
        struct nugwier_definition defined = {0};
        if (nugwier_version_index(&versions, i, &version).code) return;
        if (!nugwier_requirement(&versions, i, &requirement).code && requirement.found)
            touch(requirement.name, requirement.name_len);
        if (nugwier_definition(&versions, i, &defined).code || !defined.found) continue;
        bool found = true;
        for (int j = 0; found && j < 10; j++) {
            struct nugwier_bytes name = {0};
            nugwier_version_name(&defined.names, &found, &name);
            touch(name.bytes, name.bytes_len);
        }
    }
}

static bool same_requirement(const struct nugwier_requirement *one, const struct nugwier_requirement *other)
{
    return one->found == other->found && one->hidden == other->hidden && one->flags == other->flags &&
           one->hash == other->hash && same_bytes(one->file, one->file_len, other->file, other->file_len) &&
           same_bytes(one->name, one->name_len, other->name, other->name_len);
}

static bool same_definition(const struct nugwier_definition *one, const struct nugwier_definition *other)
{
    return one->found == other->found && one->hidden == other->hidden && one->flags == other->flags &&
           one->hash == other->hash && one->names.count == other->names.count &&
           one->names.offset == other->names.offset && same_table(&one->names.entries, &other->names.entries) &&
           same_bytes(one->names.strings, one->names.strings_len, other->names.strings, other->names.strings_len);
}

/* What a symbol has is the same with any number of places. */
static void read_placed(const struct nugwier_versions *versions, const struct nugwier_version_place *places,
                        size_t count, size_t symbol)
{
    struct nugwier_requirement needed = {.hash = 1}, needed_by_place = {.hash = 1};
    struct nugwier_definition defined = {.hash = 1}, defined_by_place = {.hash = 1};
    struct nugwier_status status = nugwier_requirement(versions, symbol, &needed);
    expect(same_status(status, nugwier_placed_requirement(versions, places, count, symbol, &needed_by_place)) &&
               same_requirement(&needed, &needed_by_place),
           "another requirement by places");
    status = nugwier_definition(versions, symbol, &defined);
    expect(same_status(status, nugwier_placed_definition(versions, places, count, symbol, &defined_by_place)) &&
               same_definition(&defined, &defined_by_place),
           "another definition by places");
}

/* Places that no call filled: each look-up ends, and reads only what lies in the bytes. */
static void read_forged(const struct nugwier_versions *versions, size_t symbol)
{
    struct nugwier_version_place forged[64];
    struct nugwier_requirement needed = {0};
    struct nugwier_definition defined = {0};
    struct nugwier_bytes name = {0};
    bool found = false;
    for (size_t i = 0; i < 64; i++) {
        uint32_t offset = i % 2 ? (uint32_t)i : UINT32_MAX;
        forged[i].need = (struct nugwier_placed_need){UINT16_MAX, 0, 0, offset, offset};
        forged[i].definition = (struct nugwier_placed_definition){1, 0, 0, UINT64_MAX, i % 2 ? i : SIZE_MAX};
    }
    if (!nugwier_placed_requirement(versions, forged, 64, symbol, &needed).code && needed.found)
        touch(needed.name, needed.name_len);
    if (nugwier_placed_definition(versions, forged, 64, symbol, &defined).code || !defined.found) return;
    if (!nugwier_version_name(&defined.names, &found, &name).code && found) touch(name.bytes, name.bytes_len);
}

static void read_by_places(const struct nugwier_file *file)
{
    struct nugwier_versions versions = {0};
    struct nugwier_version version = {0};
    struct nugwier_version_place places[200], few[2];
    if (nugwier_version_table(file, &versions).code || !versions.found) return;
    memset(places, 0xff, sizeof places);
    memset(few, 0xff, sizeof few);
    nugwier_place_versions(&versions, places, 200);
    nugwier_place_versions(&versions, few, 2);
    for (size_t i = 0; i < most_placed && !nugwier_version_index(&versions, i, &version).code; i++) {
        read_placed(&versions, places, 200, i);
        read_placed(&versions, few, 2, i);
        read_placed(&versions, NULL, 0, i);
        read_forged(&versions, i);
    }
    read_placed(&versions, places, 200, SIZE_MAX);
}

static void read_common(const struct nugwier_file *file)
{
    struct nugwier_common common;
    memset(&common, 0, sizeof common);
    common.has_gnu = true;
    if (nugwier_common(file, &common).code) {
        expect(common.has_gnu && !common.symbols.found, "an error changed what was found");
        return;
    }
    struct nugwier_found found = {0};
    const uint8_t *name = (const uint8_t *)"free";
    const struct nugwier_symbol_table *table = &common.dynamic_symbols;
    if (table->found) touch(table->strings, table->strings_len < 64 ? table->strings_len : 64);
    if (common.has_gnu)
        nugwier_gnu_look_up(&common.gnu, &table->symbols, table->strings, table->strings_len, name, 4, &found);
    if (common.has_sysv)
        nugwier_sysv_look_up(&common.sysv, &table->symbols, table->strings, table->strings_len, name, 4, &found);
    struct nugwier_dynamic entries[4];
    if (common.dynamics.found) nugwier_dynamics(&common.dynamics.entries, 0, entries, 4);
}

static void touch_found(struct nugwier_status status, const struct nugwier_found_bytes *found)
{
    if (!status.code && found->found) touch(found->bytes, found->bytes_len);
}

static void read_names(const struct nugwier_file *file)
{
    struct nugwier_dynamic_names names = {0};
    struct nugwier_found_bytes bytes = {0};
    struct nugwier_needed needed = {0};
    touch_found(nugwier_build_id(file, &bytes), &bytes);
    if (nugwier_dynamic_names(file, &names).code || !names.found) return;
    touch_found(nugwier_soname(&names, &bytes), &bytes);
    touch_found(nugwier_runpath(&names, &bytes), &bytes);
    touch_found(nugwier_rpath(&names, &bytes), &bytes);
    size_t next = 0, before = 0;
    for (;; before = next) {
        struct nugwier_status status = nugwier_needed(&names, &next, &needed);
        if (!status.code && !needed.found) break;
        expect(next > before, "a walk over libraries that stands still");
        if (!status.code) touch(needed.name, needed.name_len);
    }
    expect(next == before, "a walk over libraries that goes on past its end");
}

/* The symbol at an address, by a look at each: objects and functions that a section of the file defines. */
static void find_at(const struct nugwier_table *table, uint64_t address)
{
    struct nugwier_found found = {0}, wanted = {0};
    struct nugwier_symbol one = {0};
    for (size_t i = 0; !nugwier_symbol(table, i, &one).code; i++) {
        int type = one.info & 15;
        if ((type != 1 && type != 2 && type != 10) || !one.shndx || one.shndx == 0xfff1 || one.shndx == 0xfff2) continue;
        if (one.value <= address && (!wanted.found || wanted.symbol.value <= one.value))
            wanted = (struct nugwier_found){true, i, one};
    }
    nugwier_symbol_at(table, address, &found);
    expect(found.found == wanted.found && found.index == wanted.index && found.symbol.value == wanted.symbol.value,
           "another symbol at an address");
}

/* The first of all faults is that of the check, fewer places hold the same ones, and what is past them stays. */
static void read_faults(const struct nugwier_file *file, const struct nugwier_fault *first)
{
    struct nugwier_fault faults[64], some[3];
    size_t count = 0, count_of_some = 0;
    memset(some, 0x5a, sizeof some);
    expect(!nugwier_faults(file, faults, 64, &count).code && count <= 64, "the faults of a file in memory");
    expect((count == 0) == (first->kind == NUGWIER_NO_FAULT), "faults of a sound file, or none");
    expect(!count || !memcmp(faults, first, sizeof *first), "another first fault");
    expect(!nugwier_faults(file, some, 2, &count_of_some).code, "the first faults");
    expect(count_of_some == (count < 2 ? count : 2), "another number of first faults");
    expect(!memcmp(some, faults, count_of_some * sizeof *some), "other first faults");
    for (const uint8_t *byte = (const uint8_t *)(some + count_of_some); byte < (const uint8_t *)(some + 3); byte++)
        expect(*byte == 0x5a, "a place past the faults was written");
    expect(!nugwier_faults(file, NULL, 0, &count).code && count == 0, "faults without places");
}

/* Of a file that is called sound these calls return no error. */
static void read_checked(const struct nugwier_file *file)
{
    struct nugwier_fault fault = {0};
    struct nugwier_section_names names = {0};
    struct nugwier_bytes name = {0};
    uint8_t text[256];
    bool sound = false;
    expect(!nugwier_check(file, &sound, &fault).code, "a check of a file in memory");
    size_t length = nugwier_fault_text(&fault, text, sizeof text);
    expect(sound == (fault.kind == NUGWIER_NO_FAULT) && sound == (length == 0), "a fault of a sound file, or none");
    expect(length < sizeof text, "a long text of a fault");
    read_faults(file, &fault);
    if (!sound) return;
    struct nugwier_section named = {0};
    struct nugwier_versions versions = {0};
    bool found = false;
    expect(!nugwier_section_names(file, &names).code, "the names of a sound file");
    expect(!nugwier_section_by_name(file, (const uint8_t *)".text", 5, &found, &named).code, "a name of a sound file");
    expect(!nugwier_version_table(file, &versions).code, "the versions of a sound file");
    size_t count = file->has_sections ? nugwier_section_count(&file->sections) : 0;
    for (size_t i = 0; i < count; i++) {
        struct nugwier_section section = {0};
        struct nugwier_data data = {0};
        expect(!nugwier_section(file, i, &section).code, "a section of a sound file");
        expect(!nugwier_section_data(file, &section, &data).code, "the bytes of a section of a sound file");
        expect(!names.found || !nugwier_string(names.strings, names.strings_len, section.name, &name).code,
               "the name of a section of a sound file");
    }
    for (int dynamic = 0; dynamic < 2; dynamic++) {
        struct nugwier_symbol_table table = {0};
        expect(!nugwier_symbol_table(file, dynamic, &table).code, "the symbols of a sound file");
        size_t symbols = nugwier_symbol_count(&table.symbols);
        for (size_t i = 0; i < symbols; i++) {
            struct nugwier_symbol symbol = {0};
            expect(!nugwier_symbol(&table.symbols, i, &symbol).code, "a symbol of a sound file");
            expect(!nugwier_string(table.strings, table.strings_len, symbol.name, &name).code,
                   "the name of a symbol of a sound file");
        }
    }
}

static void read_by_parts(const uint8_t *bytes, size_t length);

static void read_all(const uint8_t *bytes, size_t length)
{
    struct nugwier_file file = {0};
    struct nugwier_status status = nugwier_open(bytes, length, &file);
    if (status.code) {
        expect(file.bytes == NULL && !file.has_sections, "an error changed the handle");
        return;
    }
    struct nugwier_symbol_table table = {0};
    struct nugwier_dynamic_table dynamics = {0};
    struct nugwier_section_names names = {0};
    struct nugwier_symbol symbols[16];
    struct nugwier_section section = {0};
    struct nugwier_segment segment = {0};
    bool found = false;
    if (!nugwier_symbol_table(&file, true, &table).code && table.found) {
        size_t got = nugwier_symbols(&table.symbols, 0, symbols, 16);
        for (size_t i = 0; i < got; i++) {
            struct nugwier_bytes name = {0};
            struct nugwier_symbol one = {0};
            expect(nugwier_symbol(&table.symbols, i, &one).code == 0, "a symbol of many is not there by itself");
            expect(memcmp(&one, &symbols[i], sizeof one) == 0, "a symbol of many is another one by itself");
            if (!nugwier_string(table.strings, table.strings_len, one.name, &name).code)
                touch(name.bytes, name.bytes_len);
        }
        struct nugwier_named_symbol named[16];
        size_t many = nugwier_named_symbols(&table.symbols, table.strings, table.strings_len, 0, named, 16);
        expect(many <= got, "there are more symbols with names than symbols");
        for (size_t i = 0; i < got; i++) {
            struct nugwier_bytes name = {0};
            bool has_name = !nugwier_string(table.strings, table.strings_len, symbols[i].name, &name).code;
            if (i == many) expect(!has_name, "a symbol with a name is not among those with names");
            if (i >= many) break;
            expect(memcmp(&named[i].symbol, &symbols[i], sizeof symbols[i]) == 0, "a named symbol is another one");
            expect(named[i].name == name.bytes && named[i].name_len == name.bytes_len, "a symbol has another name");
        }
    }
    if (!nugwier_dynamic_table(&file, &dynamics).code && dynamics.found) {
        struct nugwier_dynamic entries[8];
        nugwier_dynamics(&dynamics.entries, 0, entries, 8);
    }
    nugwier_section_names(&file, &names);
    nugwier_section_by_name(&file, (const uint8_t *)".dynstr", 7, &found, &section);
    nugwier_section_by_name(&file, (const uint8_t *)"\xff\xfe", 2, &found, &section);
    expect(!found, "a section of a name that no section has");
    for (size_t i = 0; i < 64 && !nugwier_section(&file, i, &section).code; i++) read_section(&file, &section, &table);
    for (size_t i = 0; i < 32 && !nugwier_segment(&file, i, &segment).code; i++) {
        struct nugwier_bytes part = {0};
        struct nugwier_notes notes = {0};
        if (!nugwier_segment_data(&file, &segment, &part).code && part.bytes_len)
            touch(part.bytes + part.bytes_len - 1, 1);
        if (!nugwier_segment_notes(&file, &segment, &notes).code) read_notes(&notes);
    }
    find_at(&table.symbols, 0);
    find_at(&table.symbols, UINT64_MAX);
    find_at(&table.symbols, file.header.entry);
    read_versions(&file);
    read_by_places(&file);
    read_common(&file);
    read_names(&file);
    read_checked(&file);
    read_by_parts(bytes, length);
}

/* ---- a file by parts */

/* A file of which a range is loaded when a call names it: each range a copy of its own, so that the sanitizer sees a read
 * beside it. */
struct parts {
    const uint8_t *bytes;
    size_t length;
    struct nugwier_range ranges[100];
    size_t count;
    struct nugwier_file file;
};

static void add_range(struct parts *parts, uint64_t start, size_t length)
{
    expect(parts->count < 100, "a call names range after range");
    uint8_t *copy = malloc(length ? length : 1);
    if (!copy) exit(1);
    if (length) memcpy(copy, parts->bytes + start, length);
    /* at the front or at the end: the order does not matter */
    size_t place = parts->count % 2 ? 0 : parts->count;
    memmove(parts->ranges + place + 1, parts->ranges + place, (parts->count - place) * sizeof *parts->ranges);
    parts->ranges[place] = (struct nugwier_range){start, copy, length};
    parts->count++;
    parts->file.ranges = parts->ranges;
    parts->file.ranges_len = parts->count;
}

static bool lies_within(const struct nugwier_range *range, uint64_t start, uint64_t end)
{
    return range->start <= start && end - range->start <= range->bytes_len;
}

/* Loads what a status names, and before it all but the last byte of that, after which the same is named again. */
static bool load(struct parts *parts, struct nugwier_status status, struct nugwier_status *before)
{
    if (status.code != NUGWIER_NOT_LOADED) return false;
    expect(status.first < status.second && status.second <= parts->length, "a missing range that is not in the file");
    for (size_t i = 0; i < parts->count; i++)
        expect(!lies_within(&parts->ranges[i], status.first, status.second), "a missing range that is loaded");
    bool again = status.first == before->first && status.second == before->second;
    add_range(parts, status.first, (size_t)(status.second - status.first) - !again);
    *before = status;
    return true;
}

/* The status of a call once all that it names is loaded. */
#define BY_PARTS(call)                                      \
    do {                                                    \
        struct nugwier_status before = {0, 0, 0};           \
        while (load(&parts, status = (call), &before)) {}   \
    } while (0)

static bool same_symbols(const struct nugwier_symbol_table *one, const struct nugwier_symbol_table *other)
{
    return one->found == other->found && same_table(&one->symbols, &other->symbols) &&
           same_bytes(one->strings, one->strings_len, other->strings, other->strings_len);
}

static bool same_entries(const struct nugwier_entries *one, const struct nugwier_entries *other)
{
    return one->found == other->found && one->count == other->count && same_table(&one->entries, &other->entries) &&
           same_bytes(one->strings, one->strings_len, other->strings, other->strings_len);
}

static bool same_hashes(const struct nugwier_common *one, const struct nugwier_common *other)
{
    return one->has_gnu == other->has_gnu && one->has_sysv == other->has_sysv &&
           one->gnu.nbucket == other->gnu.nbucket && one->gnu.first == other->gnu.first &&
           one->gnu.nbloom == other->gnu.nbloom && one->gnu.nshift == other->gnu.nshift &&
           same_bytes(one->gnu.bloom, one->gnu.bloom_len, other->gnu.bloom, other->gnu.bloom_len) &&
           same_bytes(one->gnu.buckets, one->gnu.buckets_len, other->gnu.buckets, other->gnu.buckets_len) &&
           same_bytes(one->gnu.chains, one->gnu.chains_len, other->gnu.chains, other->gnu.chains_len) &&
           same_bytes(one->sysv.buckets, one->sysv.buckets_len, other->sysv.buckets, other->sysv.buckets_len) &&
           same_bytes(one->sysv.chains, one->sysv.chains_len, other->sysv.chains, other->sysv.chains_len);
}

static void forget(struct parts *parts, size_t left)
{
    while (parts->count > left) free((void *)parts->ranges[--parts->count].bytes);
    parts->file.ranges_len = left;
}

/* A file with the headers of `whole` and no range loaded: each call starts from nothing. */
#define FRESH(of)                                                                                    \
    struct parts parts = {.bytes = (of)->bytes, .length = (of)->bytes_len, .file = *(of)};           \
    parts.file.bytes = NULL;                                                                         \
    parts.file.bytes_len = 0;                                                                        \
    struct nugwier_status status

static void section_by_parts(const struct nugwier_file *whole, const struct nugwier_section *section)
{
    FRESH(whole);
    struct nugwier_data data = {0}, data_of_parts = {0};
    BY_PARTS(nugwier_section_data(&parts.file, section, &data_of_parts));
    expect(same_status(status, nugwier_section_data(whole, section, &data)) &&
               same_bytes(data.bytes, data.bytes_len, data_of_parts.bytes, data_of_parts.bytes_len) &&
               data.compression.size == data_of_parts.compression.size,
           "other bytes of a section by parts");
    forget(&parts, 0);
    struct nugwier_bytes strings = {0}, strings_of_parts = {0};
    BY_PARTS(nugwier_section_strings(&parts.file, section, &strings_of_parts));
    expect(same_status(status, nugwier_section_strings(whole, section, &strings)) &&
               same_bytes(strings.bytes, strings.bytes_len, strings_of_parts.bytes, strings_of_parts.bytes_len),
           "other strings by parts");
    forget(&parts, 0);
    struct nugwier_table table = {0}, table_of_parts = {0};
    BY_PARTS(nugwier_section_rels(&parts.file, section, &table_of_parts));
    expect(same_status(status, nugwier_section_rels(whole, section, &table)) && same_table(&table, &table_of_parts),
           "other relocations by parts");
    forget(&parts, 0);
    BY_PARTS(nugwier_section_relas(&parts.file, section, &table_of_parts));
    expect(same_status(status, nugwier_section_relas(whole, section, &table)) && same_table(&table, &table_of_parts),
           "other relocations with addends by parts");
    forget(&parts, 0);
    struct nugwier_notes notes = {0}, notes_of_parts = {0};
    BY_PARTS(nugwier_section_notes(&parts.file, section, &notes_of_parts));
    expect(same_status(status, nugwier_section_notes(whole, section, &notes)) && notes.align == notes_of_parts.align &&
               same_bytes(notes.bytes, notes.bytes_len, notes_of_parts.bytes, notes_of_parts.bytes_len),
           "other notes by parts");
    forget(&parts, 0);
}

static void segment_by_parts(const struct nugwier_file *whole, const struct nugwier_segment *segment)
{
    FRESH(whole);
    struct nugwier_bytes bytes = {0}, bytes_of_parts = {0};
    BY_PARTS(nugwier_segment_data(&parts.file, segment, &bytes_of_parts));
    expect(same_status(status, nugwier_segment_data(whole, segment, &bytes)) &&
               same_bytes(bytes.bytes, bytes.bytes_len, bytes_of_parts.bytes, bytes_of_parts.bytes_len),
           "other bytes of a segment by parts");
    forget(&parts, 0);
    struct nugwier_notes notes = {0}, notes_of_parts = {0};
    BY_PARTS(nugwier_segment_notes(&parts.file, segment, &notes_of_parts));
    expect(same_status(status, nugwier_segment_notes(whole, segment, &notes)) && notes.align == notes_of_parts.align &&
               same_bytes(notes.bytes, notes.bytes_len, notes_of_parts.bytes, notes_of_parts.bytes_len),
           "other notes of a segment by parts");
    forget(&parts, 0);
}

static void tables_by_parts(const struct nugwier_file *whole)
{
    FRESH(whole);
    for (int dynamic = 0; dynamic < 2; dynamic++) {
        struct nugwier_symbol_table symbols = {0}, symbols_of_parts = {0};
        BY_PARTS(nugwier_symbol_table(&parts.file, dynamic, &symbols_of_parts));
        expect(same_status(status, nugwier_symbol_table(whole, dynamic, &symbols)) &&
                   same_symbols(&symbols, &symbols_of_parts),
               "other symbols by parts");
        forget(&parts, 0);
    }
    struct nugwier_dynamic_table entries = {0}, entries_of_parts = {0};
    BY_PARTS(nugwier_dynamic_table(&parts.file, &entries_of_parts));
    expect(same_status(status, nugwier_dynamic_table(whole, &entries)) && entries.found == entries_of_parts.found &&
               same_table(&entries.entries, &entries_of_parts.entries),
           "other dynamic entries by parts");
    forget(&parts, 0);
    struct nugwier_versions versions = {0}, versions_of_parts = {0};
    BY_PARTS(nugwier_version_table(&parts.file, &versions_of_parts));
    expect(same_status(status, nugwier_version_table(whole, &versions)) && versions.found == versions_of_parts.found &&
               same_table(&versions.indexes, &versions_of_parts.indexes) &&
               same_entries(&versions.needs, &versions_of_parts.needs) &&
               same_entries(&versions.definitions, &versions_of_parts.definitions),
           "other versions by parts");
    forget(&parts, 0);
    struct nugwier_common common = {0}, common_of_parts = {0};
    BY_PARTS(nugwier_common(&parts.file, &common_of_parts));
    expect(same_status(status, nugwier_common(whole, &common)) && same_hashes(&common, &common_of_parts) &&
               same_symbols(&common.symbols, &common_of_parts.symbols) &&
               same_symbols(&common.dynamic_symbols, &common_of_parts.dynamic_symbols) &&
               common.dynamics.found == common_of_parts.dynamics.found &&
               same_table(&common.dynamics.entries, &common_of_parts.dynamics.entries),
           "other common data by parts");
    forget(&parts, 0);
}

static void linking_by_parts(const struct nugwier_file *whole)
{
    FRESH(whole);
    struct nugwier_dynamic_names names = {0}, names_of_parts = {0};
    BY_PARTS(nugwier_dynamic_names(&parts.file, &names_of_parts));
    expect(same_status(status, nugwier_dynamic_names(whole, &names)) && names.found == names_of_parts.found &&
               same_table(&names.entries, &names_of_parts.entries) &&
               same_bytes(names.strings, names.strings_len, names_of_parts.strings, names_of_parts.strings_len),
           "other names of the dynamic linker by parts");
    forget(&parts, 0);
    struct nugwier_found_bytes id = {0}, id_of_parts = {0};
    BY_PARTS(nugwier_build_id(&parts.file, &id_of_parts));
    expect(same_status(status, nugwier_build_id(whole, &id)) && id.found == id_of_parts.found &&
               same_bytes(id.bytes, id.bytes_len, id_of_parts.bytes, id_of_parts.bytes_len),
           "another build id by parts");
    forget(&parts, 0);
}

static void names_by_parts(const struct nugwier_file *whole)
{
    FRESH(whole);
    struct nugwier_section_names names = {0}, names_of_parts = {0};
    BY_PARTS(nugwier_section_names(&parts.file, &names_of_parts));
    expect(same_status(status, nugwier_section_names(whole, &names)) && names.found == names_of_parts.found &&
               same_bytes(names.strings, names.strings_len, names_of_parts.strings, names_of_parts.strings_len),
           "other names by parts");
    forget(&parts, 0);
    struct nugwier_section section = {0}, section_of_parts = {0};
    bool found = false, found_by_parts = false;
    const uint8_t *name = (const uint8_t *)".text";
    BY_PARTS(nugwier_section_by_name(&parts.file, name, 5, &found_by_parts, &section_of_parts));
    expect(same_status(status, nugwier_section_by_name(whole, name, 5, &found, &section)) && found == found_by_parts &&
               section.offset == section_of_parts.offset,
           "another section of a name by parts");
    forget(&parts, 0);
    struct nugwier_fault fault = {0}, fault_of_parts = {0};
    bool sound = false, sound_by_parts = false;
    BY_PARTS(nugwier_check(&parts.file, &sound_by_parts, &fault_of_parts));
    expect(same_status(status, nugwier_check(whole, &sound, &fault)) && sound == sound_by_parts &&
               fault.kind == fault_of_parts.kind && fault.index == fault_of_parts.index,
           "another fault by parts");
    forget(&parts, 0);
}

static void read_by_parts(const uint8_t *bytes, size_t length)
{
    struct nugwier_file whole = {0};
    struct nugwier_status opened = nugwier_open(bytes, length, &whole), status;
    struct parts parts = {.bytes = bytes, .length = length};
    struct nugwier_file file = {0};
    BY_PARTS(nugwier_open_ranges(length, parts.ranges, parts.count, &file));
    expect(same_status(status, opened), "another status of opening by parts");
    expect(file.has_sections == whole.has_sections && file.has_segments == whole.has_segments &&
               same_table(&file.sections, &whole.sections) && same_table(&file.segments, &whole.segments),
           "other headers of a file by parts");
    if (!opened.code) {
        expect(file.size == length && !file.bytes_len && file.ranges == parts.ranges, "the ranges of an opened file");
        struct nugwier_section section = {0}, same_section = {0};
        struct nugwier_segment segment = {0}, same_segment = {0};
        for (size_t i = 0; i < 64 && !nugwier_section(&whole, i, &section).code; i++) {
            expect(!nugwier_section(&file, i, &same_section).code && section.offset == same_section.offset &&
                       section.size == same_section.size,
                   "another section by parts");
            section_by_parts(&whole, &section);
        }
        for (size_t i = 0; i < 32 && !nugwier_segment(&whole, i, &segment).code; i++) {
            expect(!nugwier_segment(&file, i, &same_segment).code && segment.offset == same_segment.offset,
                   "another segment by parts");
            segment_by_parts(&whole, &segment);
        }
        tables_by_parts(&whole);
        linking_by_parts(&whole);
        names_by_parts(&whole);
    }
    forget(&parts, 0);
}

/* Sizes and ranges that no file has. */
static void no_file(const uint8_t *bytes, size_t length)
{
    struct nugwier_file file = {0};
    size_t front = length < 64 ? length : 64;
    struct nugwier_range ranges[] = {
        {UINT64_MAX, bytes, length}, {UINT64_MAX - 1, bytes, length}, {0, NULL, 0}, {length, NULL, 0},
        {0, bytes, front},           {1, bytes, length},              {8, bytes, 1}};
    const uint64_t sizes[] = {0, 1, 15, 16, 17, 63, 64, length, length + 1, UINT64_MAX - 1, UINT64_MAX};
    for (size_t i = 0; i < sizeof sizes / sizeof *sizes; i++)
        for (size_t count = 0; count <= sizeof ranges / sizeof *ranges; count++) {
            struct nugwier_status status = nugwier_open_ranges(sizes[i], ranges, count, &file);
            expect(status.code != NUGWIER_NOT_LOADED || (status.first < status.second && status.second <= sizes[i]),
                   "a missing range past the size");
            if (status.code) continue;
            struct nugwier_section_names names = {0};
            struct nugwier_common common = {0};
            nugwier_section_names(&file, &names);
            nugwier_common(&file, &common);
        }
    /* a file of which nothing is loaded */
    file = (struct nugwier_file){0};
    struct nugwier_status status = nugwier_open_ranges(UINT64_MAX, NULL, 0, &file);
    expect(status.code == NUGWIER_NOT_LOADED && status.first == 0 && status.second == 16, "a file without a byte");
    expect(!file.size && !file.has_sections, "an error changed a file");
    file.size = 100;
    bool sound = true;
    struct nugwier_fault fault = {.kind = 7};
    status = nugwier_check(&file, &sound, &fault);
    expect(status.code == NUGWIER_NOT_LOADED && status.first == 0 && status.second == 100, "a check of no bytes");
    expect(sound && fault.kind == 7, "a check that was not made wrote something");
    size_t count = 5;
    status = nugwier_faults(&file, &fault, 1, &count);
    expect(status.code == NUGWIER_NOT_LOADED && count == 5 && fault.kind == 7, "faults of no bytes");
    struct nugwier_segment segment = {.offset = 40, .filesz = 0};
    struct nugwier_bytes part = {bytes, length};
    expect(!nugwier_segment_data(&file, &segment, &part).code && !part.bytes_len, "an empty range is not loaded");
    segment.offset = 101;
    status = nugwier_segment_data(&file, &segment, &part);
    expect(status.code == NUGWIER_SLICE_READ_ERROR && status.first == 101 && status.second == 101,
           "an empty range past the file");
    segment = (struct nugwier_segment){.offset = 40, .filesz = 61};
    status = nugwier_segment_data(&file, &segment, &part);
    expect(status.code == NUGWIER_SLICE_READ_ERROR && status.first == 40 && status.second == 101, "a range past the file");
    segment.offset = UINT64_MAX;
    expect(nugwier_segment_data(&file, &segment, &part).code == NUGWIER_INTEGER_OVERFLOW, "a range past all files");
    /* a range in the middle */
    struct nugwier_range middle = {10, bytes, length < 64 ? length : 64};
    file.ranges = &middle;
    file.ranges_len = 1;
    segment = (struct nugwier_segment){.offset = 12, .filesz = 3};
    expect(!nugwier_segment_data(&file, &segment, &part).code && part.bytes == bytes + 2 && part.bytes_len == 3,
           "a part of a range");
    segment.offset = 9;
    status = nugwier_segment_data(&file, &segment, &part);
    expect(status.code == NUGWIER_NOT_LOADED && status.first == 9 && status.second == 12, "a byte before a range");
}

/* A file of 64-bit class whose first section header, which has to have the count, lies in it in part or not at all. */
static void cut_first_section(uint8_t *bytes, size_t length)
{
    uint8_t header[64];
    memcpy(header, bytes, sizeof header);
    memset(bytes + 60, 0, 2);
    for (int i = -70; i < 10; i++) {
        uint64_t place = i < 5 ? (uint64_t)(length + i) : UINT64_MAX - (uint64_t)(9 - i) * 8;
        for (int j = 0; j < 8; j++) bytes[40 + j] = (uint8_t)(place >> 8 * (bytes[5] == 1 ? j : 7 - j));
        read_by_parts(bytes, length);
    }
    memcpy(bytes, header, sizeof header);
}

/* The texts are those that `FileFault` of the crate elf_check declares. */
static void fault_texts(void)
{
    static const struct {
        struct nugwier_fault fault;
        const char *text;
    } all[] = {
        {{NUGWIER_NO_FAULT, NUGWIER_PART_FILE, 0, 0, 0}, ""},
        {{NUGWIER_FAULT_NO_NAMES, NUGWIER_PART_FILE, 0, 0, 0}, "no names of sections"},
        {{NUGWIER_FAULT_REPEATED_TYPE, NUGWIER_PART_FILE, 0, 0x6fffffff, 0},
         "more than one section of type 0x6fffffff"},
        {{NUGWIER_FAULT_SECTION_NO_BYTES, NUGWIER_PART_SECTION, 5, 0, 0}, "section 5: no bytes at its range"},
        {{NUGWIER_FAULT_SECTION_NO_NOTE, NUGWIER_PART_SECTION, 5, 0x2c, 0}, "section 5: no note at 0x2c"},
        {{NUGWIER_FAULT_SYMBOL_NO_NAME, NUGWIER_PART_SECTION, 5, 10, 0xabc}, "section 5: symbol 10: no name at 0xabc"},
        {{NUGWIER_FAULT_SYMBOL_NO_SECTION, NUGWIER_PART_SECTION, 5, 10, 99}, "section 5: symbol 10: no section 99"},
        {{NUGWIER_FAULT_RELOCATION_NO_SYMBOL, NUGWIER_PART_SECTION, UINT64_MAX, 1, 2},
         "section 18446744073709551615: relocation 1: no symbol 2"},
        {{NUGWIER_FAULT_HASH_PAST_CHAINS, NUGWIER_PART_SECTION, 7, 8, 9},
         "section 7: the table is not sound: PastChains { bucket: 8, index: 9 }"},
        {{NUGWIER_FAULT_DYNAMIC_NO_STRING, NUGWIER_PART_SECTION, 7, 8, 0},
         "section 7: dynamic entry 8: no string at its offset"},
        {{NUGWIER_FAULT_NEEDS_SHORT, NUGWIER_PART_VERSIONS, 0, 3, 0}, "versions: needs: only 3 of them"},
        {{NUGWIER_FAULT_UNKNOWN_VERSION_INDEX, NUGWIER_PART_VERSIONS, 0, 12, 0},
         "versions: symbol 12: no version with its index"},
        {{NUGWIER_FAULT_AMBIGUOUS_VERSION_INDEX, NUGWIER_PART_VERSIONS, 0, 12, 0},
         "versions: symbol 12: a definition and a need with its index"},
        {{NUGWIER_FAULT_SECOND_TLS, NUGWIER_PART_SEGMENT, 4, 2, 0},
         "segment 4 (PT_TLS): segment 2 has this type too"},
        {{NUGWIER_FAULT_OVERLAPPING_LOAD, NUGWIER_PART_SEGMENT, 4, 2, 0},
         "segment 4 (PT_LOAD): begins before the end of segment 2 (PT_LOAD)"},
        {{NUGWIER_FAULT_SEGMENT_NO_NOTE, NUGWIER_PART_SEGMENT, 4, 4, 0x1c},
         "segment 4 (PT_NOTE): has no note at offset 0x1c"},
        {{NUGWIER_FAULT_SEGMENT_NO_BYTES, NUGWIER_PART_SEGMENT, 4, 0xfedcba98, 0},
         "segment 4 (0xfedcba98): does not lie in the file"},
        /* numbers that a caller made up */
        {{NUGWIER_FAULT_SEGMENT_NO_BYTES, NUGWIER_PART_SEGMENT, 4, 0x100000001, 0},
         "segment 4 (0x100000001): does not lie in the file"},
        {{107, NUGWIER_PART_SECTION, 5, 0, 0}, ""},
        {{UINT32_MAX, UINT32_MAX, 5, 0, 0}, ""},
    };
    for (size_t i = 0; i < sizeof all / sizeof *all; i++) {
        uint8_t text[100];
        size_t length = strlen(all[i].text);
        memset(text, '~', sizeof text);
        expect(nugwier_fault_text(&all[i].fault, text, sizeof text) == length, "the length of a text of a fault");
        expect(!memcmp(text, all[i].text, length) && text[length] == '~', "the text of a fault");
        memset(text, '~', sizeof text);
        expect(nugwier_fault_text(&all[i].fault, text, length / 2) == length, "the length of a text without room");
        expect(!memcmp(text, all[i].text, length / 2) && text[length / 2] == '~', "the front of a text of a fault");
    }
}

/* The texts are those that the Rust crate `elf` 0.8.0 prints of these errors. */
static void texts(void)
{
    static const struct {
        struct nugwier_status status;
        const char *text;
    } all[] = {
        {{0, 0, 0}, ""},
        {{1, 0xff000a7f, 0}, "Invalid Magic Bytes: [7F, A, 0, FF]"},
        {{2, 200, 0}, "Unsupported ELF Class: 200"},
        {{3, 201, 0}, "Unsupported ELF Endianness: 201"},
        {{4, 11, 1}, "Unsupported ELF Version field found: 11 expected: 1"},
        {{5, 0xabcd, 0}, "Bad offset: 0xABCD"},
        {{5, 0, 0}, "Bad offset: 0x0"},
        {{5, UINT64_MAX, 0}, "Bad offset: 0xFFFFFFFFFFFFFFFF"},
        {{6, 0xbeef, 0}, "Could not find terminating NUL byte starting at offset: 0xBEEF"},
        {{7, 0x1f, 0x18}, "Invalid entsize. Expected: 0x18, Found: 0x1F"},
        {{8, 12, 3}, "Could not interpret section of type 12 as type 3"},
        {{9, 13, 2}, "Could not interpret section of type 13 as type 2"},
        {{10, 15, 0}, "Could not interpret section with unexpected alignment of 15"},
        {{11, 0x2c, 0x3d}, "Could not read bytes in range [0x2C, 0x3D)"},
        {{12, 0, 0}, "Integer overflow detected"},
        /* those that the crate does not have */
        {{NUGWIER_NOT_LOADED, 0x1f, 0xabc}, "Bytes in range [0x1F, 0xABC) are not loaded"},
        {{NUGWIER_NO_ADDRESS, 0, 0}, "no entry DT_STRTAB"},
        {{NUGWIER_NO_SIZE, 0, 0}, "no entry DT_STRSZ"},
        {{NUGWIER_NO_SEGMENT, 0xabc, 0}, "no segment holds the string table at 0xabc"},
    };
    for (size_t i = 0; i < sizeof all / sizeof *all; i++) {
        uint8_t text[100];
        size_t length = strlen(all[i].text);
        memset(text, '~', sizeof text);
        expect(nugwier_error_text(&all[i].status, text, sizeof text) == length, "the length of a text");
        expect(!memcmp(text, all[i].text, length) && text[length] == '~', "the text of an error");
        memset(text, '~', sizeof text);
        expect(nugwier_error_text(&all[i].status, text, length / 2) == length, "the length of a text without room");
        expect(!memcmp(text, all[i].text, length / 2) && text[length / 2] == '~', "the front of a text");
        expect(nugwier_error_text(&all[i].status, NULL, 0) == length, "the length of a text without a place");
    }
}

static void nothing(void)
{
    struct nugwier_file file = {0};
    struct nugwier_table table = {0};
    struct nugwier_symbol symbol = {0};
    struct nugwier_symbol_table symbols = {0};
    struct nugwier_dynamic_table dynamics = {0};
    struct nugwier_section_names names = {0};
    struct nugwier_versions versions = {0};
    struct nugwier_section section = {0};
    struct nugwier_bytes string = {0};
    struct nugwier_notes notes = {0};
    struct nugwier_note note = {0};
    struct nugwier_found one = {0};
    struct nugwier_name name = {0};
    struct nugwier_fault fault = {1, 1, 1, 1, 1};
    size_t offset = 0;
    bool found = true;
    expect(nugwier_open(NULL, 0, &file).code == NUGWIER_SLICE_READ_ERROR, "a file of no bytes");
    expect(nugwier_symbol(&table, 0, &symbol).code == NUGWIER_BAD_OFFSET, "a symbol of an empty table");
    expect(nugwier_symbol(&table, SIZE_MAX, &symbol).code == NUGWIER_BAD_OFFSET, "symbol SIZE_MAX of an empty table");
    expect(nugwier_symbols(&table, 0, NULL, 0) == 0, "no symbols into no places");
    expect(nugwier_symbol_count(&table) == 0, "an empty table has symbols");
    struct nugwier_named_symbol named;
    expect(nugwier_named_symbols(&table, NULL, 0, 0, &named, 1) == 0, "a named symbol of an empty table");
    expect(nugwier_named_symbols(&table, NULL, 0, SIZE_MAX, NULL, 0) == 0, "no named symbols into no places");
    struct nugwier_symbol places[2] = {{0}, {0}};
    struct nugwier_table two = {true, true, (const uint8_t *)"0123456789abcdef01234567", 24};
    expect(nugwier_symbols(&two, 0, places, 2) == 1, "one of two symbols");
    expect(nugwier_symbols(&two, 1, places, 2) == 0, "a symbol after the last one");
    expect(nugwier_symbols(&two, SIZE_MAX, places, 2) == 0, "symbol SIZE_MAX of a table");
    expect(nugwier_symbols(&two, SIZE_MAX / 24 + 1, places, 2) == 0, "a symbol whose offset does not fit");
    expect(nugwier_string(NULL, 0, 0, &string).code == NUGWIER_BAD_OFFSET, "a string of no bytes");
    expect(nugwier_string((const uint8_t *)"", 1, 0, &string).code == 0 && string.bytes_len == 0, "the empty string");
    expect(nugwier_note(&notes, &offset, &note).code != 0 && offset == 0, "a note of no bytes");
    expect(nugwier_gnu_find(NULL, 0, &table, NULL, 0, NULL, 0, &one).code != 0, "a hash section of no bytes");
    struct nugwier_gnu gnu;
    struct nugwier_sysv sysv;
    struct nugwier_common common;
    memset(&gnu, 0, sizeof gnu);
    memset(&sysv, 0, sizeof sysv);
    memset(&common, 0, sizeof common);
    expect(nugwier_gnu_open(true, true, NULL, 0, &gnu).code == NUGWIER_SLICE_READ_ERROR, "a hash section of no bytes");
    expect(nugwier_sysv_open(true, true, NULL, 0, &sysv).code == NUGWIER_SLICE_READ_ERROR, "a section of no bytes");
    expect(!nugwier_gnu_look_up(&gnu, &table, NULL, 0, NULL, 0, &one).code && !one.found, "a name in no buckets");
    expect(!nugwier_sysv_look_up(&sysv, &table, NULL, 0, NULL, 0, &one).code && !one.found, "a name in no buckets");
    /* numbers that a caller changed */
    gnu.little = gnu.is_64 = true;
    gnu.nbucket = gnu.nbloom = 0xffffffff;
    gnu.buckets = gnu.chains = gnu.bloom = (const uint8_t *)"\xff\xff\xff\xff\xff\xff\xff\xff";
    gnu.buckets_len = gnu.chains_len = gnu.bloom_len = 8;
    expect(nugwier_gnu_look_up(&gnu, &table, NULL, 0, (const uint8_t *)"a", 1, &one).code == NUGWIER_BAD_OFFSET,
           "a bloom word that is not there");
    gnu.nbloom = 1;
    gnu.nshift = 32;
    expect(nugwier_gnu_look_up(&gnu, &table, NULL, 0, (const uint8_t *)"a", 1, &one).code == NUGWIER_INTEGER_OVERFLOW,
           "a shift of 32 bits");
    /* a handle of zeros is a file with no headers */
    expect(nugwier_common(&file, &common).code == 0 && !common.has_gnu, "a hash section of a file without any");
    expect(nugwier_section(&file, 0, &section).code == NUGWIER_BAD_OFFSET, "a section of a file without any");
    expect(nugwier_symbol_table(&file, true, &symbols).code == 0 && !symbols.found, "symbols of a file without any");
    expect(nugwier_dynamic_table(&file, &dynamics).code == 0 && !dynamics.found, "entries of a file without any");
    expect(nugwier_section_names(&file, &names).code == 0 && !names.found, "names of a file without any");
    expect(nugwier_version_table(&file, &versions).code == 0 && !versions.found, "versions of a file without any");
    struct nugwier_version_place place;
    struct nugwier_requirement needed_version = {.found = true};
    struct nugwier_definition defined_version = {.found = true};
    memset(&place, 0xff, sizeof place);
    nugwier_place_versions(&versions, &place, 1);
    nugwier_place_versions(&versions, NULL, 0);
    expect(!place.need.found && !place.definition.found, "a place of no versions");
    expect(!nugwier_placed_requirement(&versions, &place, 1, SIZE_MAX, &needed_version).code && !needed_version.found,
           "a requirement without needs");
    expect(!nugwier_placed_definition(&versions, &place, 1, SIZE_MAX, &defined_version).code && !defined_version.found,
           "a definition without definitions");
    expect(nugwier_section_by_name(&file, NULL, 0, &found, &section).code == 0 && !found, "a section of no name");
    expect(!nugwier_check(&file, &found, &fault).code && found && fault.kind == NUGWIER_NO_FAULT && fault.part == 0 &&
               fault.index == 0 && fault.first == 0 && fault.second == 0,
           "a fault of a file with no headers");
    struct nugwier_dynamic_names linked = {0};
    struct nugwier_found_bytes bytes = {true, NULL, 0};
    struct nugwier_needed needed = {.found = true};
    expect(!nugwier_dynamic_names(&file, &linked).code && !linked.found, "names of a file without any");
    expect(!nugwier_build_id(&file, &bytes).code && !bytes.found, "a build id of a file without any");
    expect(!nugwier_soname(&linked, &bytes).code && !bytes.found, "a soname among no entries");
    offset = SIZE_MAX;
    expect(!nugwier_needed(&linked, &offset, &needed).code && !needed.found && offset == SIZE_MAX,
           "a library among no entries");
    /* two libraries, of which the first has no name, and an entry past DT_NULL */
    static const uint8_t entries[] = {0, 0, 0, 1, 0, 0, 0, 9, 0, 0, 0, 14, 0, 0, 0, 1, 0x7f, 0xff, 0xff, 0xff, 0, 0, 0, 0,
                                      0, 0, 0, 0, 0, 0, 0, 0, 0, 0,    0,  29, 0, 0, 0, 0};
    linked = (struct nugwier_dynamic_names){true, {false, false, entries, sizeof entries}, (const uint8_t *)"lib", 4};
    offset = 0;
    expect(nugwier_needed(&linked, &offset, &needed).code == NUGWIER_BAD_OFFSET && offset == 1 && !needed.found,
           "a library without a name");
    expect(!nugwier_needed(&linked, &offset, &needed).code && offset == 3 && needed.found && needed.tag == 0x7fffffff &&
               needed.name_len == 3,
           "a library after one without a name");
    expect(!nugwier_needed(&linked, &offset, &needed).code && !needed.found && offset == 3, "a library past the last one");
    expect(!nugwier_soname(&linked, &bytes).code && bytes.found && bytes.bytes_len == 2, "the soname");
    bytes.found = true;
    expect(!nugwier_runpath(&linked, &bytes).code && !bytes.found, "search paths past DT_NULL");
    nugwier_symbol_at(&table, 0, &one);
    expect(!one.found && !one.index, "a symbol at an address of an empty table");
    nugwier_e_machine_name(62, &name);
    expect(name.found && name.bytes_len == 9 && !memcmp(name.bytes, "EM_X86_64", 9), "the name of a machine");
    nugwier_e_machine_name(0xfffe, &name);
    expect(!name.found, "the name of no machine");
    nugwier_r_type_name(43, 21, &name);  // EM_SPARCV9, as readelf prints it
    expect(name.found && name.bytes_len == 16 && !memcmp(name.bytes, "R_SPARC_JMP_SLOT", 16), "a type of relocations");
    nugwier_r_type_name(0, 1, &name);
    expect(!name.found && name.bytes_len == 0, "a type of relocations of no machine");
    nugwier_machine_sh_type_name(40, 0x70000001, &name);
    expect(name.found && name.bytes_len == 13 && !memcmp(name.bytes, "SHT_ARM_EXIDX", 13), "a type of sections of ARM");
    nugwier_machine_p_type_name(62, 1, &name);
    expect(name.found && name.bytes_len == 7 && !memcmp(name.bytes, "PT_LOAD", 7), "a type of segments of a machine");
    nugwier_machine_d_tag_name(8, 0x70000013, &name);
    expect(name.found && name.bytes_len == 14 && !memcmp(name.bytes, "DT_MIPS_GOTSYM", 14), "a tag of MIPS");
    nugwier_n_type_name((const uint8_t *)"GNU", 3, 3, &name);
    expect(name.found && name.bytes_len == 15 && !memcmp(name.bytes, "NT_GNU_BUILD_ID", 15), "a type of notes of GNU");
    nugwier_n_type_name(NULL, 0, 3, &name);
    expect(!name.found && name.bytes_len == 0, "a type of notes of nobody");
    nugwier_error_name(NUGWIER_BAD_MAGIC, &name);
    expect(name.found && name.bytes_len == 8 && !memcmp(name.bytes, "BadMagic", 8), "the name of an error");
}

int main(int argc, char **argv)
{
    nothing();
    texts();
    fault_texts();
    if (argc < 2) return 0;
    FILE *file = fopen(argv[1], "rb");
    if (!file || fseek(file, 0, SEEK_END)) return perror(argv[1]), 1;
    size_t length = (size_t)ftell(file);
    rewind(file);
    uint8_t *bytes = malloc(length);
    if (!bytes || fread(bytes, 1, length, file) != length) return perror(argv[1]), 1;
    fclose(file);
    read_all(bytes, length);
    most_placed = 20;
    if (length >= 100) no_file(bytes, length);
    if (length >= 100 && bytes[4] == 2) cut_first_section(bytes, length);
    /* the file cut off */
    for (size_t cut = 0; cut < 100 && cut < length; cut++) {
        size_t left = cut < 80 ? cut : length / 100 * cut;
        uint8_t *part = malloc(left ? left : 1);
        memcpy(part, bytes, left);
        read_all(part, left);
        free(part);
    }
    /* a byte of the header, or one of the last ones, where the section headers lie, changed */
    static const uint8_t values[4] = {0, 1, 0x7f, 0xff};
    for (size_t i = 0; i < 64 + 512 && i < length; i++)
        for (int j = 0; j < 4; j++) {
            size_t place = i < 64 ? i : length - (i - 63) * 7 % length;
            if (place >= length) continue;
            uint8_t old = bytes[place];
            bytes[place] = values[j];
            read_all(bytes, length);
            bytes[place] = old;
        }
    free(bytes);
    printf("edges: fine (%lu)\n", seen);
    return 0;
}
