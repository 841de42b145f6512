/* Nugwier: a proved reader of ELF files, for C and C++.
 *
 * Nothing is allocated, and nothing is kept between two calls. Each call is a total function of its arguments: any
 * bytes may be given as a file, a section or a table, and bad ones are an error.
 *
 * What the caller owes, and no proof can state:
 *
 *  - A pointer and its length name readable memory, or the length is 0. This holds for parameters and for the pairs in
 *    structs, before a call too; so set a struct to {0} before its first use. If the length is 0, the pointer may be
 *    NULL.
 *  - A `bool` is 0 or 1, in structs too.
 *  - Bytes that a struct points to stay alive and unchanged as long as the struct is used. A file that is mapped must
 *    not be truncated meanwhile.
 *  - What a call writes overlaps nothing that it reads, and no other thing that it writes.
 *
 * A pointer whose length is 0 need not point into the bytes that were given. Strings have no 0 byte at their end: use
 * their length. Calls in several threads at once are fine if none writes what another uses.
 */
#ifndef NUGWIER_H
#define NUGWIER_H

#include <stdbool.h>
#include <stddef.h>
#include <stdint.h>

#ifdef __cplusplus
extern "C" {
#endif

/* ---- what a call returns */

enum {
    NUGWIER_OK = 0,
    NUGWIER_BAD_MAGIC = 1,                 /* first: the four bytes, the first one lowest */
    NUGWIER_UNSUPPORTED_CLASS = 2,         /* first: the class byte */
    NUGWIER_UNSUPPORTED_ENDIANNESS = 3,    /* first: the byte of the order */
    NUGWIER_UNSUPPORTED_VERSION = 4,       /* first: found, second: expected */
    NUGWIER_BAD_OFFSET = 5,                /* first: the offset or the index */
    NUGWIER_STRING_MISSING_NUL = 6,        /* first: the offset */
    NUGWIER_BAD_ENTSIZE = 7,               /* first: found, second: expected */
    NUGWIER_UNEXPECTED_SECTION_TYPE = 8,   /* first: found, second: expected */
    NUGWIER_UNEXPECTED_SEGMENT_TYPE = 9,   /* first: found, second: expected */
    NUGWIER_UNEXPECTED_ALIGNMENT = 10,     /* never returned */
    NUGWIER_SLICE_READ_ERROR = 11,         /* first: start, second: end of the range that does not lie in the bytes */
    NUGWIER_INTEGER_OVERFLOW = 12,
    NUGWIER_UTF8_ERROR = 13,               /* never returned */
    NUGWIER_NOT_LOADED = 18,               /* first: start, second: end of a range of the file that is not loaded */
    NUGWIER_NO_ADDRESS = 19,               /* no dynamic entry DT_STRTAB */
    NUGWIER_NO_SIZE = 20,                  /* no dynamic entry DT_STRSZ */
    NUGWIER_NO_SEGMENT = 21                /* first: the address of strings that no segment of type PT_LOAD holds */
};

struct nugwier_status {
    uint32_t code;
    uint64_t first;
    uint64_t second;
};

/* ---- bytes and tables */

struct nugwier_bytes {
    const uint8_t *bytes;
    size_t bytes_len;
};

/* If `found` is false, the call wrote nothing else. */
struct nugwier_found_bytes {
    bool found;
    const uint8_t *bytes;
    size_t bytes_len;
};

/* The bytes of a table, with the byte order and the class of its records. */
struct nugwier_table {
    bool little;
    bool is_64;
    const uint8_t *bytes;
    size_t bytes_len;
};

/* The string at an offset of a table of strings. */
struct nugwier_status nugwier_string(const uint8_t *strings, size_t strings_len, size_t offset,
                                     struct nugwier_bytes *string);

/* ---- records */

struct nugwier_symbol {
    uint32_t name;
    uint8_t info;
    uint8_t other;
    uint16_t shndx;
    uint64_t value;
    uint64_t size;
};

/* A symbol with its name. */
struct nugwier_named_symbol {
    struct nugwier_symbol symbol;
    const uint8_t *name;
    size_t name_len;
};

struct nugwier_section {
    uint32_t name;
    uint32_t kind;
    uint64_t flags;
    uint64_t addr;
    uint64_t offset;
    uint64_t size;
    uint32_t link;
    uint32_t info;
    uint64_t addralign;
    uint64_t entsize;
};

struct nugwier_segment {
    uint32_t kind;
    uint32_t flags;
    uint64_t offset;
    uint64_t vaddr;
    uint64_t paddr;
    uint64_t filesz;
    uint64_t memsz;
    uint64_t align;
};

struct nugwier_rel {
    uint64_t offset;
    uint32_t symbol;
    uint32_t kind;
};

struct nugwier_rela {
    uint64_t offset;
    int64_t addend;
    uint32_t symbol;
    uint32_t kind;
};

struct nugwier_dynamic {
    int64_t tag;
    uint64_t value;
};

/* Record `index` of a table, counted from 0. An error leaves the record as it is. */
struct nugwier_status nugwier_symbol(const struct nugwier_table *table, size_t index, struct nugwier_symbol *symbol);
struct nugwier_status nugwier_rel(const struct nugwier_table *table, size_t index, struct nugwier_rel *rel);
struct nugwier_status nugwier_rela(const struct nugwier_table *table, size_t index, struct nugwier_rela *rela);
struct nugwier_status nugwier_dynamic(const struct nugwier_table *table, size_t index,
                                      struct nugwier_dynamic *dynamic);

/* The records of a table starting at number `first`: returns how many were written, up to the first that cannot be
 * read, and no more than there are places. */
size_t nugwier_symbols(const struct nugwier_table *table, size_t first, struct nugwier_symbol *symbols,
                       size_t symbols_len);
size_t nugwier_sections(const struct nugwier_table *table, size_t first, struct nugwier_section *sections,
                        size_t sections_len);
size_t nugwier_segments(const struct nugwier_table *table, size_t first, struct nugwier_segment *segments,
                        size_t segments_len);
size_t nugwier_rels(const struct nugwier_table *table, size_t first, struct nugwier_rel *rels, size_t rels_len);
size_t nugwier_relas(const struct nugwier_table *table, size_t first, struct nugwier_rela *relas, size_t relas_len);
size_t nugwier_dynamics(const struct nugwier_table *table, size_t first, struct nugwier_dynamic *dynamics,
                        size_t dynamics_len);

/* The symbols of a table with their names, the first of them number `first`: returns how many were written, up to the
 * first that cannot be read or whose name cannot be found in `strings`, and no more than there are places. */
size_t nugwier_named_symbols(const struct nugwier_table *table, const uint8_t *strings, size_t strings_len,
                             size_t first, struct nugwier_named_symbol *symbols, size_t symbols_len);

/* How many records fit into a table. */
size_t nugwier_symbol_count(const struct nugwier_table *table);
size_t nugwier_section_count(const struct nugwier_table *table);
size_t nugwier_segment_count(const struct nugwier_table *table);
size_t nugwier_rel_count(const struct nugwier_table *table);
size_t nugwier_rela_count(const struct nugwier_table *table);
size_t nugwier_dynamic_count(const struct nugwier_table *table);

/* ---- files */

struct nugwier_header {
    bool little;
    bool is_64;
    uint8_t osabi;
    uint8_t abiversion;
    uint32_t version;
    uint16_t kind;
    uint16_t machine;
    uint32_t flags;
    uint64_t entry;
    uint64_t phoff;
    uint64_t shoff;
    uint16_t ehsize;
    uint16_t phentsize;
    uint16_t phnum;
    uint16_t shentsize;
    uint16_t shnum;
    uint16_t shstrndx;
};

/* A range of a file with its bytes. The first of them is at `start` in the file. */
struct nugwier_range {
    uint64_t start;
    const uint8_t *bytes;
    size_t bytes_len;
};

/* A file that was opened. It belongs to the caller, and holds nothing that has to be freed. The tables are those of the
 * section headers and of the program headers, if `has_sections` and `has_segments` say that there are any; if not, the
 * length is 0, and the byte order and the class are those of the header.
 *
 * `size` is the size of the file. What is loaded of it are the `bytes` at its start and the `ranges`. nugwier_open sets
 * `bytes` to the whole file, and gives no ranges; nugwier_open_ranges sets `ranges`, and gives no bytes. */
struct nugwier_file {
    struct nugwier_header header;
    uint64_t size;
    const uint8_t *bytes;
    size_t bytes_len;
    const struct nugwier_range *ranges;
    size_t ranges_len;
    bool has_sections;
    bool has_segments;
    struct nugwier_table sections;
    struct nugwier_table segments;
};

/* Opens a file whose bytes are given. An error leaves `file` as it is. */
struct nugwier_status nugwier_open(const uint8_t *bytes, size_t bytes_len, struct nugwier_file *file);

/* Opens a file of `size` bytes by parts: these ranges of it are loaded. There may be none; they may be in any order and
 * may overlap. The result is that of nugwier_open over the whole file, or NUGWIER_NOT_LOADED.
 *
 * So is that of every call that takes a `nugwier_file`: it is the result over the whole file, or NUGWIER_NOT_LOADED, and
 * then nothing is written. `first` and `second` are the start and the end of a range that is missing: it lies in the
 * file, is not empty, and lies within none of the ranges. The caller reads the bytes from `first` to `second`, adds
 * them to its ranges, and makes the same call again, with all of its ranges: a call may need several, and then names
 * one after another. The caller may read more than is named, but a range that a call names has to lie within one range:
 * two that are side by side are not put together.
 *
 * After the file is opened, set `file.ranges` and `file.ranges_len` to the ranges that are loaded, before each call if
 * they change: the array may move. The bytes that were loaded when the file was opened have to stay where they are, as
 * the tables of `file` lie in them; so have those in which something lies that a call returned.
 *
 * If the ranges hold other bytes than the file, or `size` is not its size, the calls are still total, but what they
 * return is not said. */
struct nugwier_status nugwier_open_ranges(uint64_t size, const struct nugwier_range *ranges, size_t ranges_len,
                                          struct nugwier_file *file);

/* Header `index`, counted from 0. An error leaves the header as it is. The tables were loaded when the file was opened,
 * so these calls name no range. */
struct nugwier_status nugwier_section(const struct nugwier_file *file, size_t index, struct nugwier_section *section);
struct nugwier_status nugwier_segment(const struct nugwier_file *file, size_t index, struct nugwier_segment *segment);

/* ---- the bytes of sections and segments, and what lies in them */

/* What the compression header of a section says. If it has none, all numbers are 0. */
struct nugwier_compression {
    bool compressed;
    uint32_t kind;
    uint64_t size;
    uint64_t addralign;
};

/* The bytes of a section, after its compression header if it has one; nothing is decompressed. */
struct nugwier_data {
    const uint8_t *bytes;
    size_t bytes_len;
    struct nugwier_compression compression;
};

/* The notes of a section or of a segment. */
struct nugwier_notes {
    bool little;
    size_t align;
    const uint8_t *bytes;
    size_t bytes_len;
};

struct nugwier_status nugwier_section_data(const struct nugwier_file *file, const struct nugwier_section *section,
                                           struct nugwier_data *part);
struct nugwier_status nugwier_segment_data(const struct nugwier_file *file, const struct nugwier_segment *segment,
                                           struct nugwier_bytes *part);
struct nugwier_status nugwier_section_strings(const struct nugwier_file *file, const struct nugwier_section *section,
                                              struct nugwier_bytes *strings);
struct nugwier_status nugwier_section_rels(const struct nugwier_file *file, const struct nugwier_section *section,
                                           struct nugwier_table *table);
struct nugwier_status nugwier_section_relas(const struct nugwier_file *file, const struct nugwier_section *section,
                                            struct nugwier_table *table);
struct nugwier_status nugwier_section_notes(const struct nugwier_file *file, const struct nugwier_section *section,
                                            struct nugwier_notes *notes);
struct nugwier_status nugwier_segment_notes(const struct nugwier_file *file, const struct nugwier_segment *segment,
                                            struct nugwier_notes *notes);

/* ---- symbols, dynamic entries, the names of sections */

/* If `found` is false, the call wrote nothing else. */
struct nugwier_symbol_table {
    bool found;
    struct nugwier_table symbols;
    const uint8_t *strings;
    size_t strings_len;
};

struct nugwier_dynamic_table {
    bool found;
    struct nugwier_table entries;
};

struct nugwier_section_names {
    bool found;
    const uint8_t *strings;
    size_t strings_len;
};

/* The symbols for dynamic linking, or all symbols, with their strings. */
struct nugwier_status nugwier_symbol_table(const struct nugwier_file *file, bool dynamic,
                                           struct nugwier_symbol_table *symbols);
struct nugwier_status nugwier_dynamic_table(const struct nugwier_file *file, struct nugwier_dynamic_table *dynamics);
struct nugwier_status nugwier_section_names(const struct nugwier_file *file, struct nugwier_section_names *names);

/* The first section whose name has these bytes. If there is none, `found` is false and `section` stays as it is. */
struct nugwier_status nugwier_section_by_name(const struct nugwier_file *file, const uint8_t *name, size_t name_len,
                                              bool *found, struct nugwier_section *section);

/* ---- the names that dynamic entries give */

/* The dynamic entries of a file, and the strings that they name. If `found` is false, the call wrote nothing else. */
struct nugwier_dynamic_names {
    bool found;
    struct nugwier_table entries;
    const uint8_t *strings;
    size_t strings_len;
};

/* A library that is loaded with a file: the tag of its entry, DT_NEEDED, DT_AUXILIARY or DT_FILTER, and its name. If
 * `found` is false, the call wrote nothing else. */
struct nugwier_needed {
    bool found;
    int64_t tag;
    const uint8_t *name;
    size_t name_len;
};

/* The strings are found by their address, as the dynamic linker finds them, so no section header is needed. */
struct nugwier_status nugwier_dynamic_names(const struct nugwier_file *file, struct nugwier_dynamic_names *names);

/* The name of the file for those that need it (DT_SONAME), and where libraries are looked for (DT_RUNPATH, or without
 * it DT_RPATH): each by the last entry with its tag, which counts for the dynamic linker. */
struct nugwier_status nugwier_soname(const struct nugwier_dynamic_names *names, struct nugwier_found_bytes *soname);
struct nugwier_status nugwier_runpath(const struct nugwier_dynamic_names *names, struct nugwier_found_bytes *runpath);
struct nugwier_status nugwier_rpath(const struct nugwier_dynamic_names *names, struct nugwier_found_bytes *rpath);

/* The next library, from entry number `next` on, which is 0 at first. If none is left, `found` is false, and `next`
 * stays. Otherwise `next` is moved past its entry, also after an error, so that the next call takes the library after
 * it. */
struct nugwier_status nugwier_needed(const struct nugwier_dynamic_names *names, size_t *next,
                                     struct nugwier_needed *needed);

/* The build id: the first among the notes of the segments of type PT_NOTE, and then of the sections of type SHT_NOTE. */
struct nugwier_status nugwier_build_id(const struct nugwier_file *file, struct nugwier_found_bytes *id);

/* ---- notes */

struct nugwier_abi_tag {
    uint32_t os;
    uint32_t major;
    uint32_t minor;
    uint32_t subminor;
};

/* `kind` is 1 for an ABI tag (in `tag`), 2 for a build id (in `desc`), and 0 for any other note (in `n_type`, `name`,
 * with the 0 bytes at its end, and `desc`). */
struct nugwier_note {
    uint32_t kind;
    struct nugwier_abi_tag tag;
    uint64_t n_type;
    const uint8_t *name;
    size_t name_len;
    const uint8_t *desc;
    size_t desc_len;
};

/* The note at `offset`, which is moved to the next note. The first note is at 0. An error, which ends the notes, leaves
 * both as they are. */
struct nugwier_status nugwier_note(const struct nugwier_notes *notes, size_t *offset, struct nugwier_note *note);

/* The notes from `offset` on, which is moved to the next note: returns how many were written, up to the first that
 * cannot be read, and no more than there are places. */
size_t nugwier_note_list(const struct nugwier_notes *notes, size_t *offset, struct nugwier_note *places,
                         size_t places_len);

/* ---- hash sections */

/* If `found` is false, all numbers are 0. */
struct nugwier_found {
    bool found;
    size_t index;
    struct nugwier_symbol symbol;
};

struct nugwier_verdict {
    bool sound;
    size_t indexed;
};

/* The symbol of a name, by the bytes of a hash section and the symbols that it is for. */
struct nugwier_status nugwier_gnu_find(const uint8_t *section, size_t section_len, const struct nugwier_table *symbols,
                                       const uint8_t *strings, size_t strings_len, const uint8_t *name,
                                       size_t name_len, struct nugwier_found *found);
struct nugwier_status nugwier_sysv_find(const uint8_t *section, size_t section_len, const struct nugwier_table *symbols,
                                        const uint8_t *strings, size_t strings_len, const uint8_t *name,
                                        size_t name_len, struct nugwier_found *found);

/* The last symbol, in the order of addresses, that starts at an address or before it; of several with one address that
 * which comes last in the table. These are the objects and functions that a section of the file defines. The address is
 * one of the symbol's bytes if `address - symbol.value` is below `symbol.size`. Each symbol is looked at. */
void nugwier_symbol_at(const struct nugwier_table *symbols, uint64_t address, struct nugwier_found *found);

/* A hash section that was opened, so that a look-up does not open it anew. It belongs to the caller, and holds nothing
 * that has to be freed. */
struct nugwier_gnu {
    bool little;
    bool is_64;
    uint32_t nbucket;
    uint32_t first;
    uint32_t nbloom;
    uint32_t nshift;
    const uint8_t *bloom;
    size_t bloom_len;
    const uint8_t *buckets;
    size_t buckets_len;
    const uint8_t *chains;
    size_t chains_len;
};

struct nugwier_sysv {
    bool little;
    bool is_64;
    const uint8_t *buckets;
    size_t buckets_len;
    const uint8_t *chains;
    size_t chains_len;
};

/* Opens a hash section of a file with this byte order and class. An error leaves the handle as it is. */
struct nugwier_status nugwier_gnu_open(bool little, bool is_64, const uint8_t *section, size_t section_len,
                                       struct nugwier_gnu *gnu);
struct nugwier_status nugwier_sysv_open(bool little, bool is_64, const uint8_t *section, size_t section_len,
                                        struct nugwier_sysv *sysv);

/* The symbol of a name, by an opened hash section and the symbols that it is for. */
struct nugwier_status nugwier_gnu_look_up(const struct nugwier_gnu *gnu, const struct nugwier_table *symbols,
                                          const uint8_t *strings, size_t strings_len, const uint8_t *name,
                                          size_t name_len, struct nugwier_found *found);
struct nugwier_status nugwier_sysv_look_up(const struct nugwier_sysv *sysv, const struct nugwier_table *symbols,
                                           const uint8_t *strings, size_t strings_len, const uint8_t *name,
                                           size_t name_len, struct nugwier_found *found);

/* The symbols, the dynamic entries and the hash sections of a file, each if the file has it. What it does not have is
 * empty: each number and each length is 0, and each `bool` is false. */
struct nugwier_common {
    struct nugwier_symbol_table symbols;
    struct nugwier_symbol_table dynamic_symbols;
    struct nugwier_dynamic_table dynamics;
    bool has_sysv;
    bool has_gnu;
    struct nugwier_sysv sysv;
    struct nugwier_gnu gnu;
};

/* All of these in one pass over the sections, each from the last section of its type. */
struct nugwier_status nugwier_common(const struct nugwier_file *file, struct nugwier_common *common);

/* Whether a hash section is sound for these symbols. On one that is, a look-up returns no error, and finds a symbol
 * exactly if one that the section indexes has the name. */
struct nugwier_status nugwier_hash_check(bool gnu, const uint8_t *section, size_t section_len,
                                         const struct nugwier_table *symbols, const uint8_t *strings,
                                         size_t strings_len, struct nugwier_verdict *verdict);

/* ---- versions of symbols */

/* Needs or definitions. If a file has versions, but none of these, `found` is false, `count` and the lengths are 0, and
 * the byte order and the class are those of the file. */
struct nugwier_entries {
    bool found;
    uint64_t count;
    struct nugwier_table entries;
    const uint8_t *strings;
    size_t strings_len;
};

struct nugwier_versions {
    bool found;
    struct nugwier_table indexes;
    struct nugwier_entries needs;
    struct nugwier_entries definitions;
};

struct nugwier_version {
    uint16_t index;
    bool hidden;
};

struct nugwier_requirement {
    bool found;
    bool hidden;
    uint16_t flags;
    uint32_t hash;
    const uint8_t *file;
    size_t file_len;
    const uint8_t *name;
    size_t name_len;
};

struct nugwier_version_names {
    uint64_t count;
    size_t offset;
    struct nugwier_table entries;
    const uint8_t *strings;
    size_t strings_len;
};

struct nugwier_definition {
    bool found;
    bool hidden;
    uint16_t flags;
    uint32_t hash;
    struct nugwier_version_names names;
};

/* The versions of the symbols of a file. If `found` is false, the call wrote nothing else. */
struct nugwier_status nugwier_version_table(const struct nugwier_file *file, struct nugwier_versions *versions);

/* What symbol number `symbol` has. If `found` is false, the call wrote nothing else. */
struct nugwier_status nugwier_version_index(const struct nugwier_versions *versions, size_t symbol,
                                            struct nugwier_version *version);
struct nugwier_status nugwier_requirement(const struct nugwier_versions *versions, size_t symbol,
                                          struct nugwier_requirement *requirement);
struct nugwier_status nugwier_definition(const struct nugwier_versions *versions, size_t symbol,
                                         struct nugwier_definition *defined);

/* The same without a walk over the needs or the definitions, which the two calls above take for each symbol.
 *
 * `nugwier_place_versions` fills places of the caller in one walk, whatever they hold. Number k then holds the first
 * need and the first definition with the version index k. With these places the two calls below return and write what
 * the two above do. A symbol whose index is below `places_len` takes no walk, any other one that of the calls above.
 * Version indexes have 15 bits, so 32,768 places suffice; those of most files are below 100. Of places that were not
 * filled for these versions it is not said what they find.
 *
 * The names of a need begin at `file` and `name` of the strings of the needs, in bytes. Those of a definition are at
 * most `count`, the first at `offset` of the entries of the definitions. */
struct nugwier_placed_need {
    uint16_t found;  /* 0 if there is none */
    uint16_t flags;
    uint32_t hash;
    uint32_t file;
    uint32_t name;
};

struct nugwier_placed_definition {
    uint16_t found;  /* 0 if there is none */
    uint16_t flags;
    uint32_t hash;
    uint64_t count;
    size_t offset;
};

struct nugwier_version_place {
    struct nugwier_placed_need need;
    struct nugwier_placed_definition definition;
};

void nugwier_place_versions(const struct nugwier_versions *versions, struct nugwier_version_place *places,
                            size_t places_len);
struct nugwier_status nugwier_placed_requirement(const struct nugwier_versions *versions,
                                                 const struct nugwier_version_place *places, size_t places_len,
                                                 size_t symbol, struct nugwier_requirement *requirement);
struct nugwier_status nugwier_placed_definition(const struct nugwier_versions *versions,
                                                const struct nugwier_version_place *places, size_t places_len,
                                                size_t symbol, struct nugwier_definition *defined);

/* The next name of a definition. If none is left, `found` is false, `names->count` is 0, and nothing else is written.
 * Otherwise `names->count` and `names->offset` go on, also after an error, so that the next call takes the name after
 * it. */
struct nugwier_status nugwier_version_name(struct nugwier_version_names *names, bool *found,
                                           struct nugwier_bytes *name);

/* ---- the check of a file */

/* The kinds of faults. The numbers do not change from one version to the next. */
enum {
    NUGWIER_NO_FAULT = 0,
    /* of the file */
    NUGWIER_FAULT_NO_NAMES = 1,                       /* the names of the sections cannot be read */
    NUGWIER_FAULT_REPEATED_TYPE = 2,                  /* first: the type, of which there is to be one section at most */
    /* of a section */
    NUGWIER_FAULT_SECTION_NO_NAME = 101,              /* its name cannot be read */
    NUGWIER_FAULT_SECTION_NO_BYTES = 102,             /* its range, or its compression header, is not in the file */
    NUGWIER_FAULT_SECTION_COMPRESSED = 103,           /* it has a type whose content is read as it lies in the file */
    NUGWIER_FAULT_SECTION_NO_LAST_NUL = 104,          /* it holds strings, and its last byte is not 0 */
    NUGWIER_FAULT_SECTION_NO_NOTE = 105,              /* first: the offset in the section where no note is */
    /* of a section of symbols */
    NUGWIER_FAULT_SYMBOLS_BAD_LINK = 201,             /* no linked section, or not the entry size of a symbol */
    NUGWIER_FAULT_SYMBOLS_LINKED_TO_NO_STRINGS = 202, /* the linked section holds no strings */
    NUGWIER_FAULT_PART_OF_SYMBOL = 203,               /* not a whole number of symbols */
    NUGWIER_FAULT_NO_SYMBOLS = 204,                   /* the symbols or their strings do not lie in the file */
    NUGWIER_FAULT_SYMBOL_NO_NAME = 205,               /* first: the symbol, second: the offset of its name */
    NUGWIER_FAULT_SYMBOL_NO_SECTION = 206,            /* first: the symbol, second: its missing section */
    /* of a section of relocations */
    NUGWIER_FAULT_RELOCATIONS_ENTRY_SIZE = 301,       /* not the entry size of a relocation */
    NUGWIER_FAULT_RELOCATIONS_NO_LINK = 302,          /* the linked section holds no symbols */
    NUGWIER_FAULT_PART_OF_RELOCATION = 303,           /* not a whole number of relocations */
    NUGWIER_FAULT_RELOCATION_NO_SYMBOL = 304,         /* first: the relocation, second: its missing symbol */
    /* of a hash section */
    NUGWIER_FAULT_HASH_NOT_LINKED = 401,              /* the linked section holds no symbols */
    NUGWIER_FAULT_HASH_NO_TABLE = 402,                /* no hash table, or no symbols for it */
    NUGWIER_FAULT_HASH_ENDLESS = 403,                 /* SysV, first: the bucket whose chain has no end */
    NUGWIER_FAULT_HASH_PAST_CHAINS = 404,             /* SysV, first: the bucket, second: an index past the chains */
    NUGWIER_FAULT_HASH_UNREADABLE = 405,              /* first: the symbol that cannot be read, or its name */
    NUGWIER_FAULT_HASH_WRONG_BUCKET = 406,            /* SysV, first: the bucket, second: a symbol of another */
    NUGWIER_FAULT_HASH_SHIFT_TOO_LARGE = 407,         /* GNU: 32 or more */
    NUGWIER_FAULT_HASH_WRONG_HASH = 408,              /* GNU, first: the symbol whose chain word is not its hash */
    NUGWIER_FAULT_HASH_NO_BLOOM_BIT = 409,            /* GNU, first: the symbol that the bloom filter leaves out */
    NUGWIER_FAULT_HASH_NOT_IN_RUN = 410,              /* GNU, first: the symbol that is not in the run of its bucket */
    /* of a section of dynamic entries */
    NUGWIER_FAULT_DYNAMIC_ENTRY_SIZE = 501,           /* not the entry size of a dynamic entry */
    NUGWIER_FAULT_DYNAMIC_NOT_LINKED = 502,           /* no linked section, or it holds no strings */
    NUGWIER_FAULT_DYNAMIC_NO_STRINGS = 503,           /* the strings do not lie in the file */
    NUGWIER_FAULT_PART_OF_DYNAMIC_ENTRY = 504,        /* not a whole number of dynamic entries */
    NUGWIER_FAULT_DYNAMIC_NO_NULL = 505,              /* no entry has the tag DT_NULL */
    NUGWIER_FAULT_DYNAMIC_NO_STRING = 506,            /* first: the entry whose string cannot be read */
    /* of the versions of symbols */
    NUGWIER_FAULT_NEEDS_UNREADABLE = 601,             /* no needs, or no strings for them */
    NUGWIER_FAULT_NEEDS_TOO_LONG = 602,               /* more versions than the section has bytes for */
    NUGWIER_FAULT_NEEDS_SHORT = 603,                  /* first: how many there are, fewer than declared */
    NUGWIER_FAULT_NEEDS_NOT_LAST = 604,               /* more than declared */
    NUGWIER_FAULT_NEED_UNREADABLE = 605,              /* first: the need of which a name or a version cannot be read */
    NUGWIER_FAULT_DEFINITIONS_UNREADABLE = 606,       /* no definitions, or no strings for them */
    NUGWIER_FAULT_DEFINITIONS_TOO_LONG = 607,         /* more names than the section has bytes for */
    NUGWIER_FAULT_DEFINITIONS_SHORT = 608,            /* first: how many there are, fewer than declared */
    NUGWIER_FAULT_DEFINITIONS_NOT_LAST = 609,         /* more than declared */
    NUGWIER_FAULT_DEFINITION_UNREADABLE = 610,        /* first: the definition of which a name cannot be read */
    NUGWIER_FAULT_PART_OF_VERSION_INDEX = 611,        /* not a whole number of version indexes */
    NUGWIER_FAULT_VERSION_INDEXES_UNREADABLE = 612,   /* the version indexes cannot be read */
    NUGWIER_FAULT_NO_DYNAMIC_SYMBOLS = 613,           /* no symbols for dynamic linking */
    NUGWIER_FAULT_COUNT_OF_VERSION_INDEXES = 614,     /* not as many version indexes as symbols */
    NUGWIER_FAULT_UNKNOWN_VERSION_INDEX = 615,        /* first: the symbol whose index is that of no version */
    NUGWIER_FAULT_AMBIGUOUS_VERSION_INDEX = 616,      /* first: the symbol whose index is that of two versions */
    /* of two segments; first: the index of the earlier one */
    NUGWIER_FAULT_SECOND_INTERP = 701,
    NUGWIER_FAULT_SECOND_DYNAMIC = 702,
    NUGWIER_FAULT_SECOND_PHDR = 703,
    NUGWIER_FAULT_SECOND_TLS = 704,
    NUGWIER_FAULT_PHDR_AFTER_LOAD = 705,              /* PT_PHDR after PT_LOAD */
    NUGWIER_FAULT_OVERLAPPING_LOAD = 706,             /* PT_LOAD that begins before the earlier one ends */
    /* of a segment; first: its type */
    NUGWIER_FAULT_SEGMENT_NO_BYTES = 801,             /* its bytes do not lie in the file */
    NUGWIER_FAULT_SEGMENT_FILE_SIZE = 802,            /* more bytes in the file than in memory */
    NUGWIER_FAULT_SEGMENT_PAST_ADDRESSES = 803,       /* ends past the last address of the file's class */
    NUGWIER_FAULT_SEGMENT_NO_LAST_NUL = 804,          /* PT_INTERP whose last byte is not 0 */
    NUGWIER_FAULT_SEGMENT_NO_NOTE = 805,              /* second: the offset in the segment where no note is */
    NUGWIER_FAULT_SEGMENT_PART_OF_ENTRY = 806,        /* not a whole number of dynamic entries */
    NUGWIER_FAULT_SEGMENT_NO_NULL = 807,              /* no dynamic entry has the tag DT_NULL */
    NUGWIER_FAULT_SEGMENT_OTHER_SECTION = 808         /* the section SHT_DYNAMIC has other bytes */
};

/* Which part of a file is at fault. */
enum {
    NUGWIER_PART_FILE = 0,
    NUGWIER_PART_SECTION = 1,
    NUGWIER_PART_VERSIONS = 2,
    NUGWIER_PART_SEGMENT = 3
};

/* A fault of a file: its kind and its part; `index` is that of the section or of the segment, counted from 0. Numbers
 * that the kind does not name are 0. */
struct nugwier_fault {
    uint32_t kind;
    uint32_t part;
    uint64_t index;
    uint64_t first;
    uint64_t second;
};

/* Whether a file is sound: whether what its headers declare can be read. `sound` says so. If it is not, `fault` is the
 * first fault in this order: names of sections; types that one section may have; sections in order, of each its name,
 * its bytes and its content; versions of symbols; segments. If it is, the kind is NUGWIER_NO_FAULT.
 *
 * The check needs the whole file in one range. Without it the status is NUGWIER_NOT_LOADED, with 0 and the size of the
 * file, and nothing is written. Over a file that nugwier_open has opened the status is always NUGWIER_OK.
 *
 * Of a sound file that is loaded these return NUGWIER_OK: nugwier_section_names; nugwier_section_by_name;
 * nugwier_section below the number of sections; of each section nugwier_section_data, and nugwier_string at its name if
 * there are names; nugwier_version_table; nugwier_symbol_table; nugwier_symbol below the number of symbols, and
 * nugwier_string at its name. */
struct nugwier_status nugwier_check(const struct nugwier_file *file, bool *sound, struct nugwier_fault *fault);

/* Fills `faults` with the faults of a file, in the order of nugwier_check, and sets `count` to how many were written:
 * `faults_len` at most. If it is less, these are all. Each part of the file that is not sound has one, the first that
 * is looked for. The file is sound if it has none. The errors are those of nugwier_check; then nothing is written. */
struct nugwier_status nugwier_faults(const struct nugwier_file *file, struct nugwier_fault *faults, size_t faults_len,
                                     size_t *count);

/* The text of a fault, as "section 5: no bytes at its range", without a 0 byte at its end. It is written over the front
 * of `text`, as far as there is room; the call returns the length of the whole text, which is below 256.
 * NUGWIER_NO_FAULT has no text. */
size_t nugwier_fault_text(const struct nugwier_fault *fault, uint8_t *text, size_t text_len);

/* ---- the names of values */

/* If `found` is false, the value has no name, and `bytes_len` is 0. */
struct nugwier_name {
    bool found;
    const uint8_t *bytes;
    size_t bytes_len;
};

void nugwier_e_osabi_name(uint8_t e_osabi, struct nugwier_name *name);
void nugwier_e_type_name(uint16_t e_type, struct nugwier_name *name);
void nugwier_e_machine_name(uint16_t e_machine, struct nugwier_name *name);
void nugwier_sh_type_name(uint32_t sh_type, struct nugwier_name *name);
void nugwier_p_type_name(uint32_t p_type, struct nugwier_name *name);
void nugwier_st_symtype_name(uint8_t st_symtype, struct nugwier_name *name);
void nugwier_st_bind_name(uint8_t st_bind, struct nugwier_name *name);
void nugwier_st_vis_name(uint8_t st_vis, struct nugwier_name *name);
void nugwier_ch_type_name(uint32_t ch_type, struct nugwier_name *name);
void nugwier_note_abi_tag_os_name(uint32_t os, struct nugwier_name *name);
void nugwier_d_tag_name(int64_t d_tag, struct nugwier_name *name);

/* The names of what depends on the machine of the file (`e_machine`) or on the owner of a note, whose name is without the
 * 0 byte at its end: R_X86_64_JUMP_SLOT, SHT_ARM_EXIDX, PT_ARM_EXIDX, DT_MIPS_GOTSYM, NT_GNU_BUILD_ID. A type or a tag
 * that the machine does not name has the name of any machine, as DT_RELR, or that of the calls above. */
void nugwier_r_type_name(uint16_t e_machine, uint32_t r_type, struct nugwier_name *name);
void nugwier_machine_sh_type_name(uint16_t e_machine, uint32_t sh_type, struct nugwier_name *name);
void nugwier_machine_p_type_name(uint16_t e_machine, uint32_t p_type, struct nugwier_name *name);
void nugwier_machine_d_tag_name(uint16_t e_machine, int64_t d_tag, struct nugwier_name *name);
void nugwier_n_type_name(const uint8_t *owner, size_t owner_len, uint64_t n_type, struct nugwier_name *name);

/* The name of the error with the code of a status, as BadMagic. */
void nugwier_error_name(uint32_t code, struct nugwier_name *name);

/* The text of the error of a status with its numbers, as "Bad offset: 0x40", without a 0 byte at its end. It is written
 * over the front of `text`, as far as there is room; the call returns the length of the whole text. NUGWIER_OK has no
 * text. */
size_t nugwier_error_text(const struct nugwier_status *status, uint8_t *text, size_t text_len);

#ifdef __cplusplus
}
#endif

/* In C++ some structs have the name of a function, as nugwier_section, so that `struct` has to be written before it.
 * Here each struct has a name without that: nugwier::section. */
#if defined(__cplusplus) && __cplusplus >= 201103L
namespace nugwier {
using status = struct ::nugwier_status;
using bytes = struct ::nugwier_bytes;
using found_bytes = struct ::nugwier_found_bytes;
using table = struct ::nugwier_table;
using symbol = struct ::nugwier_symbol;
using named_symbol = struct ::nugwier_named_symbol;
using section = struct ::nugwier_section;
using segment = struct ::nugwier_segment;
using rel = struct ::nugwier_rel;
using rela = struct ::nugwier_rela;
using dynamic = struct ::nugwier_dynamic;
using header = struct ::nugwier_header;
using range = struct ::nugwier_range;
using file = struct ::nugwier_file;
using compression = struct ::nugwier_compression;
using data = struct ::nugwier_data;
using notes = struct ::nugwier_notes;
using symbol_table = struct ::nugwier_symbol_table;
using dynamic_table = struct ::nugwier_dynamic_table;
using section_names = struct ::nugwier_section_names;
using dynamic_names = struct ::nugwier_dynamic_names;
using needed = struct ::nugwier_needed;
using abi_tag = struct ::nugwier_abi_tag;
using note = struct ::nugwier_note;
using found = struct ::nugwier_found;
using verdict = struct ::nugwier_verdict;
using gnu = struct ::nugwier_gnu;
using sysv = struct ::nugwier_sysv;
using common = struct ::nugwier_common;
using entries = struct ::nugwier_entries;
using versions = struct ::nugwier_versions;
using version = struct ::nugwier_version;
using requirement = struct ::nugwier_requirement;
using version_names = struct ::nugwier_version_names;
using definition = struct ::nugwier_definition;
using placed_need = struct ::nugwier_placed_need;
using placed_definition = struct ::nugwier_placed_definition;
using version_place = struct ::nugwier_version_place;
using fault = struct ::nugwier_fault;
using name = struct ::nugwier_name;
}
#endif

#endif
