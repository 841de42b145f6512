/* Lists what a file holds, as example.c does, by the C++ header.
 *
 * usage: example-cpp FILE sections|symbols|dynsyms|versions|relocs|notes|dynamic|fault, or name NAME, or hash NAME
 *        example-cpp FILE names              libraries, soname, runpath, rpath and build id
 *        example-cpp FILE at ADDRESS         the symbol at a hexadecimal address or before it
 */
#include <cstdio>
#include <cstdlib>
#include <cstring>

#include "nugwier.hpp"

static int width(std::string_view text) { return static_cast<int>(text.size()); }

static void list_sections(const nugwier::elf &file)
{
    for (const auto &one : file.sections()) {
        std::string_view name = one.name.value_or("");
        std::printf("%zu %u %06llx %06llx %.*s\n", one.index, one.header.kind,
                    static_cast<unsigned long long>(one.header.offset),
                    static_cast<unsigned long long>(one.header.size), width(name), name.data());
    }
}

static void list_symbols(const nugwier::elf &file, bool dynamic)
{
    for (const auto &one : file.symbols(dynamic)) {
        std::string_view name = one.name.value_or("");
        std::printf("%zu %016llx %llu %d %d %d %d %.*s\n", one.index,
                    static_cast<unsigned long long>(one.symbol.value), static_cast<unsigned long long>(one.symbol.size),
                    one.symbol.info & 15, one.symbol.info >> 4, one.symbol.other & 3, one.symbol.shndx, width(name),
                    name.data());
    }
}

static void list_versions(const nugwier::elf &file)
{
    for (const auto &one : file.symbols(true)) {
        if (!one.version) continue;
        const auto &version = *one.version;
        if (version.library.data() != nullptr)
            std::printf("%zu @%.*s %.*s\n", one.index, width(version.name), version.name.data(),
                        width(version.library), version.library.data());
        else
            std::printf("%zu %s%.*s\n", one.index, version.hidden ? "@" : "@@", width(version.name),
                        version.name.data());
    }
}

static void list_relocations(const nugwier::elf &file)
{
    for (const auto &section : file.sections()) {
        if (section.header.kind != NUGWIER_SHT_RELA && section.header.kind != NUGWIER_SHT_REL) continue;
        for (const auto &one : file.relocations(section.header)) {
            std::printf("%zu %llx %u %u", section.index, static_cast<unsigned long long>(one.offset), one.kind,
                        one.symbol);
            if (one.addend) std::printf(" %lld", static_cast<long long>(*one.addend));
            std::printf("\n");
        }
    }
}

static void print_hexadecimal(nugwier::byte_view bytes)
{
    for (std::uint8_t byte : bytes) std::printf("%02x", byte);
    std::printf("\n");
}

static void list_notes(const nugwier::elf &file)
{
    std::size_t index = 0;
    for (const auto &segment : file.segments()) {
        std::size_t here = index++;
        if (segment.kind != NUGWIER_PT_NOTE) continue;
        for (const auto &note : file.notes(segment)) {
            if (note.kind == 1) {
                std::printf("%zu abi-tag %u %u.%u.%u\n", here, note.tag.os, note.tag.major, note.tag.minor,
                            note.tag.subminor);
            } else if (note.kind == 2) {
                std::printf("%zu build-id ", here);
                print_hexadecimal({note.desc, note.desc_len});
            } else {
                std::string_view name = nugwier::byte_view{note.name, note.name_len}.text();
                name = name.substr(0, name.find('\0'));
                std::printf("%zu %.*s %llu %zu\n", here, width(name), name.data(),
                            static_cast<unsigned long long>(note.n_type), note.desc_len);
            }
        }
    }
}

static void list_dynamic(const nugwier::elf &file)
{
    for (const auto &one : file.dynamic_entries()) {
        nugwier::name name{};
        nugwier_d_tag_name(one.tag, &name);
        std::string_view text = nugwier::byte_view{name.bytes, name.bytes_len}.text();
        std::printf("%016llx %016llx %.*s\n", static_cast<unsigned long long>(one.tag),
                    static_cast<unsigned long long>(one.value), width(text), text.data());
    }
}

static void print_name(const char *what, std::optional<std::string_view> name)
{
    if (name) std::printf("%s %.*s\n", what, width(*name), name->data());
}

static void list_names(const nugwier::elf &file)
{
    for (const auto &library : file.needed())
        print_name(library.tag == NUGWIER_DT_NEEDED ? "NEEDED" : "FILTER", library.name);
    print_name("SONAME", file.soname());
    print_name("RUNPATH", file.runpath());
    print_name("RPATH", file.rpath());
    if (auto id = file.build_id()) {
        std::printf("BUILD-ID ");
        print_hexadecimal(*id);
    }
}

static void print_found(std::size_t index, const nugwier::symbol &symbol)
{
    std::printf("%zu %016llx\n", index, static_cast<unsigned long long>(symbol.value));
}

static void find_by_name(const nugwier::elf &file, std::string_view name)
{
    for (const auto &one : file.symbols(true))
        if (one.name == name) return print_found(one.index, one.symbol);
}

static int answer(const nugwier::elf &file, std::string_view what, const char *word)
{
    std::optional<nugwier::found> found;
    if (what == "sections") list_sections(file);
    else if (what == "symbols" || what == "dynsyms") list_symbols(file, what == "dynsyms");
    else if (what == "versions") list_versions(file);
    else if (what == "relocs") list_relocations(file);
    else if (what == "notes") list_notes(file);
    else if (what == "dynamic") list_dynamic(file);
    else if (what == "names") list_names(file);
    else if (what == "fault") {
        auto fault = file.check();
        std::puts(fault ? nugwier::to_string(*fault).c_str() : "sound");
        return fault ? 1 : 0;
    } else if (word == nullptr) return std::fputs("unknown request\n", stderr), 2;
    else if (what == "name") find_by_name(file, word);
    else if (what == "hash") found = file.find(word);
    else if (what == "at") found = file.symbol_at(std::strtoull(word, nullptr, 16), true);
    if (found) print_found(found->index, found->symbol);
    return 0;
}

int main(int argc, char **argv)
{
    if (argc < 3) return std::fputs("usage: example-cpp FILE REQUEST [WORD]\n", stderr), 2;
    try {
        nugwier::elf mapped = nugwier::elf::map(argv[1]);
        nugwier::elf file = std::move(mapped);
        return answer(file, argv[2], argc > 3 ? argv[3] : nullptr);
    } catch (const std::exception &error) {
        return std::fprintf(stderr, "%s\n", error.what()), 1;
    }
}
