/* Nugwier for C++17: owners of files, and ranges over what lies in them, above nugwier.h.
 *
 *     nugwier::elf file = nugwier::elf::map("/bin/sh");
 *     for (const auto &section : file.sections()) std::cout << section.name.value_or("") << '\n';
 *     for (const auto &library : file.needed()) std::cout << library.name << '\n';
 *
 * An error of the library is thrown as a `nugwier::error`, one of the system as a `std::system_error`. Nothing is copied:
 * views and names lie in the bytes of the file, so they are used while its `elf` lives. It may be moved meanwhile. A
 * file that is mapped must not be truncated.
 *
 * The structs of nugwier.h have the names nugwier::section, nugwier::symbol and so on; constants are used as they are.
 */
#ifndef NUGWIER_HPP
#define NUGWIER_HPP

#include <cerrno>
#include <cstddef>
#include <cstdint>
#include <iterator>
#include <memory>
#include <optional>
#include <stdexcept>
#include <string>
#include <string_view>
#include <system_error>
#include <type_traits>
#include <utility>
#include <vector>

#include <fcntl.h>
#include <sys/mman.h>
#include <sys/stat.h>
#include <unistd.h>

#include "nugwier.h"
#include "nugwier_elf.h"

namespace nugwier {

/* Bytes of a file, also as characters. */
struct byte_view {
    const std::uint8_t *at = nullptr;
    std::size_t length = 0;

    const std::uint8_t *begin() const { return at; }
    const std::uint8_t *end() const { return at + length; }
    std::string_view text() const { return {reinterpret_cast<const char *>(at), length}; }
};

namespace detail {

inline const std::uint8_t *bytes_of(std::string_view text)
{
    return reinterpret_cast<const std::uint8_t *>(text.data());
}

/* The text that a call writes, which is shorter than the room. */
template <class Of> std::string text(std::size_t (*write)(const Of *, std::uint8_t *, std::size_t), const Of &of)
{
    std::uint8_t room[256];
    return std::string(byte_view{room, write(&of, room, sizeof room)}.text());
}

} // namespace detail

inline std::string to_string(const nugwier::status &of) { return detail::text(nugwier_error_text, of); }
inline std::string to_string(const nugwier::fault &of) { return detail::text(nugwier_fault_text, of); }

/* An error of the library: its text, and the status with its code and its numbers. */
struct error : std::runtime_error {
    explicit error(const nugwier::status &of) : std::runtime_error(to_string(of)), status(of) {}
    nugwier::status status;
};

/* Throws the error of a status, if it is one. */
inline void expect(const nugwier::status &of)
{
    if (of.code != NUGWIER_OK) throw error(of);
}

namespace detail {

/* What a call writes over its last parameter. An error is thrown. */
template <class Written, class Call, class... Given> Written written(Call call, Given... given)
{
    Written place{};
    expect(call(given..., &place));
    return place;
}

template <class Found> std::optional<Found> if_found(const Found &place)
{
    return place.found ? std::optional(place) : std::nullopt;
}

inline std::optional<std::string_view> string_at(byte_view strings, std::size_t offset)
{
    nugwier::bytes string{};
    if (nugwier_string(strings.at, strings.length, offset, &string).code) return std::nullopt;
    return byte_view{string.bytes, string.bytes_len}.text();
}

struct unmap {
    std::size_t length = 0;
    void operator()(const std::uint8_t *at) const { ::munmap(const_cast<std::uint8_t *>(at), length); }
};
using mapping = std::unique_ptr<const std::uint8_t, unmap>;

/* Maps a file. One of no bytes has none to be mapped. */
inline mapping mapped(const std::string &path)
{
    struct stat about {};
    void *at = nullptr;
    int descriptor = ::open(path.c_str(), O_RDONLY | O_CLOEXEC);
    bool fine = descriptor >= 0 && ::fstat(descriptor, &about) == 0;
    auto length = static_cast<std::size_t>(about.st_size);
    if (fine && length > 0) {
        at = ::mmap(nullptr, length, PROT_READ, MAP_PRIVATE, descriptor, 0);
        fine = at != MAP_FAILED;
    }
    int number = errno;
    if (descriptor >= 0) ::close(descriptor);
    if (!fine) throw std::system_error(number, std::generic_category(), path);
    return mapping(static_cast<const std::uint8_t *>(at), unmap{length});
}

} // namespace detail

/* What a function returns, call after call, until it returns nothing. Each walk over it starts anew. Two iterators are
 * equal if both are at the end, or neither is. */
template <class Next> struct walk {
    struct iterator {
        using iterator_category = std::input_iterator_tag;
        using value_type = typename std::invoke_result_t<Next &>::value_type;
        using difference_type = std::ptrdiff_t;
        using pointer = const value_type *;
        using reference = const value_type &;

        std::shared_ptr<Next> next;
        std::optional<value_type> item;

        reference operator*() const { return *item; }
        pointer operator->() const { return &*item; }
        iterator &operator++() { return item = (*next)(), *this; }
        iterator operator++(int) { return std::exchange(*this, ++iterator(*this)); }
        bool operator==(const iterator &other) const { return item.has_value() == other.item.has_value(); }
        bool operator!=(const iterator &other) const { return !(*this == other); }
    };

    explicit walk(Next start) : next(std::move(start)) {}
    iterator begin() const { return ++iterator{std::make_shared<Next>(next), std::nullopt}; }
    iterator end() const { return {}; }

    Next next;
};

/* A section with its index and its name. A name that cannot be read is missing, here and below. */
struct listed_section {
    std::size_t index;
    nugwier::section header;
    std::optional<std::string_view> name;
};

/* The version of a symbol: of a needed one also the library that defines it, of which else there are no bytes. */
struct symbol_version {
    std::string_view name;
    std::string_view library;
    bool hidden;
};

/* A symbol with its index and its name, and its version, if it has one. */
struct listed_symbol {
    std::size_t index;
    nugwier::symbol symbol;
    std::optional<std::string_view> name;
    std::optional<symbol_version> version;
};

/* A relocation. One of a section SHT_REL has no addend. */
struct relocation {
    std::uint64_t offset;
    std::uint32_t symbol;
    std::uint32_t kind;
    std::optional<std::int64_t> addend;
};

/* A library that is loaded with a file: the tag of its entry, DT_NEEDED, DT_AUXILIARY or DT_FILTER, and its name. */
struct library {
    std::int64_t tag;
    std::string_view name;
};

namespace detail {

/* Places for the versions of symbols, filled for these. */
inline std::vector<nugwier::version_place> places_of(const nugwier::versions &all)
{
    std::vector<nugwier::version_place> places(all.found ? 256 : 0);
    nugwier_place_versions(&all, places.data(), places.size());
    return places;
}

/* The version of a symbol. One that cannot be read is missing. */
inline std::optional<symbol_version> version_of(const nugwier::versions &all,
                                                const std::vector<nugwier::version_place> &places, std::size_t symbol)
{
    nugwier::requirement need{};
    nugwier::definition own{};
    nugwier::bytes first{};
    bool named = false;
    if (!nugwier_placed_requirement(&all, places.data(), places.size(), symbol, &need).code && need.found)
        return symbol_version{byte_view{need.name, need.name_len}.text(), byte_view{need.file, need.file_len}.text(),
                              need.hidden};
    if (nugwier_placed_definition(&all, places.data(), places.size(), symbol, &own).code || !own.found)
        return std::nullopt;
    if (nugwier_version_name(&own.names, &named, &first).code || !named) return std::nullopt;
    return symbol_version{byte_view{first.bytes, first.bytes_len}.text(), {}, own.hidden};
}

} // namespace detail

/* A file that was opened, with its bytes. */
class elf {
public:
    /* Maps the file of a path. */
    static elf map(const std::string &path) { return elf(detail::mapped(path)); }

    /* Opens the file that these bytes are. */
    explicit elf(std::vector<std::uint8_t> bytes) : bytes_(std::move(bytes)) { open({bytes_.data(), bytes_.size()}); }

    /* The same of bytes that stay where they are while the file is used. */
    explicit elf(byte_view bytes) { open(bytes); }

    /* The file as the calls of nugwier.h take it; its header is in it. */
    const nugwier::file &raw() const { return file_; }

    auto sections() const
    {
        auto names = detail::written<nugwier::section_names>(nugwier_section_names, &file_);
        return walk([file = file_, names, index = std::size_t{0}]() mutable -> std::optional<listed_section> {
            listed_section one{index, {}, std::nullopt};
            if (nugwier_section(&file, index++, &one.header).code) return std::nullopt;
            if (names.found) one.name = detail::string_at({names.strings, names.strings_len}, one.header.name);
            return one;
        });
    }

    /* The first section of a name. */
    std::optional<nugwier::section> section(std::string_view name) const
    {
        bool found = false;
        nugwier::section place{};
        expect(nugwier_section_by_name(&file_, detail::bytes_of(name), name.size(), &found, &place));
        return found ? std::optional(place) : std::nullopt;
    }

    /* The program headers, in order. */
    auto segments() const
    {
        return walk([file = file_, index = std::size_t{0}, one = nugwier::segment{}]() mutable {
            return nugwier_segment(&file, index++, &one).code ? std::nullopt : std::optional(one);
        });
    }

    /* The bytes of a section, after its compression header if it has one; nothing is decompressed. */
    byte_view bytes(const nugwier::section &of) const
    {
        auto part = detail::written<nugwier::data>(nugwier_section_data, &file_, &of);
        return {part.bytes, part.bytes_len};
    }
    byte_view bytes(const nugwier::segment &of) const
    {
        auto part = detail::written<nugwier::bytes>(nugwier_segment_data, &file_, &of);
        return {part.bytes, part.bytes_len};
    }

    /* All symbols, or those for dynamic linking with their versions. */
    auto symbols(bool dynamic = false) const
    {
        auto table = detail::written<nugwier::symbol_table>(nugwier_symbol_table, &file_, dynamic);
        nugwier::versions all{};
        if (dynamic) expect(nugwier_version_table(&file_, &all));
        return walk([table, all, places = detail::places_of(all),
                     index = std::size_t{0}]() mutable -> std::optional<listed_symbol> {
            listed_symbol one{index, {}, std::nullopt, std::nullopt};
            if (nugwier_symbol(&table.symbols, index++, &one.symbol).code) return std::nullopt;
            one.name = detail::string_at({table.strings, table.strings_len}, one.symbol.name);
            if (all.found) one.version = detail::version_of(all, places, one.index);
            return one;
        });
    }

    /* The last symbol that starts at an address or before it: of all symbols, or of those for dynamic linking. */
    std::optional<nugwier::found> symbol_at(std::uint64_t address, bool dynamic = false) const
    {
        auto table = detail::written<nugwier::symbol_table>(nugwier_symbol_table, &file_, dynamic);
        nugwier::found place{};
        nugwier_symbol_at(&table.symbols, address, &place);
        return detail::if_found(place);
    }

    /* A function that finds the dynamic symbol of a name by the hash section; none is found in a file without one. */
    auto finder() const
    {
        return [all = detail::written<nugwier::common>(nugwier_common, &file_)](std::string_view name) {
            const nugwier::symbol_table &table = all.dynamic_symbols;
            const std::uint8_t *bytes = detail::bytes_of(name);
            nugwier::found place{};
            if (all.has_gnu)
                expect(nugwier_gnu_look_up(&all.gnu, &table.symbols, table.strings, table.strings_len, bytes,
                                           name.size(), &place));
            else if (all.has_sysv)
                expect(nugwier_sysv_look_up(&all.sysv, &table.symbols, table.strings, table.strings_len, bytes,
                                            name.size(), &place));
            return detail::if_found(place);
        };
    }
    std::optional<nugwier::found> find(std::string_view name) const { return finder()(name); }

    /* The relocations of a section SHT_REL or SHT_RELA. */
    std::vector<relocation> relocations(const nugwier::section &of) const
    {
        std::vector<relocation> all;
        nugwier::rel one{};
        nugwier::rela with{};
        bool is_rela = of.kind == NUGWIER_SHT_RELA;
        auto table = detail::written<nugwier::table>(is_rela ? nugwier_section_relas : nugwier_section_rels, &file_, &of);
        for (std::size_t i = 0; is_rela && !nugwier_rela(&table, i, &with).code; i++)
            all.push_back({with.offset, with.symbol, with.kind, with.addend});
        for (std::size_t i = 0; !is_rela && !nugwier_rel(&table, i, &one).code; i++)
            all.push_back({one.offset, one.symbol, one.kind, std::nullopt});
        return all;
    }

    /* The dynamic entries, up to the first DT_NULL. */
    auto dynamic_entries() const
    {
        auto table = detail::written<nugwier::dynamic_table>(nugwier_dynamic_table, &file_);
        return walk([table, index = std::size_t{0}]() mutable -> std::optional<nugwier::dynamic> {
            nugwier::dynamic one{};
            if (!table.found || nugwier_dynamic(&table.entries, index++, &one).code) return std::nullopt;
            table.found = one.tag != NUGWIER_DT_NULL;
            return one;
        });
    }

    /* The libraries that are loaded with the file. */
    auto needed() const
    {
        auto names = detail::written<nugwier::dynamic_names>(nugwier_dynamic_names, &file_);
        return walk([names, next = std::size_t{0}]() mutable -> std::optional<library> {
            auto one = detail::written<nugwier::needed>(nugwier_needed, &names, &next);
            return one.found ? std::optional(library{one.tag, byte_view{one.name, one.name_len}.text()}) : std::nullopt;
        });
    }

    std::optional<std::string_view> soname() const { return dynamic_name(nugwier_soname); }
    std::optional<std::string_view> runpath() const { return dynamic_name(nugwier_runpath); }
    std::optional<std::string_view> rpath() const { return dynamic_name(nugwier_rpath); }

    std::optional<byte_view> build_id() const
    {
        auto id = detail::written<nugwier::found_bytes>(nugwier_build_id, &file_);
        return id.found ? std::optional(byte_view{id.bytes, id.bytes_len}) : std::nullopt;
    }

    /* The notes of a section SHT_NOTE or of a segment PT_NOTE, up to the first that cannot be read. */
    template <class Header> auto notes(const Header &of) const
    {
        nugwier::notes all{};
        if constexpr (std::is_same_v<Header, nugwier::section>) expect(nugwier_section_notes(&file_, &of, &all));
        else expect(nugwier_segment_notes(&file_, &of, &all));
        return walk([all, offset = std::size_t{0}, one = nugwier::note{}]() mutable {
            return nugwier_note(&all, &offset, &one).code ? std::nullopt : std::optional(one);
        });
    }

    /* The first fault of the file, or nothing if it is sound. */
    std::optional<nugwier::fault> check() const
    {
        bool sound = false;
        auto fault = detail::written<nugwier::fault>(nugwier_check, &file_, &sound);
        return sound ? std::nullopt : std::optional(fault);
    }

private:
    explicit elf(detail::mapping mapping) : mapping_(std::move(mapping))
    {
        open({mapping_.get(), mapping_.get_deleter().length});
    }

    void open(byte_view bytes) { expect(nugwier_open(bytes.at, bytes.length, &file_)); }

    template <class Call> std::optional<std::string_view> dynamic_name(Call call) const
    {
        auto names = detail::written<nugwier::dynamic_names>(nugwier_dynamic_names, &file_);
        auto name = detail::written<nugwier::found_bytes>(call, &names);
        return name.found ? std::optional(byte_view{name.bytes, name.bytes_len}.text()) : std::nullopt;
    }

    detail::mapping mapping_;
    std::vector<std::uint8_t> bytes_;
    nugwier::file file_{};
};

} // namespace nugwier

#endif
