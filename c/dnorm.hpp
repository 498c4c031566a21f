// dnorm for C++17, over the functions of dnorm.h and dnorm_tools.h, in the namespace dnorm_cpp:
//
//     Instance            an instance that a text was read as: what it is, its arcs and items, its canonical text
//     Path, Descriptor    where a text is that an instance is read from: a file, or an open one
//     with_lines          what an Instance or a Reader is also given to keep the arc lines of the text, for spread
//     Reader              reads a text that comes in pieces
//     write, write_flow   write a text of items and arcs, and a flow on arc lines
//     Refused             why there is no instance or no text, where that is thrown; out of memory is std::bad_alloc
//
// Instance and Reader free what they own, can be moved and not copied, and keep the rules of dnorm.h. The const members
// of one Instance may be called by several threads at the same time. Any call of an Instance that was moved from, a
// call for the arcs of a companion, for lines that were not kept, and a piece for a Reader that has ended throw Refused
// with the code DNORM_WRONG_CALL. A form other than 1 and 2 is a std::invalid_argument. A call with a `dnorm_status &`
// throws no Refused, and sets that to the code of the call, which is DNORM_MEMORY where the library has no memory.
#ifndef DNORM_HPP
#define DNORM_HPP
#include "dnorm.h"
#include "dnorm_tools.h"
#include <cerrno>
#include <cstddef>
#include <cstdio>
#include <iostream>
#include <iterator>
#include <memory>
#include <new>
#include <optional>
#include <stdexcept>
#include <string>
#include <string_view>
#include <system_error>
#include <type_traits>
#include <utility>
#include <vector>

namespace dnorm_cpp {

// Why there is no instance or no text: the status of the call, and the name of the file, if it is that of a file.
// what() is `roads.gr: line 2: 13 NodeOutOfRange: ..`, or begins with `line 2`.
class Refused : public std::runtime_error {
public:
    const dnorm_status status;
    const std::string file;
    explicit Refused(dnorm_status why, const std::string &of_file = {})
        : std::runtime_error(said(why, of_file)), status(why), file(of_file) {}

    // Returns the name of the refusal.
    const char *name() const noexcept { return dnorm_code_name(status.code); }

private:
    static std::string said(dnorm_status why, const std::string &of_file) {
        char line[256];
        dnorm_status_line(why, line, sizeof line);
        return of_file.empty() ? line : of_file + ": " + line;
    }
};

// The name of a file.
struct Path {
    std::string name;
    explicit Path(std::string given) : name(std::move(given)) {}
};

// An open file, which stays open.
struct Descriptor {
    int number;
    explicit Descriptor(int given) : number(given) {}
};

// Says that the arc lines of a text are kept beside its instance.
struct WithLines {};
inline constexpr WithLines with_lines{};

namespace detail {

// Owns what a `dnorm` owns.
class Handle {
public:
    Handle() = default;
    Handle(Handle &&other) noexcept : raw(std::exchange(other.raw, DNORM_NONE)) {}
    Handle &operator=(Handle &&other) noexcept {
        Handle taken(std::move(other));
        std::swap(raw, taken.raw);
        return *this;
    }
    Handle(const Handle &) = delete;
    Handle &operator=(const Handle &) = delete;
    ~Handle() { dnorm_free(&raw); }
    dnorm_handle *get() noexcept { return &raw; }
    const dnorm_handle *get() const noexcept { return &raw; }

private:
    dnorm_handle raw = DNORM_NONE;
};

// Arc lines, or null if they are not kept.
struct LinesFreed {
    void operator()(dnorm_arc_lines *it) const noexcept {
        dnorm_arc_lines_free(it);
        delete it;
    }
};
using Lines = std::unique_ptr<dnorm_arc_lines, LinesFreed>;
inline Lines lines(bool are_kept = true) { return Lines(are_kept ? new dnorm_arc_lines() : nullptr); }

inline void fine(dnorm_status status, const char *file = "") {
    if (status.code == DNORM_MEMORY) throw std::bad_alloc();
    if (status.code != DNORM_FINE) throw Refused(status, file);
}

inline void fine(std::uint8_t code) { fine(dnorm_status{code, DNORM_NO_PLACE, 0}); }

// Throws if a call was not for its handles.
inline void answered(bool is_answered) { fine(is_answered ? DNORM_FINE : DNORM_WRONG_CALL); }

// How many arcs, items or bytes a call copied or counted.
inline std::size_t counted(dnorm_count found) {
    fine(found.code);
    return found.count;
}

inline std::uint8_t form_of(int form) {
    if (form != 1 && form != 2) throw std::invalid_argument("a form is 1 or 2");
    return static_cast<std::uint8_t>(form);
}

} // namespace detail

class Reader;

// Canonical arcs by columns, as dnorm_arc has their numbers. Columns that the kind lacks are empty: b and c of `sp` and
// `max`.
template <typename Number> struct ColumnsOf {
    std::vector<Number> tails, heads, a, b, c;
};
using Columns = ColumnsOf<std::int64_t>;
using Columns32 = ColumnsOf<std::int32_t>;

// Canonical arcs by their tails, a forward star. The arcs of node v, counted from 1, have the indexes from first[v - 1]
// to first[v], without the last one.
template <typename Index, typename Number> struct StarOf : ColumnsOf<Number> {
    std::vector<Index> first;
    // Empty before reverse(). The arcs with the head v have the indexes into[i], which ascend, for each i from
    // into_first[v - 1] to into_first[v], without the last one.
    std::vector<Index> into_first, into;

    // Finds the arcs into each node. A star that was moved from has none.
    void reverse() {
        const std::vector<Number> &all = this->heads;
        into_first.resize(first.size());
        into.resize(all.size());
        if (first.empty()) return;
        if constexpr (std::is_same_v<Index, std::int32_t>)
            dnorm_inline_star_32_into(all.data(), all.size(), into_first.data(), first.size() - 1, into.data());
        else
            dnorm_inline_star_into(all.data(), all.size(), into_first.data(), first.size() - 1, into.data());
    }
};
using Star = StarOf<std::size_t, std::int64_t>;
using Star32 = StarOf<std::int32_t, std::int32_t>;

// Rows that somebody else owns, and that may be copied to a std::vector.
template <typename Row> class View {
public:
    View(const Row *at, std::size_t count) noexcept : rows(at), length(count) {}
    View(const std::vector<Row> &all) noexcept : View(all.data(), all.size()) {}
    const Row *begin() const noexcept { return rows; }
    const Row *end() const noexcept { return rows + length; }
    const Row *data() const noexcept { return rows; }
    std::size_t size() const noexcept { return length; }
    bool empty() const noexcept { return length == 0; }
    const Row &operator[](std::size_t at) const noexcept { return rows[at]; }
    operator std::vector<Row>() const { return {begin(), end()}; }

private:
    const Row *rows;
    std::size_t length;
};

// The canonical arcs of an instance in form 1, one after another: for (const dnorm_arc &arc : graph). Some are copied
// at a time. The instance must outlive it.
class ArcIterator {
public:
    using iterator_category = std::input_iterator_tag;
    using value_type = dnorm_arc;
    using difference_type = std::ptrdiff_t;
    using pointer = const dnorm_arc *;
    using reference = const dnorm_arc &;

    // The end of any instance.
    ArcIterator() = default;
    explicit ArcIterator(const dnorm_handle *graph) : of(graph) { fill(); }
    reference operator*() const { return some[at]; }
    pointer operator->() const { return &some[at]; }
    ArcIterator &operator++() {
        if (++at == count) fill();
        return *this;
    }
    ArcIterator operator++(int) {
        ArcIterator before = *this;
        ++*this;
        return before;
    }
    // Two iterators of one instance are equal if both have ended, or as many arcs are behind both.
    bool operator==(const ArcIterator &other) const noexcept { return left() == other.left(); }
    bool operator!=(const ArcIterator &other) const noexcept { return !(*this == other); }

private:
    const dnorm_handle *of = nullptr;
    dnorm_place place = DNORM_FIRST;
    std::vector<dnorm_arc> some;
    std::size_t at = 0, count = 0, taken = 0;

    // How many arcs were taken, or none at the end.
    std::size_t left() const noexcept { return count == 0 ? 0 : taken + at + 1; }
    void fill() {
        taken += count;
        some.resize(DNORM_SOME);
        count = detail::counted(dnorm_next(of, 1, &place, some.data(), some.size()));
        at = 0;
    }
};

// A parsed instance.
class Instance {
public:
    // Reads a text to the end of a stream. Throws Refused, std::bad_alloc, or std::ios_base::failure if the stream
    // fails, or has failed before, as one that could not be opened. Its state does not change, so that no exceptions()
    // are thrown at the end of the text.
    explicit Instance(std::istream &source) : Instance(source, false) {}
    Instance(std::istream &source, WithLines) : Instance(source, true) {}

    // Reads a text. Throws Refused or std::bad_alloc.
    explicit Instance(std::string_view text) : Instance(text, false) {}
    Instance(std::string_view text, WithLines) : Instance(text, true) {}

    // Reads a file to its end: Instance graph{Path(name)}. Throws Refused, std::bad_alloc, or std::system_error if it
    // cannot be read.
    explicit Instance(const Path &file) { done(read_file(file), file.name.c_str()); }
    Instance(const Path &file, WithLines) : kept(detail::lines()) { done(read_file(file), file.name.c_str()); }
    explicit Instance(const Descriptor &file) { done(read_file(file), "a file descriptor"); }
    Instance(const Descriptor &file, WithLines) : kept(detail::lines()) { done(read_file(file), "a file descriptor"); }

    // A text is a std::string_view, and the name of a file is a Path: a string could be either.
    template <typename Other, typename = std::enable_if_t<std::is_convertible_v<const Other &, std::string_view>>>
    explicit Instance(const Other &) = delete;
    template <typename Other, typename = std::enable_if_t<std::is_convertible_v<const Other &, std::string_view>>>
    Instance(const Other &, WithLines) = delete;

    // Reads a text to its end. There is no instance if the text is refused; or if the file fails, where the code is
    // DNORM_READ, and errno has the cause. A stream that fails throws std::ios_base::failure.
    static std::optional<Instance> read(std::istream &source, dnorm_status &status) {
        return from_stream(source, false, status);
    }
    static std::optional<Instance> read(std::istream &source, WithLines, dnorm_status &status) {
        return from_stream(source, true, status);
    }
    static std::optional<Instance> read(const Path &file, dnorm_status &status) { return from(file, false, status); }
    static std::optional<Instance> read(const Path &file, WithLines, dnorm_status &status) {
        return from(file, true, status);
    }
    static std::optional<Instance> read(const Descriptor &file, dnorm_status &status) {
        return from(file, false, status);
    }
    static std::optional<Instance> read(const Descriptor &file, WithLines, dnorm_status &status) {
        return from(file, true, status);
    }

    // Returns what the instance is.
    dnorm_summary facts() const {
        const dnorm_summary found = dnorm_facts(handle.get());
        detail::answered(found.kind != DNORM_NO_KIND);
        return found;
    }

    // Returns the number of canonical arcs in form 1 or 2.
    std::size_t arc_count(int form = 1) const {
        return detail::counted(dnorm_arc_count(handle.get(), detail::form_of(form)));
    }

    // Returns the canonical arcs in form 1 or 2, all of them.
    std::vector<dnorm_arc> arcs(int form = 1) const {
        std::vector<dnorm_arc> made(arc_count(form));
        dnorm_place place = DNORM_FIRST;
        detail::counted(dnorm_next(handle.get(), detail::form_of(form), &place, made.data(), made.size()));
        return made;
    }

    // Calls `visit` with each canonical arc in form 1 or 2, one after another. Some are copied at a time.
    template <typename Visit> void for_each_arc(Visit visit, int form = 1) const {
        dnorm_arc some[DNORM_SOME];
        dnorm_place place = DNORM_FIRST;
        std::size_t count = DNORM_SOME;
        while (count == DNORM_SOME) {
            count = detail::counted(dnorm_next(handle.get(), detail::form_of(form), &place, some, DNORM_SOME));
            for (const dnorm_arc *it = some; it != some + count; it++) visit(*it);
        }
    }

    // Returns the canonical arcs in form 1 or 2 by columns, all of them.
    Columns columns(int form = 1) const { return columns_of<std::int64_t>(form); }

    // Returns them by columns of 32 bits. Throws std::range_error if a number does not fit.
    Columns32 columns_32(int form = 1) const { return columns_of<std::int32_t>(form); }

    // Returns them by their tails. The star has NODES + 1 numbers, and a text can declare any NODES: throws
    // std::bad_alloc if there is no memory for so many.
    Star star(int form = 1) const { return star_of<Star>(form); }

    // Returns them by their tails, with numbers of 32 bits. Throws std::range_error if one does not fit.
    Star32 star_32(int form = 1) const { return star_of<Star32>(form); }

    // The canonical arcs in form 1, one after another.
    ArcIterator begin() const { return ArcIterator(handle.get()); }
    ArcIterator end() const { return {}; }

    // Returns the arc lines of the text, in its order. The instance owns them.
    View<dnorm_row> lines() const {
        detail::answered(kept.get() != nullptr);
        return {kept.get()->rows, kept.get()->count};
    }

    // Puts a flow on the canonical arcs in form 1 or 2 back on the arc lines, as dnorm_spread does: returns the units
    // of each line. Throws Refused with DNORM_NOT_A_FLOW if it is no flow on the lines, or std::bad_alloc.
    std::vector<std::int64_t> spread(const std::vector<std::int64_t> &flow, int form = 1) const {
        detail::answered(kept.get() != nullptr);
        std::vector<std::int64_t> units(kept.get()->count);
        detail::fine(dnorm_spread(handle.get(), detail::form_of(form), flow.data(), flow.size(), kept.get(),
                                  units.data()));
        return units;
    }

    // Returns what the instance has beside its arcs.
    std::vector<dnorm_item> items() const {
        std::vector<dnorm_item> made(static_cast<std::size_t>(facts().items));
        dnorm_place place = DNORM_FIRST;
        detail::counted(dnorm_items(handle.get(), &place, made.data(), made.size()));
        return made;
    }

    // Returns the canonical text in form 1 or 2. Throws Refused or std::bad_alloc.
    std::string text(int form = 1) const {
        dnorm_status status;
        std::optional<std::string> made = text(form, status);
        detail::fine(status);
        return std::move(*made);
    }

    // Returns the canonical text in form 1 or 2, if it can be made.
    std::optional<std::string> text(int form, dnorm_status &status) const {
        detail::Handle made;
        status = dnorm_canon(handle.get(), detail::form_of(form), made.get());
        if (status.code != DNORM_FINE) return std::nullopt;
        std::string copied;
        std::vector<std::uint8_t> some(65536);
        while (std::size_t more = detail::counted(dnorm_text(made.get(), copied.size(), some.data(), some.size())))
            copied.append(some.begin(), some.begin() + static_cast<std::ptrdiff_t>(more));
        return copied;
    }

    // Returns whether this instance is a graph that the companion fits.
    dnorm_fit fits(const Instance &companion) const {
        const dnorm_fit found = dnorm_fits(handle.get(), companion.handle.get());
        detail::answered(found.code != DNORM_NOT_BOTH);
        return found;
    }

    // Returns where this instance and another first differ.
    dnorm_difference compare(const Instance &other) const {
        const dnorm_difference found = dnorm_compare(handle.get(), other.handle.get());
        detail::answered(found.what != DNORM_NOT_BOTH);
        return found;
    }

private:
    friend class Reader;
    detail::Handle handle;
    detail::Lines kept;

    Instance(detail::Handle &&made, detail::Lines &&lines) noexcept : handle(std::move(made)), kept(std::move(lines)) {}
    Instance(std::istream &source, bool keeps_lines);
    Instance(std::string_view text, bool keeps_lines);

    static std::optional<Instance> from_stream(std::istream &source, bool keeps_lines, dnorm_status &status);

    template <typename File>
    static std::optional<Instance> from(const File &file, bool keeps_lines, dnorm_status &status) {
        Instance made{detail::Handle(), detail::lines(keeps_lines)};
        status = made.read_file(file);
        if (status.code != DNORM_FINE) return std::nullopt;
        return made;
    }

    dnorm_status read_file(const Path &file) {
        // The system would open the file whose name is the part before a byte 0.
        if (file.name.find('\0') == std::string::npos)
            return dnorm_read_lines_path(handle.get(), kept.get(), file.name.c_str());
        errno = EINVAL;
        return dnorm_status{DNORM_READ, DNORM_NO_PLACE, 0};
    }
    dnorm_status read_file(const Descriptor &file) {
        return dnorm_read_lines_fd(handle.get(), kept.get(), file.number);
    }
    static void done(dnorm_status status, const char *name) {
        if (status.code == DNORM_READ) throw std::system_error(errno, std::generic_category(), name);
        detail::fine(status, name);
    }

    // Copies all arcs to the columns that the kind has.
    template <typename Number> void copy_to(ColumnsOf<Number> &made, int form) const {
        const std::size_t count = arc_count(form), more = facts().kind == DNORM_MIN ? count : 0;
        made.tails.resize(count);
        made.heads.resize(count);
        made.a.resize(count);
        made.b.resize(more);
        made.c.resize(more);
        Number *const b = more ? made.b.data() : nullptr, *const c = more ? made.c.data() : nullptr;
        dnorm_place place = DNORM_FIRST;
        dnorm_count found;
        if constexpr (std::is_same_v<Number, std::int32_t>)
            found = dnorm_columns_32(handle.get(), detail::form_of(form), &place,
                                     {made.tails.data(), made.heads.data(), made.a.data(), b, c}, count);
        else
            found = dnorm_columns(handle.get(), detail::form_of(form), &place,
                                  {made.tails.data(), made.heads.data(), made.a.data(), b, c}, count);
        if (found.code == DNORM_TOO_WIDE) throw std::range_error(dnorm_code_sentence(found.code));
        detail::counted(found);
    }

    template <typename Number> ColumnsOf<Number> columns_of(int form) const {
        ColumnsOf<Number> made;
        copy_to(made, form);
        return made;
    }

    template <typename Made> Made star_of(int form) const {
        Made made;
        copy_to(made, form);
        const std::size_t nodes = static_cast<std::size_t>(facts().nodes), arcs = made.tails.size();
        if (nodes >= made.first.max_size()) throw std::bad_alloc();
        if (std::is_same_v<Made, Star32> && (nodes > INT32_MAX || arcs > INT32_MAX))
            throw std::range_error(dnorm_code_sentence(DNORM_TOO_WIDE));
        made.first.resize(nodes + 1);
        if constexpr (std::is_same_v<Made, Star32>)
            dnorm_inline_star_32_first(made.tails.data(), arcs, made.first.data(), nodes);
        else
            dnorm_inline_star_first(made.tails.data(), arcs, made.first.data(), nodes);
        return made;
    }
};

// Reads a text that comes in pieces, which may end anywhere.
class Reader {
public:
    // Begins a text. Throws std::bad_alloc.
    Reader() : Reader(false) {}
    explicit Reader(WithLines) : Reader(true) {}

    // Feeds the next piece. Throws Refused as soon as a line has a fault, or std::bad_alloc.
    void feed(std::string_view piece) {
        dnorm_status status;
        feed(piece, status);
        detail::fine(status);
    }
    void feed(std::string_view piece, dnorm_status &status) noexcept {
        const auto *bytes = reinterpret_cast<const std::uint8_t *>(piece.data());
        status = dnorm_feed(handle.get(), bytes, piece.size());
        if (status.code == DNORM_FINE) feed_lines(bytes, piece.size(), status);
    }

    // Returns what the problem line declares, once it was read; before, the kind is DNORM_NO_KIND.
    dnorm_summary facts() const noexcept { return dnorm_facts(handle.get()); }

    // Ends the text. Throws Refused or std::bad_alloc. The reader then takes no other text.
    Instance finish() {
        dnorm_status status;
        std::optional<Instance> made = finish(status);
        detail::fine(status);
        return std::move(*made);
    }
    std::optional<Instance> finish(dnorm_status &status) noexcept {
        const std::uint8_t lf = '\n';
        status = dnorm_finish(handle.get());
        if (status.code == DNORM_FINE) feed_lines(&lf, 1, status);
        if (status.code != DNORM_FINE) return std::nullopt;
        return Instance(std::move(handle), std::move(kept));
    }

private:
    friend class Instance;
    detail::Handle handle, reader;
    detail::Lines kept;

    explicit Reader(bool keeps_lines) : kept(detail::lines(keeps_lines)) {
        detail::fine(dnorm_begin(handle.get()));
        if (keeps_lines) detail::fine(dnorm_lines_begin(reader.get()));
    }

    // Feeds what the reader of the instance has taken to that of arc lines. Without memory for these it takes no more.
    void feed_lines(const std::uint8_t *bytes, std::size_t length, dnorm_status &status) noexcept {
        if (!kept.get() || dnorm_inline_feed_lines(reader.get(), kept.get(), bytes, length)) return;
        handle = detail::Handle();
        status = dnorm_status{DNORM_MEMORY, DNORM_NO_PLACE, 0};
    }
};

inline std::optional<Instance> Instance::from_stream(std::istream &source, bool keeps_lines, dnorm_status &status) {
    std::vector<char> room(65536);
    Reader reader(keeps_lines);
    // The caller's stream may throw at its end, so another one takes its bytes: none of a stream that has failed.
    std::istream bytes(source.fail() ? nullptr : source.rdbuf());
    bytes.tie(source.tie());
    status = dnorm_status{};
    while (bytes.read(room.data(), static_cast<std::streamsize>(room.size())) || bytes.gcount() > 0) {
        reader.feed({room.data(), static_cast<std::size_t>(bytes.gcount())}, status);
        if (status.code != DNORM_FINE) return std::nullopt;
    }
    // Where std::cin reads by stdio, it ends if that fails.
    if (bytes.bad() || (source.rdbuf() == std::cin.rdbuf() && std::ferror(stdin)))
        throw std::ios_base::failure("the stream cannot be read");
    return reader.finish(status);
}

inline Instance::Instance(std::istream &source, bool keeps_lines) {
    dnorm_status status;
    std::optional<Instance> found = from_stream(source, keeps_lines, status);
    detail::fine(status);
    *this = std::move(*found);
}

inline Instance::Instance(std::string_view text, bool keeps_lines) {
    Reader reader(keeps_lines);
    reader.feed(text);
    *this = reader.finish();
}

// Writes a text of this kind with these items and arcs in their order, as items() and arcs() return them: nodes and
// arcs are for a graph alone. What it is given is not judged: Instance judges the text. Throws std::ios_base::failure
// if the stream does not take all of it, and std::invalid_argument for a kind that is none.
inline void write(std::ostream &out, std::uint8_t kind, std::int64_t nodes, const std::vector<dnorm_item> &items,
                  const std::vector<dnorm_arc> &arcs = {}) {
    char line[DNORM_LINE];
    const bool is_graph = kind < DNORM_SS;
    const int length = dnorm_problem_line(kind, nodes, is_graph ? arcs.size() : items.size(), line);
    if (length == 0) throw std::invalid_argument("this is no kind of a text");
    out.write(line, length);
    for (const dnorm_item &it : items) out.write(line, dnorm_item_line(kind, it, line));
    for (std::size_t i = 0; is_graph && i < arcs.size(); i++) out.write(line, dnorm_arc_line(kind, arcs[i], line));
    if (!out.flush()) throw std::ios_base::failure("the text cannot be written");
}

// Writes the units of each arc line, `f TAIL HEAD UNITS`, in the order of the text. Throws std::ios_base::failure if
// the stream does not take all of it, and std::invalid_argument before the first line if there are not as many units.
inline void write_flow(std::ostream &out, View<dnorm_row> lines, const std::vector<std::int64_t> &units) {
    if (units.size() != lines.size())
        throw std::invalid_argument(std::to_string(units.size()) + " units for " + std::to_string(lines.size()) +
                                    " arc lines");
    for (std::size_t i = 0; i < lines.size(); i++)
        out << "f " << lines[i].tail << ' ' << lines[i].head << ' ' << units[i] << '\n';
    if (!out.flush()) throw std::ios_base::failure("the flow cannot be written");
}

} // namespace dnorm_cpp
#endif
