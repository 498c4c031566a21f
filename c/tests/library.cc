// Writes the canonical text of standard input in both forms, by the classes of dnorm.hpp, after the instance was moved;
// a refusal is a line on standard error. The status is 2 for a refused text. With an argument, the text is in the file
// of this name, or in standard input for `-`, and the cause is printed if it cannot be read. The status is 5 without
// memory, and 1 if calls do not agree, or if one that must fail does not.
#include "dnorm.hpp"
#include <atomic>
#include <cstdio>
#include <cstdlib>
#include <fstream>
#include <functional>
#include <iostream>
#include <iterator>
#include <sstream>
#include <thread>

using dnorm_cpp::Instance;

// How many bytes of memory were asked for. Where these functions are inline, gcc warns that malloc is not new.
static std::atomic<std::size_t> asked;

[[gnu::noinline]] void *operator new(std::size_t size) {
    asked += size;
    if (void *made = std::malloc(size)) return made;
    throw std::bad_alloc();
}
[[gnu::noinline]] void operator delete(void *made) noexcept { std::free(made); }
[[gnu::noinline]] void operator delete(void *made, std::size_t) noexcept { std::free(made); }

// Whether reading in pieces, by codes and from a string gives the same instance.
static bool reads_alike(const std::string &text, const Instance &instance) {
    dnorm_cpp::Reader reader;
    reader.feed({});
    for (char it : text) reader.feed({&it, 1});
    // A problem line without its end is not read yet.
    if (text.back() == '\n' && reader.facts().lines != instance.facts().lines) return false;
    const Instance in_pieces = reader.finish();
    dnorm_status status;
    if (reader.finish(status) || status.code != DNORM_WRONG_CALL) return false;
    std::istringstream source(text);
    const std::optional<Instance> by_codes = Instance::read(source, status);
    if (!by_codes || status.code != DNORM_FINE) return false;
    const Instance from_string{std::string_view(text)};
    for (const Instance *it : {&in_pieces, &*by_codes, &from_string})
        if (it->compare(instance).what != DNORM_SAME) return false;
    return from_string.text(1, status) == instance.text();
}

static bool is_same(const dnorm_arc &it, const dnorm_arc &other) {
    return it.tail == other.tail && it.head == other.head && it.a == other.a && it.b == other.b && it.c == other.c;
}

// Whether a loop has the arcs of the list, and takes no memory.
static bool loops_alike(const Instance &instance, int form) {
    const std::vector<dnorm_arc> all = instance.arcs(form);
    std::size_t at = 0;
    bool are_same = true;
    const std::size_t before = asked;
    instance.for_each_arc([&](const dnorm_arc &it) { are_same = are_same && is_same(it, all.at(at++)); }, form);
    return are_same && asked == before && at == all.size() && at == instance.arc_count(form);
}

// Whether columns, which a star has, too, have the arcs of the list. Those that the kind lacks are empty.
template <typename Columns> static bool has_arcs(const Columns &it, const Instance &instance, int form) {
    const std::vector<dnorm_arc> all = instance.arcs(form);
    const bool has_all = instance.facts().kind == DNORM_MIN;
    const std::size_t further = has_all ? all.size() : 0;
    if (it.tails.size() != all.size() || it.heads.size() != all.size() || it.a.size() != all.size()) return false;
    if (it.b.size() != further || it.c.size() != further) return false;
    for (std::size_t i = 0; i < all.size(); i++) {
        const std::int64_t b = has_all ? it.b[i] : 0, c = has_all ? it.c[i] : 0;
        if (!is_same(all[i], dnorm_arc{it.tails[i], it.heads[i], it.a[i], b, c})) return false;
    }
    return true;
}

static bool fits_32(const dnorm_cpp::Columns &columns) {
    for (const auto *column : {&columns.tails, &columns.heads, &columns.a, &columns.b, &columns.c})
        for (std::int64_t it : *column)
            if (it < INT32_MIN || it > INT32_MAX) return false;
    return true;
}

static bool columns_alike(const Instance &instance, int form) {
    const dnorm_cpp::Columns columns = instance.columns(form);
    try {
        return has_arcs(columns, instance, form) && has_arcs(instance.columns_32(form), instance, form);
    } catch (const std::range_error &) {
        return !fits_32(columns);
    }
}

// Whether a star has the arcs of each node, and the arcs into each node in their order.
template <typename Star> static bool has_arcs_of_nodes(Star star) {
    const auto index = [](auto number) { return static_cast<std::size_t>(number); };
    star.reverse();
    const std::size_t arcs = star.tails.size(), ends = star.first.size() - 1;
    if (index(star.first.at(0)) != 0 || index(star.first.back()) != arcs || star.into.size() != arcs) return false;
    if (star.into_first.size() != ends + 1 || star.into_first[0] != 0) return false;
    for (std::size_t v = 1; v <= ends; v++) {
        for (std::size_t i = index(star.first[v - 1]); i < index(star.first[v]); i++)
            if (index(star.tails.at(i)) != v) return false;
        for (std::size_t i = index(star.into_first[v - 1]); i < index(star.into_first[v]); i++) {
            if (index(star.heads.at(index(star.into[i]))) != v) return false;
            if (i > index(star.into_first[v - 1]) && star.into[i - 1] >= star.into[i]) return false;
        }
    }
    return index(star.into_first[ends]) == arcs;
}

// Whether forward stars have the arcs of each node. One of too many nodes cannot be made.
static bool is_star(const Instance &instance, int form) try {
    const dnorm_cpp::Star star = instance.star(form);
    if (!has_arcs(star, instance, form) || !has_arcs_of_nodes(star)) return false;
    try {
        const dnorm_cpp::Star32 narrow = instance.star_32(form);
        return has_arcs(narrow, instance, form) && has_arcs_of_nodes(narrow);
    } catch (const std::range_error &) {
        return !fits_32(star);
    }
} catch (const std::bad_alloc &) {
    return instance.facts().nodes > 1'000'000;
}

// Whether a call throws this error.
template <typename Error> static bool throws(const std::function<void()> &call) try {
    call();
    return false;
} catch (const Error &) {
    return true;
}

// Whether a call throws Refused with this code.
static bool refuses(int code, const std::function<void()> &call) try {
    call();
    return false;
} catch (const dnorm_cpp::Refused &why) {
    return why.status.code == code;
}

// The arc lines of an accepted text, read word by word.
static std::vector<dnorm_row> lines_of(const std::string &text) {
    std::vector<dnorm_row> found;
    std::istringstream source(text);
    std::string line, letter;
    for (std::uint64_t number = 1; std::getline(source, line); number++) {
        std::istringstream words(line);
        dnorm_row it{number, 0, 0, 0, 0, 0};
        if (!(words >> letter) || letter != "a") continue;
        words >> it.tail >> it.head >> it.a >> it.b >> it.c;
        found.push_back(it);
    }
    return found;
}

static bool is_same(const dnorm_row &it, const dnorm_row &other) {
    return it.line == other.line && it.tail == other.tail && it.head == other.head && it.a == other.a &&
           it.b == other.b && it.c == other.c;
}

// Whether the flow of the lower bounds is that of the lines as well, but not with a negative number, nor fewer or more.
static bool spreads(const Instance &it, const std::vector<dnorm_row> &lines, int form) {
    const bool is_min = it.facts().kind == DNORM_MIN;
    std::vector<std::int64_t> of_arcs, of_lines;
    for (const dnorm_arc &arc : it.arcs(form)) of_arcs.push_back(is_min ? arc.a : 0);
    for (const dnorm_row &line : lines) of_lines.push_back(is_min ? line.a : 0);
    const std::size_t arcs = of_arcs.size();
    bool are_right = it.spread(of_arcs, form) == of_lines;
    for (std::size_t count : {arcs + 1, arcs / 2}) {
        of_arcs.resize(count);
        are_right = are_right && (count == arcs || refuses(DNORM_NOT_A_FLOW, [&] { it.spread(of_arcs, form); }));
    }
    of_arcs.assign(arcs + (arcs == 0), -1);
    return are_right && refuses(DNORM_NOT_A_FLOW, [&] { it.spread(of_arcs, form); });
}

// Whether the arc lines of a text are kept, in whatever way it is read, and a flow can be put back on them.
static bool keeps_lines(const std::string &text, bool is_graph) {
    const std::vector<dnorm_row> wanted = lines_of(text);
    dnorm_status status;
    std::istringstream source(text), again(text);
    const Instance by_stream(source, dnorm_cpp::with_lines);
    const Instance by_text(std::string_view(text), dnorm_cpp::with_lines);
    const std::optional<Instance> by_code = Instance::read(again, dnorm_cpp::with_lines, status);
    dnorm_cpp::Reader reader{dnorm_cpp::with_lines};
    for (char it : text) reader.feed({&it, 1});
    const Instance in_pieces = reader.finish();
    for (const Instance *it : {&by_stream, &by_text, &*by_code, &in_pieces}) {
        std::size_t at = 0;
        for (const dnorm_row &line : it->lines())
            if (at == wanted.size() || !is_same(line, wanted[at++])) return false;
        if (at != wanted.size()) return false;
    }
    const Instance without{std::string_view(text)};
    if (!is_graph) return refuses(DNORM_WRONG_CALL, [&] { by_text.spread({}); });
    return refuses(DNORM_WRONG_CALL, [&] { without.lines(); }) && spreads(by_text, wanted, 1) &&
           spreads(in_pieces, wanted, 2);
}

// Whether several threads may read the instance.
static bool is_shared(const Instance &instance) {
    bool are_right[3] = {};
    std::vector<std::thread> threads;
    for (bool &it : are_right) threads.emplace_back([&] { it = columns_alike(instance, 2); });
    for (std::thread &it : threads) it.join();
    return are_right[0] && are_right[1] && are_right[2];
}

// Whether all ways to have the arcs agree.
static bool is_graph(const Instance &instance) {
    for (int form : {1, 2})
        if (!loops_alike(instance, form) || !columns_alike(instance, form) || !is_star(instance, form)) return false;
    return is_shared(instance) && instance.arc_count(2) <= instance.arc_count();
}

// Whether each of these calls is one that the instance does not take.
static bool refuses_all(const std::vector<std::function<void()>> &calls) {
    for (const auto &call : calls)
        if (!refuses(DNORM_WRONG_CALL, call)) return false;
    return true;
}

// Whether each call for arcs says that there is no graph.
static bool refuses_arcs(const Instance &it) {
    bool has_visited = false;
    const auto visit = [&](const dnorm_arc &) { has_visited = true; };
    return refuses_all({[&] { it.for_each_arc(visit); }, [&] { it.arc_count(); }, [&] { it.arcs(2); },
                        [&] { it.columns(); }, [&] { it.columns_32(); }, [&] { it.star(); }, [&] { it.star_32(); },
                        [&] { it.lines(); }, [&] { it.spread({}); }}) &&
           !has_visited;
}

// Whether each call says that an instance was moved from.
static bool is_gone(const Instance &it) {
    const Instance other(std::string_view("p sp 1 0\n"));
    dnorm_status status;
    return refuses_arcs(it) && !it.text(1, status) && status.code == DNORM_WRONG_CALL &&
           refuses_all({[&] { it.facts(); }, [&] { it.items(); }, [&] { it.text(); }, [&] { it.compare(other); },
                        [&] { other.compare(it); }, [&] { it.fits(other); }, [&] { other.fits(it); }});
}

// The bytes of a stream, which then fails or ends. It tells whether it was flushed.
struct Source : std::stringbuf {
    bool has_failed, is_flushed = false;
    Source(const std::string &text, bool fails) : std::stringbuf(text), has_failed(fails) {}
    int_type underflow() override {
        const int_type next = std::stringbuf::underflow();
        if (next == traits_type::eof() && has_failed) throw std::runtime_error("the network is gone");
        return next;
    }
    int sync() override {
        is_flushed = true;
        return 0;
    }
};

// Both calls that read a stream.
using Reads = void (*)(std::istream &);
static void read_whole(std::istream &in) { Instance it(in); }
static void read_by_code(std::istream &in) {
    dnorm_status status;
    if (!Instance::read(in, status)) throw dnorm_cpp::Refused(status);
}

static bool fails(Reads reads, std::istream &in) {
    return throws<std::ios_base::failure>([&] { reads(in); });
}

// Whether a stream that has failed, or fails, is a failure.
static bool streams_fail(Reads reads) {
    int number;
    std::ifstream missing("/none/none"), folder("/");
    std::istream without(nullptr);
    std::istringstream spoilt("p sp 1 0\n");
    spoilt >> number;
    bool are_right = fails(reads, missing) && fails(reads, folder) && fails(reads, without) && fails(reads, spoilt);
    for (std::ios_base::iostate thrown : {std::ios_base::goodbit, std::ios_base::failbit | std::ios_base::badbit}) {
        // The fault is in a piece before the one that cannot be read.
        Source broken("p sp 1 0\n", true), faulty("x\n" + std::string(70'000, '\n'), true);
        std::istream in(&broken), refused(&faulty);
        in.exceptions(thrown);
        refused.exceptions(thrown);
        are_right = are_right && fails(reads, in) && refuses(DNORM_BAD_LINE, [&] { reads(refused); });
    }
    return are_right;
}

// Whether the end of a stream is no failure, and the stream that it is tied to is flushed.
static bool streams_end(Reads reads) {
    Source text("c\np sp 1 0\n", false), prompt("", false);
    std::istream in(&text);
    std::ostream out(&prompt);
    std::string line;
    std::getline(in, line);
    in.exceptions(std::ios_base::failbit | std::ios_base::badbit | std::ios_base::eofbit);
    in.tie(&out);
    reads(in);
    if (!in.good() || !prompt.is_flushed) return false;
    std::istringstream rest("c\n");
    std::getline(rest, line);
    return rest.peek() == EOF && refuses(DNORM_NO_PROBLEM, [&] { reads(rest); });
}

// Whether a written text reads as the same instance, and a text that a stream does not take is a failure.
static bool is_written(const Instance &instance) {
    const dnorm_summary facts = instance.facts();
    const std::vector<dnorm_arc> arcs = facts.kind <= DNORM_SP ? instance.arcs() : std::vector<dnorm_arc>();
    std::ostringstream out, none;
    out.width(80);
    dnorm_cpp::write(out, facts.kind, facts.nodes, instance.items(), arcs);
    std::ofstream missing("/none/none"), full("/dev/full");
    for (std::ostream *it : {&missing, &full})
        if (!throws<std::ios_base::failure>([&] { dnorm_cpp::write(*it, DNORM_SP, 1, {}); })) return false;
    return out.str() == instance.text() &&
           throws<std::invalid_argument>([&] { dnorm_cpp::write(none, DNORM_NO_KIND, 1, {}); }) && none.str().empty();
}

// Whether calls fail that have nothing to answer.
static bool calls_fail() {
    dnorm_status status;
    Instance one(std::string_view("p sp 1 0\n")), other(std::string_view("p sp 2 0\n"));
    const dnorm_cpp::Path cut(std::string("/dev/null\0.gr", 13));
    if (!throws<std::system_error>([&] { Instance it(cut); }) || Instance::read(cut, status)) return false;
    if (status.code != DNORM_READ || errno != EINVAL) return false;
    one = std::move(other);
    return is_gone(other) && one.facts().nodes == 2 && streams_fail(read_whole) && streams_fail(read_by_code) &&
           streams_end(read_whole) && streams_end(read_by_code);
}

// Prints both texts of an instance that was read from a text, if all calls agree.
static int print(const std::string &given) {
    std::istringstream source(given), once_more(given);
    dnorm_status status;
    if (!Instance::read(once_more, status)) std::cerr << "code " << int(status.code) << ": ";
    Instance read(source);
    Instance instance(std::move(read));
    if (!is_gone(read) || instance.compare(instance).what != DNORM_SAME || !reads_alike(given, instance)) return 1;
    const bool has_arcs = instance.facts().kind <= DNORM_SP;
    if (!(has_arcs ? is_graph(instance) : refuses_arcs(instance)) || !keeps_lines(given, has_arcs)) return 1;
    const std::string text = instance.text(2);
    Instance again{std::string_view(text)};
    if (!is_written(instance) || again.fits(again).code != DNORM_NOT_KINDS) return 1;
    if (again.compare(instance).what != DNORM_SAME || again.items().size() != instance.items().size()) return 1;
    again = std::move(instance);
    std::cout << again.text() << again.text(2);
    return 0;
}

// Prints the text in a file, which is read by its name and by its descriptor.
static int print_file(const std::string &name) {
    dnorm_status status;
    if (name == "-") {
        std::cout << Instance(std::cin).text();
        return 0;
    }
    std::FILE *file = std::fopen(name.c_str(), "rb");
    const dnorm_cpp::Descriptor descriptor(file ? fileno(file) : -1);
    std::optional<Instance> by_descriptor = Instance::read(descriptor, status);
    if (file) std::fclose(file);
    const Instance instance(dnorm_cpp::Path{name});
    if (!by_descriptor || instance.compare(*by_descriptor).what != DNORM_SAME) return 1;
    std::cout << instance.text();
    return 0;
}

int main(int count, char **words) try {
    if (!calls_fail()) return 1;
    if (count > 1) return print_file(words[1]);
    return print({std::istreambuf_iterator<char>(std::cin), {}});
} catch (const dnorm_cpp::Refused &why) {
    if (std::string(why.what()).find(why.name()) == std::string::npos) return 1;
    std::cerr << why.what() << '\n';
    return 2;
} catch (const std::system_error &why) {
    std::cerr << why.what() << '\n';
    return 4;
} catch (const std::bad_alloc &) {
    return 5;
}
