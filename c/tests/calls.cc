// Makes a call of suite/calls.json by the classes of dnorm.hpp, as calls.c does by functions. Prints `form` for a form
// that is none.
#include "dnorm.hpp"
#include <functional>
#include <map>

using dnorm_cpp::Instance;
__extension__ typedef __int128 Wide;

template <typename Numbers> static void row(const Numbers &numbers) {
    const char *before = "";
    for (auto it : numbers) std::cout << std::exchange(before, " ") << it;
    std::cout << '\n';
}
static void row(std::initializer_list<std::int64_t> numbers) { row<>(numbers); }

static std::string digits(Wide it) {
    if (it < 0) return '-' + digits(-it);
    return (it > 9 ? digits(it / 10) : "") + static_cast<char>('0' + static_cast<int>(it % 10));
}

static std::string value(const dnorm_value &it) {
    return it.known ? digits(it.high * (static_cast<Wide>(1) << 64) + it.low) : "none";
}

// Reads a text; `-` makes an instance that was moved from.
static Instance taken(const std::string &text) {
    Instance made(std::string_view(text == "-" ? "p sp 1 0\n" : text), dnorm_cpp::with_lines);
    if (text == "-") const Instance other(std::move(made));
    return made;
}

static void facts(const Instance &graph) {
    const dnorm_summary it = graph.facts();
    std::cout << dnorm_kind_name(it.kind) << ' ' << it.nodes << ' ' << it.lines << ' ' << it.pairs << ' ' << it.items
              << '\n';
}

static void compare(const Instance &graph, const Instance &other) {
    const dnorm_difference it = graph.compare(other);
    std::cout << int{it.what} << ' ' << it.at << ' ' << it.to << ' ' << it.index << ' ' << it.amount << ' '
              << value(it.left) << ' ' << value(it.right) << '\n';
}

static void star(const Instance &graph, int form) {
    dnorm_cpp::Star it = graph.star(form);
    it.reverse();
    row(it.first);
    row(it.into_first);
    row(it.into);
}

static void call(char **argv, const std::vector<std::int64_t> &flow) {
    const Instance graph = taken(argv[3]), other = taken(argv[4]);
    const int form = std::stoi(argv[2]);
    const std::map<std::string, std::function<void()>> calls{
        {"facts", [&] { facts(graph); }},
        {"arc_count", [&] { row({static_cast<std::int64_t>(graph.arc_count(form))}); }},
        {"next", [&] { for (const dnorm_arc &it : graph.arcs(form)) row({it.tail, it.head, it.a, it.b, it.c}); }},
        {"items", [&] { for (const dnorm_item &it : graph.items()) row({it.id, it.a, it.b}); }},
        {"canon", [&] { std::cout << graph.text(form); }},
        {"compare", [&] { compare(graph, other); }},
        {"fits", [&] { row({graph.fits(other).code, graph.fits(other).node}); }},
        {"lines", [&] {
            for (const dnorm_row &it : graph.lines())
                row({static_cast<std::int64_t>(it.line), it.tail, it.head, it.a, it.b, it.c});
        }},
        {"spread", [&] { row(graph.spread(flow, form)); }},
        {"star", [&] { star(graph, form); }},
    };
    calls.at(argv[1])();
}

int main(int argc, char **argv) {
    std::vector<std::int64_t> flow;
    for (int i = 5; i < argc; i++) flow.push_back(std::stoll(argv[i]));
    try {
        call(argv, flow);
    } catch (const dnorm_cpp::Refused &it) {
        std::cout << "code " << int{it.status.code} << '\n';
    } catch (const std::invalid_argument &) {
        std::cout << "form\n";
    }
    return 0;
}
