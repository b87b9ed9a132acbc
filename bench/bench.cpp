// The library's calls beside plain C of the same method and beside the graph libraries that a site would use instead, in one run on the
// same lists. Each figure is the median of RUNS runs, in microseconds of processor time, with the spread from the tenth to the ninetieth
// of a hundred. Values are compared, and every side that a peer gives is summed again.
//   bench splits     the least split; a peer's own graph is built before its time begins, ours starts from the rows
//   bench lists DIR  writes the lists as text for peer.py, with our values and times
//   bench calls      the other calls, and how cost grows
//   bench once CALL  one call on the largest list, for callgrind
#include <algorithm>
#include <cmath>
#include <cstdio>
#include <cstdlib>
#include <ctime>
#include <functional>
#include <memory>
#include <string>
#include <vector>

#include <boost/graph/adjacency_list.hpp>
#include <boost/graph/one_bit_color_map.hpp>
#include <boost/graph/stoer_wagner_min_cut.hpp>
#include <boost/property_map/property_map.hpp>
#include <igraph/igraph.h>
#include <lemon/hao_orlin.h>
#include <lemon/list_graph.h>
#include <lemon/nagamochi_ibaraki.h>

#include "paltiehko.h"
#include "plain.h"

namespace {

constexpr int RUNS = 101;

struct List {
    std::string name;
    uint32_t n = 0;
    std::vector<uint16_t> a, b, w;

    void row(unsigned x, unsigned y, unsigned weight)
    {
        a.push_back(x);
        b.push_back(y);
        w.push_back(weight);
    }
    size_t rows() const { return a.size(); }
};

// ---- the lists, from a fixed seed

uint64_t state = 2026;

uint64_t below(uint64_t end)
{
    state += 0x9E3779B97F4A7C15;
    uint64_t z = state;
    z = (z ^ (z >> 30)) * 0xBF58476D1CE4E5B9;
    z = (z ^ (z >> 27)) * 0x94D049BB133111EB;
    return (z ^ (z >> 31)) % end;
}

void random_rows(List &list, unsigned first, unsigned nodes, size_t rows, unsigned heaviest)
{
    for (size_t r = 0; r < rows; r++) {
        unsigned x = below(nodes), y = (x + 1 + below(nodes - 1)) % nodes;
        list.row(first + x, first + y, 1 + below(heaviest));
    }
}

List random_list(const std::string &name, unsigned n, size_t rows, unsigned heaviest)
{
    List list{name, n, {}, {}, {}};
    random_rows(list, 0, n, rows, heaviest);
    return list;
}

List two_halves()
{
    List list{"two halves, one cable", 128, {}, {}, {}};
    random_rows(list, 0, 64, 1023, 1);
    random_rows(list, 64, 64, 1024, 1);
    list.row(3, 77, 1);
    return list;
}

List path(bool closed)
{
    List list{closed ? "ring of 128" : "path of 128", 128, {}, {}, {}};
    for (unsigned v = 0; v + 1 < 128; v++)
        list.row(v, v + 1, 1);
    if (closed)
        list.row(127, 0, 1);
    return list;
}

// Two core switches, eight halls with two switches each, and field switches on rings through their hall.
List plant()
{
    List list{"plant-like site", 96, {}, {}, {}};
    list.row(0, 1, 4);
    for (unsigned hall = 0; hall < 8; hall++) {
        unsigned p = 2 + 2 * hall, q = p + 1;
        list.row(0, p, 2);
        list.row(1, q, 2);
        list.row(p, q, 2);
        unsigned begin = 18 + hall * 10, end = std::min(begin + 10, 96u), before = p;
        for (unsigned v = begin; v < end; v++) {
            list.row(before, v, 1);
            before = v;
        }
        list.row(before, q, 1);
    }
    return list;
}

List complete(unsigned n)
{
    List list{"complete on " + std::to_string(n), n, {}, {}, {}};
    for (unsigned x = 0; x < n; x++)
        for (unsigned y = x + 1; y < n; y++)
            list.row(x, y, 1);
    return list;
}

std::vector<List> lists()
{
    return {random_list("128 x 2,048, weight 1", 128, 2048, 1),
            random_list("128 x 2,048, to 65,535", 128, 2048, 65535),
            random_list("64 x 512, weight 1", 64, 512, 1),
            two_halves(),
            path(false),
            path(true),
            plant(),
            complete(64)};
}

// ---- timing

struct Time {
    double median, low, high;
};

// Microseconds of this thread's processor time: what else the machine does in between is not counted.
double now()
{
    timespec time;
    clock_gettime(CLOCK_THREAD_CPUTIME_ID, &time);
    return time.tv_sec * 1e6 + time.tv_nsec / 1e3;
}

// The calls take turns, so that a slow spell of the machine falls on all of them; each turn has one run that is not timed before.
std::vector<Time> timed(const std::vector<std::function<void()>> &calls)
{
    std::vector<std::vector<double>> times(calls.size());
    for (int run = 0; run < RUNS; run++)
        for (size_t c = 0; c < calls.size(); c++) {
            calls[c]();
            double begin = now();
            calls[c]();
            times[c].push_back(now() - begin);
        }
    std::vector<Time> figures;
    for (auto &of_call : times) {
        std::sort(of_call.begin(), of_call.end());
        figures.push_back({of_call[RUNS / 2], of_call[RUNS / 10], of_call[RUNS * 9 / 10]});
    }
    return figures;
}

[[noreturn]] void differ(const List &list, const char *who, uint64_t theirs, uint64_t ours)
{
    std::fprintf(stderr, "bench: %s: %s gives %llu, ours %llu\n", list.name.c_str(), who, (unsigned long long)theirs,
                 (unsigned long long)ours);
    std::exit(1);
}

uint64_t across(const List &list, const std::function<bool(unsigned)> &side)
{
    uint64_t sum = 0;
    for (size_t r = 0; r < list.rows(); r++)
        if (side(list.a[r]) != side(list.b[r]))
            sum += list.w[r];
    return sum;
}

// ---- the least split: each is made ready for a list, and then gives the value and a side

struct Cut {
    uint64_t value;
    std::vector<bool> side;
};

using Ready = std::function<Cut()>;

#define GIVEN list.n, list.a.data(), list.rows(), list.b.data(), list.rows(), list.w.data(), list.rows()

template <typename Call> Ready by_words(const List &list, Call call)
{
    return [&list, call] {
        uint64_t answer[8];
        call(GIVEN, answer);
        Cut cut{answer[2], std::vector<bool>(list.n)};
        for (unsigned v = 0; v < list.n; v++)
            cut.side[v] = answer[3 + v / 64] >> (v % 64) & 1;
        return cut;
    };
}

Ready by_boost(const List &list)
{
    using namespace boost;
    using Graph = adjacency_list<vecS, vecS, undirectedS, no_property, property<edge_weight_t, unsigned>>;
    auto graph = std::make_shared<Graph>(list.n);
    for (size_t r = 0; r < list.rows(); r++)
        add_edge(list.a[r], list.b[r], list.w[r], *graph);
    return [graph] {
        auto parity = make_one_bit_color_map(num_vertices(*graph), get(vertex_index, *graph));
        uint64_t value = stoer_wagner_min_cut(*graph, get(edge_weight, *graph), parity_map(parity));
        Cut cut{value, std::vector<bool>(num_vertices(*graph))};
        for (unsigned v = 0; v < num_vertices(*graph); v++)
            cut.side[v] = get(parity, v) == one_bit_white;
        return cut;
    };
}

template <typename Graph, typename Weights> struct Lemon {
    Graph graph;
    Weights weight{graph};
    std::vector<typename Graph::Node> nodes;

    explicit Lemon(const List &list)
    {
        for (unsigned v = 0; v < list.n; v++)
            nodes.push_back(graph.addNode());
    }

    template <typename Run> Cut cut(Run &method)
    {
        typename Graph::template NodeMap<bool> side(graph);
        Cut cut{(uint64_t)method.minCutMap(side), std::vector<bool>(nodes.size())};
        for (unsigned v = 0; v < nodes.size(); v++)
            cut.side[v] = side[nodes[v]];
        return cut;
    }
};

Ready by_nagamochi(const List &list)
{
    using Weights = lemon::ListGraph::EdgeMap<int>;
    auto g = std::make_shared<Lemon<lemon::ListGraph, Weights>>(list);
    for (size_t r = 0; r < list.rows(); r++)
        g->weight[g->graph.addEdge(g->nodes[list.a[r]], g->nodes[list.b[r]])] = list.w[r];
    return [g] {
        lemon::NagamochiIbaraki<lemon::ListGraph, Weights> method(g->graph, g->weight);
        method.run();
        return g->cut(method);
    };
}

// Hao and Orlin's method takes a directed graph: each row is an arc both ways.
Ready by_hao_orlin(const List &list)
{
    using Weights = lemon::ListDigraph::ArcMap<int>;
    auto g = std::make_shared<Lemon<lemon::ListDigraph, Weights>>(list);
    for (size_t r = 0; r < list.rows(); r++) {
        g->weight[g->graph.addArc(g->nodes[list.a[r]], g->nodes[list.b[r]])] = list.w[r];
        g->weight[g->graph.addArc(g->nodes[list.b[r]], g->nodes[list.a[r]])] = list.w[r];
    }
    return [g] {
        lemon::HaoOrlin<lemon::ListDigraph, Weights> method(g->graph, g->weight);
        method.init(g->nodes[0]);
        method.calculateOut();
        return g->cut(method);
    };
}

struct Igraph {
    igraph_t graph;
    igraph_vector_int_t ends, side, other, rows;
    igraph_vector_t weights;

    explicit Igraph(const List &list)
    {
        igraph_vector_int_init(&ends, 2 * list.rows());
        igraph_vector_init(&weights, list.rows());
        for (auto *list_of : {&side, &other, &rows})
            igraph_vector_int_init(list_of, 0);
        for (size_t r = 0; r < list.rows(); r++) {
            VECTOR(ends)[2 * r] = list.a[r];
            VECTOR(ends)[2 * r + 1] = list.b[r];
            VECTOR(weights)[r] = list.w[r];
        }
        igraph_create(&graph, &ends, list.n, IGRAPH_UNDIRECTED);
    }
    Igraph(const Igraph &) = delete;
    ~Igraph()
    {
        for (auto *list_of : {&ends, &side, &other, &rows})
            igraph_vector_int_destroy(list_of);
        igraph_vector_destroy(&weights);
        igraph_destroy(&graph);
    }
};

Ready by_igraph(const List &list)
{
    auto g = std::make_shared<Igraph>(list);
    return [g] {
        igraph_real_t value;
        igraph_mincut(&g->graph, &value, &g->side, &g->other, &g->rows, &g->weights);
        Cut cut{(uint64_t)value, std::vector<bool>(igraph_vcount(&g->graph))};
        for (igraph_integer_t i = 0; i < igraph_vector_int_size(&g->side); i++)
            cut.side[VECTOR(g->side)[i]] = true;
        return cut;
    };
}

void split_table()
{
    const std::vector<std::pair<const char *, std::function<Ready(const List &)>>> methods = {
        {"ours", [](const List &list) { return by_words(list, paltiehko_least); }},
        {"plain C", [](const List &list) { return by_words(list, plain_least); }},
        {"Boost stoer_wagner", by_boost},
        {"LEMON NagamochiIbaraki", by_nagamochi},
        {"LEMON HaoOrlin", by_hao_orlin},
        {"igraph mincut", by_igraph},
    };
    std::printf("Least split, microseconds: median (10 %% to 90 %%), and how many times ours\n\n");
    std::printf("| list | value | method | median | spread | ratio |\n|---|---|---|---|---|---|\n");
    for (const List &list : lists()) {
        std::vector<std::function<void()>> runs;
        uint64_t value = 0;
        for (const auto &[name, method] : methods) {
            Ready run = method(list);
            Cut cut = run();
            if (runs.empty())
                value = cut.value;
            if (cut.value != value)
                differ(list, name, cut.value, value);
            uint64_t sum = across(list, [&](unsigned v) { return cut.side[v]; });
            if (sum != value)
                differ(list, (std::string(name) + "'s side").c_str(), sum, value);
            runs.push_back([run] { run(); });
        }
        std::vector<Time> times = timed(runs);
        for (size_t m = 0; m < methods.size(); m++)
            std::printf("| %s | %llu | %s | %.1f | %.1f to %.1f | %.2f |\n", list.name.c_str(), (unsigned long long)value, methods[m].first,
                        times[m].median, times[m].low, times[m].high, times[m].median / times[0].median);
        std::fflush(stdout);
    }
}

// ---- the other calls against plain C

std::vector<uint8_t> file_of(const List &list)
{
    std::vector<uint8_t> file(12 + 8 * list.rows());
    uint64_t answer[8];
    paltiehko_write(GIVEN, file.data(), file.size(), answer);
    return file;
}

struct Lent {
    uint16_t a[2048], b[2048], w[2048], order[128];
    uint32_t back[128];
    uint64_t answer[8];

    bool operator==(const Lent &other) const
    {
        return std::equal(a, a + 2048, other.a) && std::equal(b, b + 2048, other.b) && std::equal(w, w + 2048, other.w)
               && std::equal(order, order + 128, other.order) && std::equal(back, back + 128, other.back)
               && std::equal(answer, answer + 8, other.answer);
    }
};

using Call = std::function<void(Lent &)>;

void rows_of(const List &list, const char *name, const std::vector<std::pair<const char *, Call>> &calls)
{
    static Lent mine, theirs;
    std::vector<std::function<void()>> runs;
    for (const auto &[who, call] : calls) {
        mine = theirs = Lent();
        calls[0].second(mine);
        call(theirs);
        if (!(mine == theirs))
            differ(list, who, theirs.answer[0], mine.answer[0]);
        runs.push_back([&call = call] { call(theirs); });
    }
    std::vector<Time> times = timed(runs);
    for (size_t c = 0; c < calls.size(); c++)
        std::printf("| %s | %s | %s | %.1f | %.1f to %.1f | %.2f |\n", list.name.c_str(), name, calls[c].first, times[c].median, times[c].low,
                    times[c].high, times[c].median / times[0].median);
    std::fflush(stdout);
}

void call_table()
{
    std::printf("\nThe other calls, microseconds: median (10 %% to 90 %%), and how many times ours\n\n");
    std::printf("| list | call | method | median | spread | ratio |\n|---|---|---|---|---|---|\n");
    for (const List &list : lists()) {
        if (list.rows() < 500)
            continue;
        std::vector<uint8_t> file = file_of(list);
        auto reads = [&](auto call) {
            return [&, call](Lent &x) { call(file.data(), file.size(), x.a, 2048, x.b, 2048, x.w, 2048, x.answer); };
        };
        auto orders = [&](auto call) { return [&, call](Lent &x) { call(GIVEN, x.order, 128, x.back, 128, x.answer); }; };
        auto keeps = [&](auto call) { return [&, call](Lent &x) { call(GIVEN, 3, x.w, 2048, x.answer); }; };
        auto sums = [&](auto call) { return [&, call](Lent &x) { call(GIVEN, x.answer); }; };
        rows_of(list, "reading", {{"ours", reads(paltiehko_read)}, {"plain C", reads(plain_read)}});
        rows_of(list, "order",
                {{"ours", orders(paltiehko_order)}, {"plain C", orders(plain_order)}, {"C, all rows at each step", orders(rescan_order)}});
        rows_of(list, "thinning for 3", {{"ours", keeps(paltiehko_kept)}, {"plain C", keeps(plain_kept)}});
        rows_of(list, "summary", {{"ours", sums(paltiehko_summary)}, {"plain C", sums(plain_summary)}});
    }
}

// ---- how cost grows

void growth_table()
{
    std::printf("\nHow cost grows: 16 rows for each node, weight 1, microseconds; the exponent is of n, from 64 to 128 nodes\n\n");
    std::printf("| call | n = 16 | 32 | 64 | 128 | exponent |\n|---|---|---|---|---|---|\n");
    std::vector<List> grown;
    for (unsigned n = 16; n <= 128; n *= 2)
        grown.push_back(random_list("n", n, 16 * n, 1));
    using Once = std::function<void(const List &, Lent &)>;
    const std::vector<std::pair<const char *, Once>> calls = {
        {"least", [](const List &list, Lent &x) { paltiehko_least(GIVEN, x.answer); }},
        {"order", [](const List &list, Lent &x) { paltiehko_order(GIVEN, x.order, 128, x.back, 128, x.answer); }},
        {"thinning for 3", [](const List &list, Lent &x) { paltiehko_kept(GIVEN, 3, x.w, 2048, x.answer); }},
        {"summary", [](const List &list, Lent &x) { paltiehko_summary(GIVEN, x.answer); }},
        {"plain C's least", [](const List &list, Lent &x) { plain_least(GIVEN, x.answer); }},
    };
    static Lent lent;
    for (const auto &[name, call] : calls) {
        std::printf("| %s |", name);
        double before = 0, last = 0;
        for (const List &list : grown) {
            before = last;
            last = timed({[&, &call = call] { call(list, lent); }})[0].median;
            std::printf(" %.1f |", last);
        }
        std::printf(" %.2f |\n", std::log2(last / before));
    }
}

// ---- for networkx and callgrind

void write_lists(const std::string &folder)
{
    int number = 0;
    for (const List &list : lists()) {
        FILE *out = std::fopen((folder + "/" + std::to_string(number++) + ".txt").c_str(), "w");
        uint64_t answer[8];
        paltiehko_least(GIVEN, answer);
        Time time = timed({[&] { paltiehko_least(GIVEN, answer); }})[0];
        std::fprintf(out, "%s\n%u %llu %f\n", list.name.c_str(), list.n, (unsigned long long)answer[2], time.median);
        for (size_t r = 0; r < list.rows(); r++)
            std::fprintf(out, "%u %u %u\n", list.a[r], list.b[r], list.w[r]);
        std::fclose(out);
    }
}

int once(const std::string &call)
{
    static Lent x;
    List list = lists()[0];
    std::vector<uint8_t> file = file_of(list);
    if (call == "read")
        paltiehko_read(file.data(), file.size(), x.a, 2048, x.b, 2048, x.w, 2048, x.answer);
    else if (call == "order")
        paltiehko_order(GIVEN, x.order, 128, x.back, 128, x.answer);
    else if (call == "kept")
        paltiehko_kept(GIVEN, 3, x.w, 2048, x.answer);
    else if (call == "least")
        paltiehko_least(GIVEN, x.answer);
    else if (call == "summary")
        paltiehko_summary(GIVEN, x.answer);
    else
        return 2;
    return x.answer[0] != 0;
}

} // namespace

int main(int count, char **words)
{
    if (count == 3 && std::string(words[1]) == "lists")
        write_lists(words[2]);
    else if (count == 3 && std::string(words[1]) == "once")
        return once(words[2]);
    else if (count == 2 && std::string(words[1]) == "splits")
        split_table();
    else if (count == 2 && std::string(words[1]) == "calls") {
        call_table();
        growth_table();
    } else {
        std::fprintf(stderr, "usage: bench splits | lists DIR | calls | once CALL\n");
        return 2;
    }
}
