// The transport problem by LEMON's NetworkSimplex: a digraph with two arcs for each edge.
// The image or the lists are trusted; nothing is checked.
#include <cstddef>
#include <cstdint>
#include <lemon/network_simplex.h>
#include <lemon/smart_graph.h>
#include <vector>

namespace {

uint32_t word(const uint8_t *at) {
  return uint32_t(at[0]) | uint32_t(at[1]) << 8 | uint32_t(at[2]) << 16 | uint32_t(at[3]) << 24;
}

// The numbers of an image.
struct Image {
  int n, m;
  const uint8_t *edges, *mu, *nu;

  explicit Image(const uint8_t *image)
      : n(image[0]), m(image[2] | image[3] << 8), edges(image + word(image + 4)),
        mu(image + word(image + 12)), nu(image + word(image + 20)) {}
  int supply(int x) const { return int(word(mu + 4 * x)) - int(word(nu + 4 * x)); }
  int a(int k) const { return edges[4 * k]; }
  int b(int k) const { return edges[4 * k + 1]; }
  int length(int k) const { return edges[4 * k + 2] | edges[4 * k + 3] << 8; }
};

// Three lists of m edges, and what each of n vertices supplies.
struct Lists {
  int n, m;
  const uint32_t *ends_a, *ends_b, *lengths;
  const int32_t *supplies;

  int supply(int x) const { return supplies[x]; }
  int a(int k) const { return int(ends_a[k]); }
  int b(int k) const { return int(ends_b[k]); }
  int length(int k) const { return int(lengths[k]); }
};

// Returns the least cost, or -1 if there is none.
template <class Network> int64_t least_cost(const Network &network) {
  using Graph = lemon::SmartDigraph;
  const int n = network.n, m = network.m;

  Graph graph;
  graph.reserveNode(n);
  graph.reserveArc(2 * m);
  for (int x = 0; x < n; x++) graph.addNode();
  Graph::NodeMap<int> supply(graph);
  for (int x = 0; x < n; x++) supply[graph.nodeFromId(x)] = network.supply(x);
  for (int k = 0; k < m; k++) {
    const Graph::Node a = graph.nodeFromId(network.a(k)), b = graph.nodeFromId(network.b(k));
    graph.addArc(a, b);
    graph.addArc(b, a);
  }
  Graph::ArcMap<int> length(graph);
  for (int k = 0; k < m; k++) {
    const int value = network.length(k);
    length[graph.arcFromId(2 * k)] = value;
    length[graph.arcFromId(2 * k + 1)] = value;
  }

  lemon::NetworkSimplex<Graph, int, int> simplex(graph);
  simplex.costMap(length).supplyMap(supply);
  if (simplex.run() != decltype(simplex)::OPTIMAL) return -1;
  return simplex.template totalCost<int64_t>();
}

} // namespace

extern "C" {

int64_t lemon_solve(const uint8_t *image) { return least_cost(Image(image)); }

int64_t lemon_solve_lists(size_t n, size_t m, const uint32_t *a, const uint32_t *b, const uint32_t *lengths,
                          const int32_t *supplies) {
  return least_cost(Lists{int(n), int(m), a, b, lengths, supplies});
}
}
