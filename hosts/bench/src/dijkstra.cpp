// What a brush asks, by LEMON's Dijkstra: a digraph with two arcs for each edge.
// The lists are trusted; nothing is checked.
#include <cstddef>
#include <cstdint>
#include <lemon/dijkstra.h>
#include <lemon/smart_graph.h>

// The edges of n vertices, as three lists of length m.
struct lemon_lists {
  size_t n, m;
  const uint32_t *a, *b, *lengths;
};

namespace {

using Graph = lemon::SmartDigraph;
using Lengths = Graph::ArcMap<int>;

const Graph &joined(Graph &graph, const lemon_lists &lists) {
  const int n = int(lists.n), m = int(lists.m);
  graph.reserveNode(n);
  graph.reserveArc(2 * m);
  for (int x = 0; x < n; x++) graph.addNode();
  for (int k = 0; k < m; k++) {
    const Graph::Node a = graph.nodeFromId(int(lists.a[k])), b = graph.nodeFromId(int(lists.b[k]));
    graph.addArc(a, b);
    graph.addArc(b, a);
  }
  return graph;
}

} // namespace

// The graph of a patch, and the distances of the last run.
class lemon_patch {
  Graph graph;
  Lengths length;
  lemon::Dijkstra<Graph, Lengths> dijkstra;

  int distance(int x) const { return dijkstra.dist(graph.nodeFromId(x)); }

public:
  explicit lemon_patch(const lemon_lists &lists) : length(joined(graph, lists)), dijkstra(graph, length) {
    for (int k = 0; k < int(lists.m); k++) {
      length[graph.arcFromId(2 * k)] = int(lists.lengths[k]);
      length[graph.arcFromId(2 * k + 1)] = int(lists.lengths[k]);
    }
  }

  void run(size_t start) { dijkstra.run(graph.nodeFromId(int(start))); }

  uint64_t within(uint32_t reach) const {
    uint64_t mask = 0;
    for (int x = 0; x < graph.nodeNum(); x++) mask |= uint64_t(uint32_t(distance(x)) <= reach) << x;
    return mask;
  }

  uint32_t nearest(const uint64_t *amounts) const {
    int best = 64;
    for (int x = 0; x < graph.nodeNum(); x++)
      if (amounts[x] > 0 && (best == 64 || distance(x) < distance(best))) best = x;
    return uint32_t(best);
  }
};

extern "C" {

uint64_t lemon_vertices_within(const lemon_lists *lists, size_t start, uint32_t reach) {
  lemon_patch patch(*lists);
  patch.run(start);
  return patch.within(reach);
}

uint32_t lemon_nearest_vertex(const lemon_lists *lists, size_t start, const uint64_t *amounts) {
  lemon_patch patch(*lists);
  patch.run(start);
  return patch.nearest(amounts);
}

lemon_patch *lemon_patch_new(const lemon_lists *lists) { return new lemon_patch(*lists); }
void lemon_patch_run(lemon_patch *patch, size_t start) { patch->run(start); }
uint64_t lemon_patch_within(const lemon_patch *patch, uint32_t reach) { return patch->within(reach); }
uint32_t lemon_patch_nearest(const lemon_patch *patch, const uint64_t *amounts) {
  return patch->nearest(amounts);
}
void lemon_patch_free(lemon_patch *patch) { delete patch; }
}
