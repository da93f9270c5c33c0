// Orders patterns by SuiteSparse's AMD and counts the entries of the Cholesky factor.
//
//   amd make KIND SIZE FILE    writes a symmetric pattern (lower triangle) as a Matrix Market file
//   amd order FILE [RUNS]      orders it by amd_order; prints the least time and the entries of the factor
//   amd count FILE ORDER       counts the entries of the factor in the order that the file ORDER holds
//   amd ldl FILE [RUNS]        factors it in doubles by SuiteSparse's LDL in that order; prints the least time of all
//   amd csr FILE OUT           writes the offsets and the indices of the whole pattern
//   amd natural FILE           the same in the order of the file
//   amd rcm FILE [print]       a plain reverse Cuthill-McKee: its bandwidth and profile, or its order
//   amd band FILE ORDER        the bandwidth and the profile in that order
//
// KIND: grid2 (5-point, SIZE by SIZE), grid3 (7-point), geometric (random points, mean degree 12), power (preferential
// attachment, 4 edges a vertex).
#include <suitesparse/amd.h>
extern "C" {
#include <suitesparse/ldl.h>
}
#include <algorithm>
#include <chrono>
#include <cmath>
#include <cstdint>
#include <cstdio>
#include <cstdlib>
#include <cstring>
#include <set>
#include <string>
#include <utility>
#include <vector>
using Edges = std::vector<std::pair<int, int>>;
struct Pattern { int n = 0; std::vector<int> offsets, indices; };
static uint64_t state = 88172645463325252ull;
static uint64_t next_random() { state ^= state << 13; state ^= state >> 7; state ^= state << 17; return state; }
static double uniform() { return (next_random() >> 11) * 0x1p-53; }
static Edges grid2(int k) {
  Edges e;
  for (int i = 0; i < k; i++) for (int j = 0; j < k; j++) {
    if (i + 1 < k) e.push_back({i * k + j, (i + 1) * k + j});
    if (j + 1 < k) e.push_back({i * k + j, i * k + j + 1});
  }
  return e;
}
static Edges grid3(int k) {
  Edges e;
  for (int i = 0; i < k; i++) for (int j = 0; j < k; j++) for (int l = 0; l < k; l++) {
    int v = (i * k + j) * k + l;
    if (i + 1 < k) e.push_back({v, v + k * k});
    if (j + 1 < k) e.push_back({v, v + k});
    if (l + 1 < k) e.push_back({v, v + 1});
  }
  return e;
}
static Edges geometric(int n) {
  double radius = std::sqrt(12.0 / (M_PI * n));
  int cells = std::max(1, (int)(1 / radius));
  std::vector<double> x(n), y(n);
  std::vector<std::vector<int>> in(cells * cells);
  auto cell = [&](double v) { return std::min(cells - 1, (int)(v * cells)); };
  for (int i = 0; i < n; i++) { x[i] = uniform(); y[i] = uniform(); in[cell(x[i]) * cells + cell(y[i])].push_back(i); }
  Edges e;
  for (int i = 0; i < n; i++) {
    int a = cell(x[i]), b = cell(y[i]);
    for (int c = std::max(0, a - 1); c <= std::min(cells - 1, a + 1); c++)
      for (int d = std::max(0, b - 1); d <= std::min(cells - 1, b + 1); d++)
        for (int j : in[c * cells + d])
          if (j > i && std::hypot(x[i] - x[j], y[i] - y[j]) < radius) e.push_back({i, j});
  }
  return e;
}
static Edges power(int n) {
  Edges e;
  std::vector<int> ends;
  for (int i = 0; i < n; i++) {
    std::set<int> to;
    while ((int)to.size() < std::min(i, 4)) to.insert(ends.empty() ? 0 : ends[next_random() % ends.size()]);
    for (int j : to) e.push_back({j, i});
    for (int j : to) { ends.push_back(j); ends.push_back(i); }
  }
  return e;
}
static int make(const std::string &kind, int size, const char *path) {
  Edges e = kind == "grid2" ? grid2(size) : kind == "grid3" ? grid3(size) : kind == "geometric" ? geometric(size) : power(size);
  int n = kind == "grid2" ? size * size : kind == "grid3" ? size * size * size : size;
  FILE *f = fopen(path, "w");
  fprintf(f, "%%%%MatrixMarket matrix coordinate pattern symmetric\n%d %d %zu\n", n, n, e.size() + n);
  for (int i = 0; i < n; i++) fprintf(f, "%d %d\n", i + 1, i + 1);
  for (auto [a, b] : e) fprintf(f, "%d %d\n", std::max(a, b) + 1, std::min(a, b) + 1);
  return fclose(f);
}
static Pattern read(const char *path) {
  FILE *f = fopen(path, "r");
  char line[256];
  while (fgets(line, sizeof line, f) && line[0] == '%') {}
  int n, m; long count;
  sscanf(line, "%d %d %ld", &n, &m, &count);
  Edges e;
  for (long k = 0; k < count; k++) {
    int i, j;
    if (fscanf(f, "%d %d", &i, &j) != 2) exit(1);
    e.push_back({i - 1, j - 1});
    if (i != j) e.push_back({j - 1, i - 1});
  }
  fclose(f);
  std::sort(e.begin(), e.end());
  e.erase(std::unique(e.begin(), e.end()), e.end());
  Pattern p; p.n = n; p.offsets.assign(n + 1, 0);
  for (auto [i, j] : e) { p.offsets[i + 1]++; p.indices.push_back(j); }
  for (int i = 0; i < n; i++) p.offsets[i + 1] += p.offsets[i];
  return p;
}
// The entries of the factor: each row climbs the elimination tree (Liu 1986) from its entries to marked columns.
static long factor_entries(const Pattern &p, const std::vector<int> &order) {
  std::vector<int> place(p.n, -1), parent(p.n, -1), ancestor(p.n, -1);
  if ((int)order.size() != p.n) { printf("not a permutation\n"); exit(1); }
  for (int k = 0; k < p.n; k++) {
    if (order[k] < 0 || order[k] >= p.n || place[order[k]] >= 0) { printf("not a permutation\n"); exit(1); }
    place[order[k]] = k;
  }
  for (int k = 0; k < p.n; k++)
    for (int q = p.offsets[order[k]]; q < p.offsets[order[k] + 1]; q++)
      for (int i = place[p.indices[q]]; i >= 0 && i < k;) {
        int up = ancestor[i];
        ancestor[i] = k;
        if (up < 0) parent[i] = k;
        i = up;
      }
  std::vector<int> mark(p.n, -1);
  long count = p.n;
  for (int k = 0; k < p.n; k++) {
    mark[k] = k;
    for (int q = p.offsets[order[k]]; q < p.offsets[order[k] + 1]; q++)
      for (int i = place[p.indices[q]]; i >= 0 && i < k && mark[i] != k; i = parent[i]) { mark[i] = k; count++; }
  }
  return count;
}
static std::vector<int> read_order(const char *path) {
  std::vector<int> order; int i;
  FILE *f = fopen(path, "r");
  while (fscanf(f, "%d", &i) == 1) order.push_back(i);
  fclose(f);
  return order;
}
static void band(const Pattern &p, const std::vector<int> &order) {
  std::vector<int> place(p.n, 0);
  for (int k = 0; k < p.n; k++) place[order[k]] = k;
  long width = 0, profile = 0;
  for (int k = 0; k < p.n; k++) {
    int least = k;
    for (int q = p.offsets[order[k]]; q < p.offsets[order[k] + 1]; q++) least = std::min(least, place[p.indices[q]]);
    width = std::max(width, (long)k - least); profile += k - least;
  }
  printf("bandwidth %ld profile %ld\n", width, profile);
}
// A plain reverse Cuthill-McKee, from the definitions: each search sorts the new neighbours of a vertex.
static std::vector<int> search(const Pattern &p, int root, int &height) {
  auto degree = [&](int v) {
    int d = 0;
    for (int q = p.offsets[v]; q < p.offsets[v + 1]; q++) d += p.indices[q] != v;
    return d;
  };
  static std::vector<int> level;
  level.resize(p.n, -1);
  std::vector<int> queue{root};
  level[root] = 0;
  for (size_t h = 0; h < queue.size(); h++) {
    int v = queue[h];
    std::vector<std::pair<int, int>> found;
    for (int q = p.offsets[v]; q < p.offsets[v + 1]; q++)
      if (level[p.indices[q]] < 0) { level[p.indices[q]] = level[v] + 1; found.push_back({degree(p.indices[q]), p.indices[q]}); }
    std::sort(found.begin(), found.end());
    for (auto f : found) queue.push_back(f.second);
  }
  height = level[queue.back()];
  std::pair<int, int> least{p.n, p.n};
  for (int v : queue) if (level[v] == height) least = std::min(least, {degree(v), v});
  for (int v : queue) level[v] = -1;
  queue.push_back(least.second);
  return queue;
}
static std::vector<int> rcm(const Pattern &p) {
  std::vector<int> order, done(p.n, 0);
  for (int v = 0; v < p.n; v++) {
    if (done[v]) continue;
    int height, more;
    std::vector<int> queue = search(p, v, height);
    for (;;) {
      queue = search(p, queue.back(), more);
      if (more <= height) break;
      height = more;
    }
    queue.pop_back();
    for (int w : queue) { done[w] = 1; order.push_back(w); }
  }
  std::reverse(order.begin(), order.end());
  return order;
}
// Orders, and factors P A P^T in doubles, with the symbolic phase: degrees on the diagonal, and -1 off it.
static long factor_in_doubles(const Pattern &p, std::vector<int> &order) {
  int n = p.n, *offsets = (int *)p.offsets.data(), *indices = (int *)p.indices.data();
  if (amd_order(n, offsets, indices, order.data(), nullptr, nullptr) < 0) exit(1);
  std::vector<double> values(p.indices.size()), d(n), y(n);
  for (int j = 0; j < n; j++)
    for (int q = offsets[j]; q < offsets[j + 1]; q++) values[q] = indices[q] == j ? offsets[j + 1] - offsets[j] - 0.9 : -1;
  std::vector<int> starts(n + 1), parent(n), counts(n), flag(n), place(n), reach(n);
  ldl_symbolic(n, offsets, indices, starts.data(), parent.data(), counts.data(), flag.data(), order.data(), place.data());
  std::vector<int> rows(starts[n]);
  std::vector<double> l(starts[n]);
  if (ldl_numeric(n, offsets, indices, values.data(), starts.data(), parent.data(), counts.data(), rows.data(), l.data(), d.data(),
                  y.data(), reach.data(), flag.data(), order.data(), place.data()) != n) exit(1);
  return (long)starts[n] + n;
}
int main(int argc, char **argv) {
  std::string what = argc > 1 ? argv[1] : "";
  if (what == "make" && argc == 5) return make(argv[2], atoi(argv[3]), argv[4]);
  if (argc < 3) return 2;
  Pattern p = read(argv[2]);
  std::vector<int> order(p.n);
  for (int i = 0; i < p.n; i++) order[i] = i;
  if (what == "order") {
    double best = 1e9;
    for (int r = 0; r < (argc > 3 ? atoi(argv[3]) : 1); r++) {
      auto t = std::chrono::steady_clock::now();
      if (amd_order(p.n, p.offsets.data(), p.indices.data(), order.data(), nullptr, nullptr) < 0) return 1;
      best = std::min(best, std::chrono::duration<double>(std::chrono::steady_clock::now() - t).count());
    }
    printf("%s n %d entries %zu amd %.1f ms factor %ld\n", argv[2], p.n, p.indices.size(), best * 1e3, factor_entries(p, order));
  } else if (what == "ldl") {
    double best = 1e9;
    long entries = 0;
    for (int r = 0; r < (argc > 3 ? atoi(argv[3]) : 1); r++) {
      auto t = std::chrono::steady_clock::now();
      entries = factor_in_doubles(p, order);
      best = std::min(best, std::chrono::duration<double>(std::chrono::steady_clock::now() - t).count());
    }
    printf("%s n %d ldl %.1f ms factor %ld\n", argv[2], p.n, best * 1e3, entries);
  } else if (what == "rcm") {
    order = rcm(p);
    if (argc > 3) for (int v : order) printf("%d\n", v); else band(p, order);
  } else if (what == "count" && argc == 4) printf("%s factor %ld\n", argv[2], factor_entries(p, read_order(argv[3])));
  else if (what == "natural") printf("%s factor %ld\n", argv[2], factor_entries(p, order));
  else if (what == "band") band(p, argc > 3 ? read_order(argv[3]) : order);
  else if (what == "csr" && argc == 4) {
    FILE *f = fopen(argv[3], "w");
    fprintf(f, "%d\n", p.n);
    for (int o : p.offsets) fprintf(f, "%d\n", o);
    for (int i : p.indices) fprintf(f, "%d\n", i);
    fclose(f);
  } else return 2;
}
