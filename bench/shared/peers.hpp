// Others that answer the same queries: nanoflann and FLANN if they are installed, and a straight scan of all
// samples. They take floats, so a sample whose distance is all but the radius may fall on either side, and of two that
// are all but as far either may be found.
#pragma once

#include <algorithm>
#include <utility>

#include "../measure/measure.hpp"
#include "queries.hpp"

#if __has_include(<nanoflann.hpp>)
#include <nanoflann.hpp>
#endif

// Another interface from 1.5 on.
#if defined(NANOFLANN_VERSION) && NANOFLANN_VERSION < 0x150
#define HAS_NANOFLANN
#endif

// bench/build defines this if the library can be linked.
#ifdef HAS_FLANN
#include <flann/algorithms/dist.h>
#include <flann/algorithms/kdtree_single_index.h>
#endif

inline std::array<float, 3> as_floats(const Colour& x) { return {(float)x.c[0], (float)x.c[1], (float)x.c[2]}; }

#ifdef HAS_NANOFLANN
struct Cloud {
  const Colours* p;
  size_t kdtree_get_point_count() const { return p->size(); }
  float kdtree_get_pt(size_t i, size_t d) const { return (float)(*p)[i].c[d]; }
  template <class B>
  bool kdtree_get_bbox(B&) const {
    return false;
  }
};

struct Nanoflann {
  using Tree = nanoflann::KDTreeSingleIndexAdaptor<nanoflann::L2_Simple_Adaptor<float, Cloud>, Cloud, 3>;
  Cloud cloud;
  Tree tree;
  std::vector<std::pair<u32, float>> found;

  // Some versions build the index when they make the tree, others when they are told to.
  explicit Nanoflann(const Colours& p) : cloud{&p}, tree(3, cloud, nanoflann::KDTreeSingleIndexAdaptorParams(10)) {
    if (tree.root_node == nullptr) tree.buildIndex();
  }
  u32 ask(const Ball& q) {
    auto x = as_floats(q.centre);
    found.clear();
    nanoflann::SearchParams how;
    how.sorted = false;
    return tree.radiusSearch(x.data(), (float)q.r2(), found, how);
  }
  // What is farther than the distance that is there is passed over: at first that is the radius.
  u32 ask(const Nearest& q) {
    auto x = as_floats(q.centre);
    float d2;
    u32 row = NONE;
    nanoflann::KNNResultSet<float, u32> one(1);
    one.init(&row, &d2);
    d2 = (float)q.r2();
    tree.findNeighbors(one, x.data(), nanoflann::SearchParams());
    return row;
  }
  std::vector<u32> rows() const {
    std::vector<u32> rows;
    for (auto& hit : found) rows.push_back(hit.first);
    return rows;
  }
};
#endif

#ifdef HAS_FLANN
struct Flann {
  std::vector<float> points;
  flann::KDTreeSingleIndex<flann::L2_Simple<float>> index;
  std::vector<std::vector<int>> found;
  std::vector<std::vector<float>> distances;

  static std::vector<float> floats(const Colours& p) {
    std::vector<float> points;
    for (auto& x : p)
      for (u32 c : x.c) points.push_back(c);
    return points;
  }
  explicit Flann(const Colours& p)
      : points(floats(p)), index(flann::Matrix<float>(points.data(), p.size(), 3), flann::KDTreeSingleIndexParams(10)) {
    index.buildIndex();
  }
  u32 ask(const Ball& q) {
    auto x = as_floats(q.centre);
    flann::Matrix<float> query(x.data(), 1, 3);
    return index.radiusSearch(query, found, distances, (float)q.r2(), flann::SearchParams(-1, 0, false));
  }
  // A search for one neighbour takes no radius.
  u32 ask(const Nearest& q) {
    auto x = as_floats(q.centre);
    float d2;
    size_t row;
    flann::Matrix<float> query(x.data(), 1, 3), one_distance(&d2, 1, 1);
    flann::Matrix<size_t> one(&row, 1, 1);
    index.knnSearch(query, one, one_distance, 1, flann::SearchParams(-1, 0, false));
    return d2 < (float)q.r2() ? (u32)row : NONE;
  }
  std::vector<u32> rows() const { return {found[0].begin(), found[0].end()}; }
};
#endif

struct Scan {
  std::vector<int> x, y, z;
  std::vector<u32> found;
  u32 n = 0;

  explicit Scan(const Colours& p) : found(p.size() + 1) {
    for (auto& s : p) x.push_back(s.c[0]), y.push_back(s.c[1]), z.push_back(s.c[2]);
  }
  float distance(size_t i, const Colour& c) const {
    float dx = x[i] - (int)c.c[0], dy = y[i] - (int)c.c[1], dz = z[i] - (int)c.c[2];
    return dx * dx + dy * dy + dz * dz;
  }
  // The row is written each time, and stays where it is wanted.
  template <class Wanted>
  u32 list(Wanted wanted) {
    u32 k = 0;
    for (size_t i = 0; i < x.size(); i++) {
      found[k] = i;
      k += wanted(i);
    }
    return n = k;
  }
  u32 ask(const Ball& q) {
    const float r2 = (float)q.r2();
    return list([&](size_t i) { return distance(i, q.centre) < r2; });
  }
  // A code is in if, less the low one, it is no more than the box is long.
  u32 ask(const Box& q) {
    const u32 *a = q.low.c, long_x = q.high.c[0] - a[0], long_y = q.high.c[1] - a[1], long_z = q.high.c[2] - a[2];
    return list([&](size_t i) {
      return (int)(x[i] - a[0] <= long_x) & (int)(y[i] - a[1] <= long_y) & (int)(z[i] - a[2] <= long_z);
    });
  }
  // Block by block: only if one of a block is closer is it looked for.
  u32 ask(const Nearest& q) {
    float best = (float)q.r2();
    u32 row = NONE;
    const size_t block = 64;
    for (size_t from = 0; from < x.size(); from += block) {
      const size_t to = std::min(from + block, x.size());
      int closer = 0;
      for (size_t i = from; i < to; i++) closer |= distance(i, q.centre) < best;
      if (!closer) continue;
      for (size_t i = from; i < to; i++)
        if (distance(i, q.centre) < best) best = distance(i, q.centre), row = i;
    }
    return row;
  }
  std::vector<u32> rows() const { return {found.begin(), found.begin() + n}; }
};

// Those that are there, each with the samples in its own form.
struct Peers {
#ifdef HAS_NANOFLANN
  Nanoflann nanoflann;
#endif
#ifdef HAS_FLANN
  Flann flann;
#endif
  Scan scan;

  explicit Peers(const Colours& p)
      :
#ifdef HAS_NANOFLANN
        nanoflann(p),
#endif
#ifdef HAS_FLANN
        flann(p),
#endif
        scan(p) {
  }
  template <class F>
  void each(F f) {
#ifdef HAS_NANOFLANN
    f(NANOFLANN, nanoflann);
#endif
#ifdef HAS_FLANN
    f(FLANN, flann);
#endif
    f(SCAN, scan);
  }
};
