// Hand-written C++ over the same two tables: how one would ask balls and boxes of them without a proof. The benchmark
// measures the library beside it. It trusts every word, takes a listing that is long enough, and would not end on
// tables that point in circles. Nothing of the library uses it.
#pragma once

#include <algorithm>
#include <cstdlib>

#include "build.hpp"

inline u64 sq(long a) { return (u64)(a * a); }

// The colours of a ball, by its squared radius. An octant is given by its lowest codes and its side.
struct InBall {
  u32 c[3];
  u64 r2;

  bool has(const u32* codes) const {
    return sq((long)codes[0] - c[0]) + sq((long)codes[1] - c[1]) + sq((long)codes[2] - c[2]) < r2;
  }
  bool holds(const u32 lo[3], u32 side) const {
    u64 far = 0;
    for (int i = 0; i < 3; i++) {
      long a = labs((long)c[i] - (long)lo[i]), b = labs((long)c[i] - (long)(lo[i] + side - 1));
      far += sq(std::max(a, b));
    }
    return far < r2;
  }
  bool overlaps(const u32 lo[3], u32 side) const {
    u64 near = 0;
    for (int i = 0; i < 3; i++) {
      u32 last = lo[i] + side - 1;
      near += sq(c[i] < lo[i] ? (long)lo[i] - c[i] : c[i] > last ? (long)c[i] - last : 0);
    }
    return near < r2;
  }
};

// The colours of a box from a to b.
struct InBox {
  u32 a[3], b[3];

  bool has(const u32* codes) const {
    bool in = true;
    for (int i = 0; i < 3; i++)
      if (codes[i] < a[i] || codes[i] > b[i]) in = false;
    return in;
  }
  bool holds(const u32 lo[3], u32 side) const {
    bool inside = true;
    for (int i = 0; i < 3; i++)
      if (lo[i] < a[i] || lo[i] + side - 1 > b[i]) inside = false;
    return inside;
  }
  bool overlaps(const u32 lo[3], u32 side) const {
    bool any = true;
    for (int i = 0; i < 3; i++)
      if (lo[i] > b[i] || lo[i] + side - 1 < a[i]) any = false;
    return any;
  }
};

// A listing under way: the region, where tags go to, and the three reports.
template <class Region>
struct Listing {
  const u32 *samples, *octants;
  Region region;
  Tag* out;
  u32 listed, entered, measured;
};

template <class Region>
void list_octant(Listing<Region>& q, u32 row, const u32 lo[3], u32 side) {
  q.entered++;
  const u32 *w = octant_row(q.octants, row), *s = q.samples;
  if (q.region.holds(lo, side)) {
    u32 r = octant_first(w);
    for (u32 i = 0; i < octant_held(w); i++) {
      q.out[q.listed++] = sample_tag(s, r);
      r = sample_next(s, r);
    }
    return;
  }
  bool leaf = true;
  for (int k = 0; k < 8; k++)
    if (octant_child(w, k)) leaf = false;
  if (leaf) {
    u32 r = octant_first(w);
    for (u32 i = 0; i < octant_held(w); i++) {
      const u32* x = sample_row(s, r);
      if (q.region.has(sample_codes(x))) q.out[q.listed++] = sample_tag(x);
      r = sample_next(x);
    }
    q.measured += octant_held(w);
    return;
  }
  const u32 half = side / 2;
  for (int k = 0; k < 8; k++)
    if (octant_child(w, k)) {
      u32 child[3];
      for (int i = 0; i < 3; i++) child[i] = lo[i] + (((k >> i) & 1) ? half : 0);
      if (q.region.overlaps(child, half)) list_octant(q, octant_child(w, k), child, half);
    }
}
