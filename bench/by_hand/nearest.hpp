// Hand-written C++ over the same two tables: how one would find the nearest sample in them without a proof. The
// benchmark measures the library beside it. It trusts every word, and would not end on tables that point in circles.
// Nothing of the library uses it.
#pragma once

#include "listing.hpp"

// The nearest so far: its squared distance, at first the squared radius; its octant; its row and one more, 0 where
// there is none. Octants stand in the order of the samples, so of two as far the one in the lower octant comes first.
struct Search {
  const u32 *samples, *octants;
  u32 c[3];
  u64 d2;
  u32 octant, row;
};
inline u64 gap(u32 x, u32 lo, u32 side) {
  const u32 last = lo + side - 1;
  return x <= lo ? sq((long)lo - x) : last <= x ? sq((long)x - last) : 0;
}
inline bool closer(const Search& q, u64 d2, u32 octant) { return d2 < q.d2 || (d2 == q.d2 && octant < q.octant); }

// Goes to the child that is closest to the centre first, and then across its planes to the others.
inline void search_octant(Search& q, u32 row, const u32 lo[3], u32 side) {
  const u32* w = octant_row(q.octants, row);
  if (side == 1 || octant_held(w) <= bucket_size(q.samples)) {
    u32 r = octant_first(w);
    for (u32 i = 0; i < octant_held(w); i++) {
      const u32 *x = sample_row(q.samples, r), *c = sample_codes(x);
      u64 d = sq((long)c[0] - q.c[0]) + sq((long)c[1] - q.c[1]) + sq((long)c[2] - q.c[2]);
      if (closer(q, d, row)) {
        q.d2 = d;
        q.octant = row;
        q.row = r + 1;
      }
      r = sample_next(x);
    }
    return;
  }
  const u32 h = side / 2;
  u32 first = 0;
  u64 near = 0, more[3];
  for (int i = 0; i < 3; i++) {
    u64 a = gap(q.c[i], lo[i], h), b = gap(q.c[i], lo[i] + h, h);
    if (b < a) first |= 1u << i;
    near += std::min(a, b);
    more[i] = std::max(a, b) - std::min(a, b);
  }
  for (u32 m = 0; m < 8; m++) {
    const u32 k = first ^ m, child = octant_child(w, k);
    if (child == 0) continue;
    u64 d = near + (m & 1) * more[0] + (m >> 1 & 1) * more[1] + (m >> 2 & 1) * more[2];
    if (closer(q, d, child)) {
      const u32 l[3] = {lo[0] + (k & 1) * h, lo[1] + (k >> 1 & 1) * h, lo[2] + (k >> 2 & 1) * h};
      search_octant(q, child, l, h);
    }
  }
}
