// How fast balls, boxes and nearest are asked, beside hand-written C++ over the same tables (by_hand/listing.hpp,
// by_hand/nearest.hpp), other libraries and a straight scan of all samples.
#include "../shared/asking.hpp"
#include "parts.hpp"

// As few samples as a colourist picks by hand, more, and as many as a set can hold.
const size_t NEAREST_SAMPLES[] = {6, 64, SAMPLES};

static Rows measure_listings(const Kind& kind) {
  Rows rows;
  Set set(kind, SAMPLES);
  for (u32 radius : {512u, 2048u, 8192u, 32768u}) {
    const std::vector<Ball> balls = around<Ball>(set.colours, 400, radius);
    append(rows, ask_all("ball, radius " + grouped(radius), set, balls, true));
    append(rows, ask_all("box like radius " + grouped(radius), set, boxes_like(balls), true));
  }
  return rows;
}

static Rows measure_nearest(const Kind& kind, size_t n) {
  Rows rows;
  Set set(kind, n);
  for (int off : {400, 4000})
    for (u32 radius : NEAREST_RADII) {
      const std::string what = "nearest, " + grouped(off) + " off, " + within(radius);
      append(rows, ask_all(what, set, around<Nearest>(set.colours, off, radius), true));
    }
  return rows;
}

Rows measure_queries() {
  Rows rows;
  for (auto& kind : KINDS) {
    append(rows, measure_listings(kind));
    for (size_t n : NEAREST_SAMPLES) append(rows, measure_nearest(kind, n));
  }
  return rows;
}
