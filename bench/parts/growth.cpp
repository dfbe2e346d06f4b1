// How cost grows with the number of samples: each call beside those that it is measured beside elsewhere.
#include "../shared/asking.hpp"
#include "parts.hpp"

static Rows grow(const Kind& kind, size_t n) {
  const Race how{std::string("Growth, ") + kind.name, n, kind.name};
  const Samples samples = tagged(kind.colours(n), spread_tag);
  Rows rows = race_loads(how, samples, JUST_ENOUGH);
  append(rows, race_changes(how, samples, JUST_ENOUGH));
  Set set(kind, n);
  const std::vector<Ball> balls = around<Ball>(set.colours, 400, 2048);
  append(rows, ask_all("ball", set, balls));
  append(rows, ask_all("box", set, boxes_like(balls)));
  append(rows, ask_all("nearest", set, around<Nearest>(set.colours, 400, ANY_RADIUS)));
  return rows;
}

Rows measure_growth() {
  Rows rows;
  for (auto& kind : KINDS)
    for (size_t n : {64, 256, 1024, 4096}) append(rows, grow(kind, n));
  return rows;
}
