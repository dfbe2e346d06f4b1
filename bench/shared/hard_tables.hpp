// Sets and tables that are dear to ask, or that take most stack.
#pragma once

#include "../measure/measure.hpp"
#include "queries.hpp"

// A ball whose surface goes through many octants.
const Colour MIDDLE = {{32000, 33000, 31000}};
const u32 RADIUS = 30000;
const Ball WIDE_BALL = {MIDDLE, RADIUS};
const Nearest FROM_MIDDLE = {{MIDDLE, ANY_RADIUS}};

// Parts from a colour at the last depth.
inline Colour parted_last(const Colour& x) { return {{x.c[0] ^ 1, x.c[1], x.c[2]}}; }

// Pairs that part at the last depth: with bucket size 1, the deepest tree.
inline Colours paired() {
  Colours colours = scattered();
  for (int i = 0; i + 1 < SAMPLES; i += 2) colours[i + 1] = parted_last(colours[i]);
  return colours;
}

// Such pairs on that ball's surface: with bucket size 1, of all sets that were tried the one that the ball enters most
// octants of.
inline Colours on_surface() {
  std::mt19937 g(10);
  std::normal_distribution<double> nd(0, 1);
  Colours colours(SAMPLES);
  for (int i = 0; i + 1 < SAMPLES; i += 2) {
    double v[3], length = 0;
    for (auto& x : v) x = nd(g), length += x * x;
    for (int j = 0; j < 3; j++) colours[i].c[j] = (u32)(MIDDLE.c[j] + v[j] / std::sqrt(length) * RADIUS);
    colours[i + 1] = parted_last(colours[i]);
  }
  return colours;
}

// Colours that are all as far from the middle, each with another that parts from it at the last depth and is farther:
// with bucket size 1, nearest goes down to almost every one.
inline Colours equally_far() {
  std::mt19937 g(12);
  const long d2 = (long)RADIUS * RADIUS + 1;
  Colours colours;
  while (colours.size() < (size_t)SAMPLES) {
    const long x = (long)(g() % (2 * RADIUS)) - RADIUS;
    for (long y = -(long)RADIUS; y <= (long)RADIUS && colours.size() < (size_t)SAMPLES; y++) {
      const long z2 = d2 - x * x - y * y, z = z2 < 0 ? -1 : std::lround(std::sqrt((double)z2));
      if (z2 < 0 || z * z != z2) continue;
      const Colour one = {{(u32)(MIDDLE.c[0] + x), (u32)(MIDDLE.c[1] + y), (u32)(MIDDLE.c[2] + (g() % 2 ? z : -z))}};
      const Colour other = parted_last(one);
      if (distance(other, MIDDLE) > distance(one, MIDDLE)) colours.push_back(one), colours.push_back(other);
    }
  }
  return colours;
}

// Pairs that part at the last depth, ever closer to one colour: with bucket size 1 the octants on the way down to it
// have others beside them at every depth. It lies beside planes between octants of the first two depths, in green and
// in blue. All have its red, the greatest, but for those beyond the first plane, which have one less.
//
// Nearest is to be asked from a centre that has its green and blue, and less red. It goes down the way as long as the
// red agrees, and then off it. On its way back it enters the others, also those beyond the planes: they reach closer
// than what is found.
inline Colours closing_in() {
  const Colour one = {{MOST_CODE, CODES / 2 - 1, CODES / 4 - 1}};
  std::mt19937 g(15);
  Colours colours;
  for (u32 i = 0; colours.size() < (size_t)SAMPLES; i++) {
    const long far = 1l << i % CODE_BITS;
    auto near = [&](u32 code) { return (u32)std::clamp(code - far + (long)g() % (2 * far), 0l, (long)MOST_CODE); };
    const u32 green = near(one.c[1]), blue = near(one.c[2]), red = green > one.c[1] ? one.c[0] - 1 : one.c[0];
    colours.push_back({{red, green, blue}}), colours.push_back({{red, green ^ 1, blue}});
  }
  return colours;
}

inline u32* octant(Tables& t, u32 row) { return octant_row(t.octants.data(), row); }

// Tables as long as a set can need, whose words point everywhere: next words and first rows to any sample row, child
// words to any octant row, and counts as large as they get.
inline Tables pointing_anywhere() {
  std::mt19937 g(11);
  Tables t{std::vector<u32>(SAMPLE_WORDS), std::vector<u32>(OCTANT_WORDS), BUCKET};
  set_sample_header(t.samples.data(), UINT32_MAX, BUCKET);
  set_octant_count(t.octants.data(), UINT32_MAX);
  for (u32 i = 0; i < SAMPLES; i++) {
    const Tag tag = g() % CODES;
    u32 codes[3];
    for (auto& c : codes) c = g() % CODES;
    set_sample(t.samples.data(), i, tag, codes);
    set_sample_next(t.samples.data(), i, g() % SAMPLES);
  }
  for (u32 i = 0; i < MOST_OCTANTS; i++) {
    set_octant_first(octant(t, i), g() % SAMPLES);
    set_octant_last(octant(t, i), g() % SAMPLES);
    set_octant_held(octant(t, i), g() % MOST_OCTANTS);
    for (int k = 0; k < 8; k++) set_octant_child(octant(t, i), k, g() % MOST_OCTANTS);
  }
  return t;
}

// The same with child words that lead on to the next row for each octant that is wanted, given the squared distances
// of its closest and its farthest colour from the middle, as long as there are rows: those that lead no further hold
// samples.
template <class Wanted>
u32 lead_on(Tables& t, u32& rows, const Colour& low, u32 side, Wanted wanted) {
  const u32 row = rows++, half = side / 2;
  set_octant_held(octant(t, row), BUCKET);
  for (u32 k = 0; k < 8; k++) {
    set_octant_child(octant(t, row), k, 0);
    Colour child = low;
    u64 closest = 0, farthest = 0;
    for (int i = 0; i < 3; i++) {
      if (k >> i & 1) child.c[i] += half;
      long from = (long)child.c[i] - MIDDLE.c[i], to = from + (long)half - 1;
      closest += sq(from > 0 ? from : to < 0 ? to : 0);
      farthest += sq(std::max(std::labs(from), std::labs(to)));
    }
    if (half > 0 && rows < MOST_OCTANTS && wanted(closest, farthest)) {
      set_octant_held(octant(t, row), UINT32_MAX);
      set_octant_child(octant(t, row), k, lead_on(t, rows, child, half, wanted));
    }
  }
  return row;
}

template <class Wanted>
void lead_everywhere(Tables& t, Wanted wanted) {
  u32 rows = 0;
  lead_on(t, rows, {{0, 0, 0}}, ROOT_SIDE, wanted);
  must(rows == MOST_OCTANTS, "octant rows are left");
}

// To each octant that the ball's surface goes through: a ball enters them all, and measures samples in those that
// lead no further.
inline Tables leading_through_surface() {
  Tables t = pointing_anywhere();
  const u64 r2 = WIDE_BALL.r2();
  lead_everywhere(t, [=](u64 closest, u64 farthest) { return closest < r2 && farthest >= r2; });
  return t;
}

// Such words, and samples that all have one colour in a corner.
const Colour CORNER = {{MOST_CODE, MOST_CODE, MOST_CODE}};
inline Tables all_in_corner() {
  Tables t = pointing_anywhere();
  u32* samples = t.samples.data();
  for (u32 i = 0; i < SAMPLES; i++) set_sample(samples, i, sample_tag(samples, i), CORNER.c);
  return t;
}

// To every octant that is closer to the middle than those samples.
inline Tables leading_before_corner() {
  const u64 d2 = distance(CORNER, MIDDLE);
  Tables t = all_in_corner();
  lead_everywhere(t, [=](u64 closest, u64) { return closest < d2; });
  return t;
}

// Down to the last depth, from an octant that holds the middle to each of its children, from another one to its first.
inline u32 lead_down(Tables& t, u32& rows, u32 depths_left, bool holds_middle) {
  const u32 row = rows++, bit = depths_left - 1;
  set_octant_held(octant(t, row), UINT32_MAX);
  for (u32 k = 0; k < 8; k++) {
    const bool leads = depths_left > 0 && (holds_middle || k == 0);
    const bool holds = leads && holds_middle && k == child_number(MIDDLE.c, bit);
    set_octant_child(octant(t, row), k, leads ? lead_down(t, rows, bit, holds) : 0);
  }
  return row;
}

// To the middle and, off the way there, at every depth to all the others, each time down to the last depth. All of it
// is closer to the middle than those samples.
inline Tables leading_down_and_off() {
  Tables t = all_in_corner();
  u32 rows = 0;
  lead_down(t, rows, CODE_BITS, true);
  return t;
}

// To one octant again and again.
inline Tables leading_back() {
  Tables t = pointing_anywhere();
  for (u32 i = 0; i < MOST_OCTANTS; i++) {
    set_octant_held(octant(t, i), UINT32_MAX);
    for (int k = 0; k < 8; k++) set_octant_child(octant(t, i), k, 1);
  }
  return t;
}
