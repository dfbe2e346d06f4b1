// Colours and samples that sets are made of.
#pragma once

#include <algorithm>
#include <cmath>
#include <random>

#include "../by_hand/listing.hpp"

const int SAMPLES = MOST_SAMPLES, BUCKET = 16;
// The words of tables as long as a set can need.
const size_t SAMPLE_WORDS = sample_words(MOST_SAMPLES), OCTANT_WORDS = octant_words(MOST_OCTANTS);

using Colours = std::vector<Colour>;
using Samples = std::vector<Sample>;

// Colours anywhere, or around twelve. Fewer of them are the first of more.
inline Colours scattered(size_t n = SAMPLES) {
  std::mt19937 g(7);
  Colours colours(n);
  for (auto& x : colours)
    for (auto& c : x.c) c = g() % CODES;
  return colours;
}

// A colour off another one, so far in each channel by the standard deviation of what is drawn.
template <class Generator>
Colour beside(const Colour& x, std::normal_distribution<double>& off, Generator& g) {
  Colour near;
  for (int i = 0; i < 3; i++) near.c[i] = (u32)std::clamp(x.c[i] + off(g), 0.0, (double)MOST_CODE);
  return near;
}

inline Colours clustered(size_t n = SAMPLES) {
  std::mt19937 g(7);
  Colours colours(n), middles(12);
  for (auto& x : middles)
    for (auto& c : x.c) c = 8000 + g() % 50000;
  std::normal_distribution<double> off(0, 2500);
  for (auto& x : colours) x = beside(middles[g() % 12], off, g);
  return colours;
}

struct Kind {
  const char* name;
  Colours (*colours)(size_t n);
};
const Kind KINDS[] = {{"scattered", scattered}, {"clustered", clustered}};

// Tags that are the rows; tags spread over 32 bits, no two equal.
inline Tag row_tag(u32 row) { return row; }
inline Tag spread_tag(u32 row) { return row * 0x9E3779B1u; }

inline Samples tagged(const Colours& colours, Tag (*tag_of)(u32)) {
  Samples samples;
  for (u32 i = 0; i < colours.size(); i++) samples.push_back({tag_of(i), colours[i]});
  return samples;
}

inline Tables build_rows(const Colours& colours, u32 bucket = BUCKET) {
  return build(tagged(colours, row_tag), bucket);
}

inline bool same_tables(const Tables& a, const Tables& b) { return a.samples == b.samples && a.octants == b.octants; }

// Tables of the same set in as many words as a set can need.
inline Tables longest(Tables t) {
  t.samples.resize(SAMPLE_WORDS);
  t.octants.resize(OCTANT_WORDS);
  return t;
}

// Writes tables into longer ones that are there, as the library does.
inline void copy_padded(const Tables& from, Tables& to) {
  auto copy = [](const std::vector<u32>& a, std::vector<u32>& b) {
    std::fill(std::copy(a.begin(), a.end(), b.begin()), b.end(), 0);
  };
  copy(from.samples, to.samples);
  copy(from.octants, to.octants);
}

inline u64 distance(const Colour& a, const Colour& b) {
  u64 d = 0;
  for (int i = 0; i < 3; i++) d += sq((long)a.c[i] - (long)b.c[i]);
  return d;
}
