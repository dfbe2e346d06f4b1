// The library's calls over the benchmark's types.
#pragma once

#include "../by_hand/panel.hpp"
#include "../by_hand/sheets.hpp"
#include "hubeltxa.h"
#include "sets.hpp"

// Of crates/rebuild: it builds as adding and loading do.
extern "C" u32 hbx_rebuild(u32* samples, size_t samples_len, u32* octants, size_t octants_len, u32 bucket, size_t n);

namespace library {

inline u32 rebuild(Tables& t, size_t n) {
  return hbx_rebuild(t.samples.data(), t.samples.size(), t.octants.data(), t.octants.size(), t.bucket, n);
}

inline u32 clear(Tables& t) {
  return hbx_clear(t.samples.data(), t.samples.size(), t.octants.data(), t.octants.size(), t.bucket);
}

inline u32 check(const Tables& t) {
  return hbx_check(t.samples.data(), t.samples.size(), t.octants.data(), t.octants.size());
}

inline u32 add(Tables& t, const Sample& x) {
  const u32* c = x.colour.c;
  return hbx_add(t.samples.data(), t.samples.size(), t.octants.data(), t.octants.size(), x.tag, c[0], c[1], c[2]);
}

inline u32 remove(Tables& t, Tag tag) {
  return hbx_remove(t.samples.data(), t.samples.size(), t.octants.data(), t.octants.size(), tag);
}

// What a load answers.
struct Loaded {
  u32 number, taken;
  bool operator==(const Loaded& other) const { return number == other.number && taken == other.taken; }
};

inline Loaded load(Tables& t, const std::vector<uint8_t>& sheet) {
  Loaded a;
  a.number = hbx_load(t.samples.data(), t.samples.size(), t.octants.data(), t.octants.size(), sheet.data(),
                      sheet.size(), &a.taken);
  return a;
}

inline Part name(const std::vector<uint8_t>& sheet, Tag tag) {
  Part found;
  hbx_name(sheet.data(), sheet.size(), tag, &found.start, &found.length);
  return found;
}

inline u32 line(const Sample& x, const uint8_t* name, size_t length, uint8_t* line, size_t line_length) {
  return hbx_line(x.tag, x.colour.c[0], x.colour.c[1], x.colour.c[2], name, length, line, line_length);
}

inline u32 codes(const PanelColour& panel, Colour& colour) {
  return hbx_codes(panel.v[0], panel.v[1], panel.v[2], &colour.c[0], &colour.c[1], &colour.c[2]);
}

inline u32 floats(const Colour& colour, PanelColour& panel) {
  return hbx_floats(colour.c[0], colour.c[1], colour.c[2], &panel.v[0], &panel.v[1], &panel.v[2]);
}

}  // namespace library
