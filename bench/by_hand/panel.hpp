// Hand-written C++: panel floats to codes and back, with the library's checks and numbers. The benchmark measures the
// library beside it. Nothing of the library uses it.
#pragma once

#include "build.hpp"

struct PanelColour {
  float v[3];
};

inline u32 codes_of(const PanelColour& panel, Colour& colour) {
  for (float v : panel.v)
    if (!good_channel(v)) return 9;
  for (int i = 0; i < 3; i++) colour.c[i] = code_of(panel.v[i]);
  return 0;
}

inline u32 floats_of(const Colour& colour, PanelColour& panel) {
  for (u32 code : colour.c)
    if (code > MOST_CODE) return 4;
  for (int i = 0; i < 3; i++) panel.v[i] = channel(colour.c[i]);
  return 0;
}
