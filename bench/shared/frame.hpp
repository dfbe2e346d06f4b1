// A frame to be keyed: a green screen fills it. Its pixels are one tight cluster of colours, which the light spreads
// along one line and the grain in every direction.
#pragma once

#include "sets.hpp"

const int FRAME_WIDTH = 1920, FRAME_HEIGHT = 1080, FRAME_PIXELS = FRAME_WIDTH * FRAME_HEIGHT;
// How much more light there is at the right edge and at the bottom than in the middle, and how much less at the left
// and at the top, of a hundred parts.
const int LIGHT_ACROSS = 6, LIGHT_DOWN = 3;
// In codes, by the standard deviation in each channel.
const int GRAIN = 300;
const Colour SCREEN = {{9000, 45000, 12000}};

inline Colour lit(const Colour& x, double light) {
  Colour seen;
  for (int i = 0; i < 3; i++) seen.c[i] = (u32)(x.c[i] * light);
  return seen;
}

// The pixels, line by line.
inline Colours frame() {
  std::mt19937 g(13);
  std::normal_distribution<double> grain(0, GRAIN);
  Colours pixels;
  for (int y = 0; y < FRAME_HEIGHT; y++)
    for (int x = 0; x < FRAME_WIDTH; x++) {
      const double across = 2.0 * x / FRAME_WIDTH - 1, down = 2.0 * y / FRAME_HEIGHT - 1;
      const double light = 1 + (LIGHT_ACROSS * across + LIGHT_DOWN * down) / 100;
      pixels.push_back(beside(lit(SCREEN, light), grain, g));
    }
  return pixels;
}

// The colours of picked pixels: one in each of n parts of the width, at any height, so that dark and bright ones are
// there.
inline Colours picked(const Colours& pixels, size_t n) {
  std::mt19937 g(14);
  Colours samples;
  for (size_t i = 0; i < n; i++) {
    const size_t x = (i * FRAME_WIDTH + g() % FRAME_WIDTH) / n, y = g() % FRAME_HEIGHT;
    samples.push_back(pixels[y * FRAME_WIDTH + x]);
  }
  return samples;
}
