// How fast a whole frame is keyed: the nearest sample of every pixel, in the sequence of the pixels, beside the same
// others as nearest elsewhere.
#include "../shared/frame.hpp"

#include "../shared/asking.hpp"
#include "parts.hpp"

// A few picks, a shot that is worked on, and a sheet of many shots.
const size_t PICKED[] = {6, 50, 500};

static std::vector<Nearest> of_each(const Colours& pixels, u32 radius) {
  std::vector<Nearest> queries;
  for (auto& pixel : pixels) queries.push_back({{pixel, radius}});
  return queries;
}

Rows measure_frame() {
  Rows rows;
  const Colours pixels = frame();
  for (size_t n : PICKED) {
    Set set("picked", picked(pixels, n));
    for (u32 radius : NEAREST_RADII)
      append(rows,
             ask_all("frame, " + within(radius), set, of_each(pixels, radius), true, FRAME_ROUNDS, FRAME_WARM_UP));
  }
  return rows;
}
