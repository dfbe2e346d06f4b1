#include <fstream>

#include "../shared/frame.hpp"
#include "report.hpp"

// The page's words; a name in braces is a number that `filled` puts there.
static const char* const HOW_MEASURED = R"(# Benchmark

All of it is one run of one program (`make bench`, `bench/`). For each measurement the ways take turns: each is run once
a round, so that what else the machine does weighs on all of them. A time is in microseconds, that of the best of
{rounds} rounds and, in brackets, of the median one; of queries, {query rounds} rounds of {queries} each. A ratio is the
library's time over the other's, by the best rounds and, in brackets, by the medians: below 1 the library is faster.
What each other answers is compared with the library's answer before it is timed.

The bucket size is {bucket}. Scattered colours are anywhere, clustered ones around twelve. Tables are just long enough
for the set; the longest have {sample words} and {octant words} words, as many as a set can need.

- **C++** is written by hand (`bench/by_hand/`), over the same tables, and as strict about sheets and panel floats. It
  trusts every word of the tables that it finds, and looks for no tag that is there twice. Beside check, add and remove
  it is one build of the tables; beside a load, the sheet read and one build.
- **nanoflann** and **FLANN** have k-d trees with leaves of 10 samples, over floats. Beside a build it is the build of
  their own index. FLANN's search for one neighbour takes no radius.
- The **straight scan** goes through all samples, in an array for each channel; for balls and nearest it measures them
  in floats.

– stands where there is no such call.
)";

static const char* const RATIOS = R"(
## Ratios

n is the number of lines, colours or samples. A lookup reads n lines; lines written, floats to codes and codes to floats
are n calls, and all else is one call. Centres are so many codes off a sample in each channel, by the standard
deviation; those of balls and boxes 400. Where tables are the longest, C++ builds its own, copies them there and writes
zeros after them.

)";

static const char* const FRAME = R"(
## Frame

A key asks about every pixel of a frame. This frame has {frame width} × {frame height} pixels, and a green screen fills
it. So its colours are one tight cluster. The light changes slowly: by {light across}% from the middle to each side, and
by {light down}% from the middle to the top and to the bottom. Each pixel has grain: normal noise of {grain} codes in
each channel, by the standard deviation. The n samples are the colours of pixels picked all over the frame. Nearly all
other pixels are some codes off every sample.

The nearest sample of each pixel is asked, line by line. A time here is that of one pixel, in nanoseconds. Rounds:
{frame rounds}, each of all {frame pixels} pixels.

)";

static const char* const GROWTH = R"(
## Growth

Best rounds. A load is of n lines into an empty set; a check, an add and a remove are of a set of n samples; balls have
radius 2,048 and boxes their size; nearest has any radius; centres are 400 codes off samples. The factor is from the
fewest samples to the most.

![Time of a call against the number of samples](benchmark.svg)

)";

static const char* const DEAREST = R"(
## Dearest tables

The dearest queries that were found, on sound tables and on words that are none: {samples} samples in the longest
tables.

)";

static const char* const STACK = R"(
## Stack

The bytes of stack that a call took, with the few that the benchmark needs to make it; {samples} samples. Nearest is
asked with any radius, from many centres: a colour in the middle, samples, and colours that differ from a sample in one
bit of red. The most that one of these calls took stands here.

)";

static std::string filled(std::string text) {
  const std::pair<const char*, size_t> numbers[] = {{"{rounds}", rounds_left(ROUNDS)},
                                                    {"{query rounds}", rounds_left(QUERY_ROUNDS)},
                                                    {"{queries}", QUERIES},
                                                    {"{frame rounds}", rounds_left(FRAME_ROUNDS)},
                                                    {"{frame width}", FRAME_WIDTH},
                                                    {"{frame height}", FRAME_HEIGHT},
                                                    {"{frame pixels}", FRAME_PIXELS},
                                                    {"{light across}", LIGHT_ACROSS},
                                                    {"{light down}", LIGHT_DOWN},
                                                    {"{grain}", GRAIN},
                                                    {"{bucket}", BUCKET},
                                                    {"{samples}", SAMPLES},
                                                    {"{sample words}", SAMPLE_WORDS},
                                                    {"{octant words}", OCTANT_WORDS}};
  for (auto& number : numbers)
    for (size_t at; (at = text.find(number.first)) != std::string::npos;)
      text.replace(at, std::string(number.first).size(), grouped(number.second));
  return text;
}

static std::string page(const Report& report) {
  std::string text = filled(HOW_MEASURED) + "\n## Machine\n\n";
  for (auto& line : machine()) text += "- " + line + "\n";
  if (!missing().empty()) text += "\n" + missing() + "\n";
  text += RATIOS + as_markdown(ratio_table(report.ratios));
  text += filled(FRAME) + as_markdown(frame_table(report.frame));
  text += GROWTH + as_markdown(growth_table(report.growth));
  text += filled(DEAREST) + as_markdown(dearest_table(report.dearest));
  text += filled(STACK) + as_markdown(stack_table(report.stack));
  return text;
}

static void write(const std::string& file, const std::string& text) {
  std::ofstream out(file);
  out << text;
  out.close();
  if (!out.good()) fail("cannot write " + file);
}

void write_pages(const Report& report, const std::string& folder) {
  write(folder + "/BENCHMARK.md", page(report));
  write(folder + "/benchmark.svg", growth_plot(report.growth));
}
