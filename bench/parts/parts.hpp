// The parts of the benchmark. Each compares what the others answer with the library's answers first, and then times
// them; what it gives are rows for a table.
#pragma once

#include "../measure/measure.hpp"
#include "../shared/sets.hpp"

// Names looked up, lines written, floats to codes and back.
Rows measure_sheets();
// Tables built and cleared.
Rows measure_tables();
// Samples added, removed and loaded, tables checked.
Rows measure_changes();
// Balls, boxes and nearest.
Rows measure_queries();
// Nearest of every pixel of a frame.
Rows measure_frame();
// Loads, checks, changes and queries of sets of more and more samples.
Rows measure_growth();
// The sound tables that are dearest to ask, and words that are no sound tables.
Rows measure_dearest();

// The bytes of stack that each call takes, on sets and tables where that is much.
struct StackTable {
  std::vector<std::string> calls;
  struct Case {
    std::string tables;
    std::vector<std::optional<size_t>> bytes;
  };
  std::vector<Case> cases;
};
StackTable measure_stack();

// How long the tables are that a set is in: just long enough for it, or as long as a set can need.
enum Lengths { JUST_ENOUGH, LONGEST };
// Check, add and remove, beside a build by C++.
Rows race_changes(const Race& how, const Samples& samples, Lengths lengths);
// A load into empty tables, beside C++ that reads the sheet and builds.
Rows race_loads(const Race& how, const Samples& samples, Lengths lengths);
