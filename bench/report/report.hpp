// What was measured, as tables, as a page with the machine's description, and as a plot.
#pragma once

#include "../measure/table.hpp"
#include "../parts/parts.hpp"

struct Report {
  Rows ratios, frame, growth, dearest;
  StackTable stack;
};

// The library's time in each measurement, and how many times as long as each other's that is.
Table ratio_table(const Rows& rows);
// The same of a frame, with the time of one pixel.
Table frame_table(const Rows& rows);
// Everyone's best times by the number of samples, and the factor from the fewest to the most.
Table growth_table(const Rows& rows);
Table dearest_table(const Rows& rows);
Table stack_table(const StackTable& stack);

// The machine, the compiler and the other libraries, a line each.
std::vector<std::string> machine();
// What to install to have the missing libraries measured; empty where none is missing.
std::string missing();

// Time against the number of samples, drawn.
std::string growth_plot(const Rows& rows);

// Writes BENCHMARK.md and benchmark.svg.
void write_pages(const Report& report, const std::string& folder);
