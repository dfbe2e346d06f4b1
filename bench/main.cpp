// The benchmark: the library beside hand-written C++ over the same tables, nanoflann, FLANN and a straight scan. Prints
// tables of ratios, of a frame, of how cost grows, and of stack; in a folder that is given it writes them as
// BENCHMARK.md, with a plot, benchmark.svg. `make bench` does so in docs.
#include <chrono>
#include <cstdio>

#include "report/report.hpp"

const char* const USAGE =
    "bench [--details] [--quick] [FOLDER]\n"
    "  --details  print every way of every race\n"
    "  --quick    a tenth of the rounds\n"
    "  FOLDER     where to write BENCHMARK.md and benchmark.svg\n";

// The folder that is given, if any.
static std::string read_arguments(int count, char** arguments) {
  std::string folder;
  for (int i = 1; i < count; i++) {
    const std::string argument = arguments[i];
    if (argument == "--details")
      options.details = true;
    else if (argument == "--quick")
      options.quick = true;
    else if (argument[0] != '-' && folder.empty())
      folder = argument;
    else
      fail("what is " + argument + "?\n" + USAGE);
  }
  return folder;
}

template <class Measure>
static auto part(const char* name, Measure measure) {
  const auto start = std::chrono::steady_clock::now();
  printf("%s%s", name, options.details ? "\n" : " ...");
  fflush(stdout);
  auto measured = measure();
  printf(" %.0f s\n", std::chrono::duration<double>(std::chrono::steady_clock::now() - start).count());
  return measured;
}

static Report measure_all() {
  Report report;
  append(report.ratios, part("sheets", measure_sheets));
  append(report.ratios, part("tables", measure_tables));
  append(report.ratios, part("changes", measure_changes));
  append(report.ratios, part("queries", measure_queries));
  report.frame = part("frame", measure_frame);
  report.growth = part("growth", measure_growth);
  report.dearest = part("dearest tables", measure_dearest);
  report.stack = part("stack", measure_stack);
  return report;
}

static void print(const char* title, const Table& table) { printf("\n%s\n%s", title, as_text(table).c_str()); }

int main(int count, char** arguments) {
  const std::string folder = read_arguments(count, arguments);
  if (!missing().empty()) printf("%s\n", missing().c_str());
  const Report report = measure_all();
  print("Growth: best rounds", growth_table(report.growth));
  print("Dearest tables: best round (median)", dearest_table(report.dearest));
  print("Stack", stack_table(report.stack));
  print("Ratios: the library's time over the other's, best rounds (medians)", ratio_table(report.ratios));
  print("Frame: nearest of every pixel, best rounds (medians)", frame_table(report.frame));
  if (!missing().empty()) printf("%s\n", missing().c_str());
  if (folder.empty()) return 0;
  write_pages(report, folder);
  printf("\nWritten: %s/BENCHMARK.md, %s/benchmark.svg\n", folder.c_str(), folder.c_str());
}
