#include "report.hpp"

static std::string shown(const std::string& text) { return text.empty() ? NOTHING : text; }

// How many of them are a second.
const double MICROSECONDS = 1e6, NANOSECONDS = 1e9;

static std::string both_times(const Time& time, double unit) {
  return with_median(three_digits(time.best * unit), three_digits(time.median * unit));
}

static std::string ratio(double over) {
  char text[40];
  snprintf(text, sizeof text, "%.2f", over);
  return text;
}

static std::string both_ratios(const Time& ours, const std::optional<Time>& theirs) {
  if (!theirs) return NOTHING;
  return with_median(ratio(ours.best / theirs->best), ratio(ours.median / theirs->median));
}

using Cells = std::vector<std::string>;

// What was measured, the library's time in such a unit, and how many times as long as each other's that is.
static Table over_others(Cells head, double unit, const Rows& rows, Cells (*measured)(const Row&)) {
  for (int who = CPP; who < EVERYONE; who++) head.push_back(std::string("over ") + NAMES[who]);
  Table table{head, {}};
  for (auto& row : rows) {
    const Time& ours = *row.by[LIBRARY];
    Cells cells = measured(row);
    cells.push_back(both_times(ours, unit));
    for (int who = CPP; who < EVERYONE; who++) cells.push_back(both_ratios(ours, row.by[who]));
    table.rows.push_back(cells);
  }
  return table;
}

Table ratio_table(const Rows& rows) {
  return over_others({"what", "n", "colours", "library, µs"}, MICROSECONDS, rows, [](const Row& row) -> Cells {
    return {row.what, grouped(row.n), shown(row.colours)};
  });
}

Table frame_table(const Rows& rows) {
  return over_others({"what", "n", "library, ns a pixel"}, NANOSECONDS, rows, [](const Row& row) -> Cells {
    return {row.what, grouped(row.n)};
  });
}

// The times of one of them for the same on more and more samples.
static Cells grown(const Rows& rows, const Row& first, Who who) {
  Cells cells = {first.what, first.colours, NAMES[who]};
  double last = 0;
  for (auto& row : rows)
    if (row.what == first.what && row.colours == first.colours) {
      last = row.by[who]->best;
      cells.push_back(three_digits(last * MICROSECONDS));
    }
  cells.push_back(three_digits(last / first.by[who]->best));
  return cells;
}

Table growth_table(const Rows& rows) {
  Table table{{"what, µs", "colours", "whose"}, {}};
  const size_t fewest = rows[0].n;
  size_t most = 0;
  for (auto& row : rows)
    if (row.n > most) table.head.push_back("n = " + grouped(most = row.n));
  table.head.push_back("factor");
  for (auto& row : rows)
    if (row.n == fewest)
      for (Who who : {LIBRARY, CPP, NANOFLANN, SCAN})
        if (row.by[who]) table.rows.push_back(grown(rows, row, who));
  return table;
}

Table dearest_table(const Rows& rows) {
  Table table{{"query and tables", "library, µs"}, {}};
  for (auto& row : rows) table.rows.push_back({row.what, both_times(*row.by[LIBRARY], MICROSECONDS)});
  return table;
}

Table stack_table(const StackTable& stack) {
  Table table{{"tables, bytes"}, {}};
  for (auto& call : stack.calls) table.head.push_back(call);
  for (auto& one : stack.cases) {
    Cells cells = {one.tables};
    for (auto& bytes : one.bytes) cells.push_back(bytes ? grouped(*bytes) : NOTHING);
    table.rows.push_back(cells);
  }
  return table;
}
