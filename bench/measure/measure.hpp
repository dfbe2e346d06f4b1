// What all parts share: ways that take turns and are timed, the rows that come of it, and the stack that a call takes.
#pragma once

#include <array>
#include <cstdint>
#include <functional>
#include <optional>
#include <string>
#include <vector>

// Whose time it is.
enum Who { LIBRARY, CPP, NANOFLANN, FLANN, SCAN, EVERYONE };
const char* const NAMES[EVERYONE] = {"library", "C++", "nanoflann", "FLANN", "straight scan"};

// What the command line asks for: every way of every race printed; a tenth of the rounds.
struct Options {
  bool details = false, quick = false;
};
inline Options options;

// Where answers go, so that the compiler leaves no call out.
inline volatile uint64_t sink;

// Ends the program where it is not so. (Costs nothing where it is: calls that are timed are tested by it.)
[[noreturn]] void fail(const char* what);
[[noreturn]] inline void fail(const std::string& what) { fail(what.c_str()); }
inline void must(bool so, const char* what) {
  if (!so) fail(what);
}

// What is timed, and what is done before it each time. The library's ways are rows of a table, but for those that are
// only details.
struct Way {
  Who who;
  std::string what;
  std::function<void()> run;
  std::function<void()> prepare = {};
  bool only_details = false;
};

// The time of one call in the best round and in the median one, in seconds.
struct Time {
  double best, median;
};

// A measurement: what the library does, with how many samples or lines, of which colours, and everyone's time for it.
struct Row {
  std::string what;
  size_t n;
  std::string colours;
  std::array<std::optional<Time>, EVERYONE> by;
};
using Rows = std::vector<Row>;

inline void append(Rows& to, const Rows& more) { to.insert(to.end(), more.begin(), more.end()); }

const int ROUNDS = 300, WARM_UP = 20;
// A round of queries is so many of them.
const int QUERIES = 4000, QUERY_ROUNDS = 40, QUERY_WARM_UP = 3;
// A round of a frame is all its pixels, and comparing the answers has warmed up.
const int FRAME_ROUNDS = 7, FRAME_WARM_UP = 0;

// So many rounds as the command line leaves of them: at least one, if there are any.
inline int rounds_left(int rounds) { return options.quick ? (rounds + 9) / 10 : rounds; }

// How ways are raced: rounds, those before them that do not count, and how many calls a run is.
struct Race {
  std::string title;
  size_t n;
  std::string colours;
  int rounds = ROUNDS, warm_up = WARM_UP, calls = 1;
};

// Runs each way once a round, in turn, so that what else the machine does weighs on all of them. Gives a row for each
// of the library's ways, beside the first way of everyone else.
Rows race(const Race& how, const std::vector<Way>& ways);

// The bytes of stack that a call takes: those of a thread's stack that no longer hold what they were filled with, less
// those of a call that does nothing.
size_t stack_of(std::function<void()> call);
