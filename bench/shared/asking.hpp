// Queries of a set, raced: the library beside C++ by hand over the same tables and all others that answer them. What
// each lists or finds is compared with the library's first.
#pragma once

#include <iterator>
#include <type_traits>

#include "../measure/table.hpp"
#include "peers.hpp"

// A set in everyone's form. Tags are the rows.
struct Set {
  std::string kind;
  Colours colours;
  Tables tables;
  Peers peers;

  Set(const std::string& name, Colours samples)
      : kind(name), colours(std::move(samples)), tables(build_rows(colours)), peers(colours) {}
  Set(const Kind& k, size_t n) : Set(k.name, k.colours(n)) {}
  Set(const Set&) = delete;
};

// The radii that nearest is asked with: one that a colourist might draw, and the greatest.
const u32 NEAREST_RADII[] = {2048, ANY_RADIUS};

inline std::string within(u32 radius) { return radius == ANY_RADIUS ? "any radius" : "radius " + grouped(radius); }

// Centres near samples: so far off in each channel, by the standard deviation.
template <class Query>
std::vector<Query> around(const Colours& colours, double codes_off, u32 radius) {
  std::mt19937 g(9);
  std::normal_distribution<double> off(0, codes_off);
  std::vector<Query> queries(QUERIES);
  for (auto& q : queries) {
    const Colour& sample = colours[g() % colours.size()];
    q.centre = beside(sample, off, g);
    q.radius = radius;
  }
  return queries;
}

inline std::vector<Box> boxes_like(const std::vector<Ball>& balls) {
  std::vector<Box> boxes;
  for (auto& ball : balls) boxes.push_back(box_like(ball));
  return boxes;
}

// Whether two distances are the same but for rounding.
inline bool alike(double a, double b) { return std::fabs(a - b) <= 1e-6 * b; }

// Whether a colour may be in or out, floats being rounded.
inline bool at_edge(const Ball& q, const Colour& x) { return alike(distance(x, q.centre), q.r2()); }
inline bool at_edge(const Box&, const Colour&) { return false; }

// Whether the other lists the rows that the library does, but for those at the edge.
template <class Query, class Other>
bool agree(const Query& q, Library& library, Other& other, const Colours& colours) {
  library.ask(q);
  other.ask(q);
  std::vector<u32> ours = library.rows(), theirs = other.rows(), apart;
  std::sort(ours.begin(), ours.end());
  std::sort(theirs.begin(), theirs.end());
  std::set_symmetric_difference(ours.begin(), ours.end(), theirs.begin(), theirs.end(), std::back_inserter(apart));
  return std::all_of(apart.begin(), apart.end(), [&](u32 row) { return at_edge(q, colours[row]); });
}

// Whether what the other finds is as far; where none is found, that is the radius.
template <class Other>
bool agree(const Nearest& q, Library& library, Other& other, const Colours& colours) {
  auto far = [&](u32 row) { return row == NONE ? (double)q.r2() : (double)distance(colours[row], q.centre); };
  return alike(far(other.ask(q)), far(library.ask(q)));
}

template <class Query, class Asker>
Way asking(Who who, const std::string& what, Asker& asker, const std::vector<Query>& queries,
           bool only_details = false) {
  auto run = [&asker, &queries] {
    u64 n = 0;
    for (auto& q : queries) n += asker.ask(q);
    sink = n;
  };
  return {who, what, run, {}, only_details};
}

template <class Peer, class Query, class = void>
struct Answers : std::false_type {};
template <class Peer, class Query>
struct Answers<Peer, Query, std::void_t<decltype(std::declval<Peer&>().ask(std::declval<const Query&>()))>>
    : std::true_type {};

// That C++ by hand, and the library with a listing too short for one pass, answer as the library does. Gives how many
// are listed, or found, on the average.
template <class Query>
double compare(const std::string& what, Library& library, Library& shorter, ByHand& by_hand,
               const std::vector<Query>& queries) {
  u64 hits = 0;
  for (auto& q : queries) {
    library.ask(q), by_hand.ask(q), shorter.ask(q);
    if (!library.same(by_hand)) fail(what + ": C++ answers otherwise");
    if (!library.same(shorter)) fail(what + ": with a shorter listing the library answers otherwise");
    hits += library.listed + library.found;
  }
  return (double)hits / queries.size();
}

// Asks each of the queries of everyone. `what` gets how many are listed after it, or how many of a hundred are found.
template <class Query>
Rows ask_all(const std::string& what, Set& set, const std::vector<Query>& queries, bool say_hits = false,
             int rounds = QUERY_ROUNDS, int warm_up = QUERY_WARM_UP) {
  const size_t n = set.colours.size();
  const bool finds = std::is_same_v<Query, Nearest>;
  Library library(set.tables, n), shorter(set.tables, n - 1);
  ByHand by_hand(set.tables, n);
  const double hits = compare(what, library, shorter, by_hand, queries);
  const std::string said = finds ? whole_or_tenth(100 * hits) + "% find one" : whole_or_tenth(hits) + " listed";
  std::vector<Way> ways = {asking(CPP, "on the same tables", by_hand, queries),
                           asking(LIBRARY, say_hits ? what + "; " + said : what, library, queries)};
  if (!finds) ways.push_back(asking(LIBRARY, "listing too short for one pass", shorter, queries, true));
  set.peers.each([&](Who who, auto& peer) {
    if constexpr (Answers<decltype(peer), Query>::value) {
      for (auto& q : queries)
        if (!agree(q, library, peer, set.colours)) fail(what + ": " + NAMES[who] + " answers otherwise");
      ways.push_back(asking(who, "its own form", peer, queries));
    }
  });
  return race({what + ", " + set.kind, n, set.kind, rounds, warm_up, (int)queries.size()}, ways);
}
