// What a query can cost at most: on sound tables and on words that are none, all as long as a set can need, the dearest
// of each that were found.
#include "../measure/table.hpp"
#include "../shared/hard_tables.hpp"
#include "parts.hpp"

template <class Query>
static Way asking(std::string what, const Tables& t, const Query& q) {
  Library library(t, SAMPLES);
  library.ask(q);
  must(library.number == 0, "refused");
  if (library.entered > 0) what += "; entered " + grouped(library.entered) + ", measured " + grouped(library.measured);
  return {LIBRARY, what, [library, q]() mutable { sink = library.ask(q); }};
}

Rows measure_dearest() {
  const Box everything = {{{0, 0, 0}}, {{MOST_CODE, MOST_CODE, MOST_CODE}}};
  const Tables sound = longest(build_rows(scattered()));
  const Tables surface = longest(build_rows(on_surface(), 1)), far = longest(build_rows(equally_far(), 1));
  const Tables anywhere = pointing_anywhere(), through = leading_through_surface(), before = leading_before_corner();
  const Tables back = leading_back();
  return race({"Dearest tables", SAMPLES, ""},
              {
                  asking("ball; sound, deepest tree on the ball's surface", surface, WIDE_BALL),
                  asking("ball; any words", anywhere, WIDE_BALL),
                  asking("ball; words that lead to every octant row", through, WIDE_BALL),
                  asking("box of everything; sound, scattered", sound, everything),
                  asking("box of everything; any words", anywhere, everything),
                  asking("nearest; sound, scattered", sound, FROM_MIDDLE),
                  asking("nearest; sound, all equally far, deepest tree", far, FROM_MIDDLE),
                  asking("nearest; any words", anywhere, FROM_MIDDLE),
                  asking("nearest; words that lead to every octant row", before, FROM_MIDDLE),
                  asking("nearest; words that lead to one row every time", back, FROM_MIDDLE),
              });
}
