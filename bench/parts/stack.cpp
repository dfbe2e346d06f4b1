// How much stack the calls take, on sets and tables where that is much.
#include "../shared/hard_tables.hpp"
#include "../shared/library.hpp"
#include "../shared/sheets.hpp"
#include "parts.hpp"

using Bytes = std::vector<std::optional<size_t>>;
using library::Loaded;

// Tags that differ in their highest bits alone: where tags are compared digit by digit, lowest first, these part last.
static Tag high_tag(u32 row) { return row * (MOST_TAG / SAMPLES + 1); }

static void took(Bytes& bytes, std::function<void()> call) { bytes.push_back(stack_of(call)); }

static Bytes stack_of_changes(const Colours& colours, u32 bucket) {
  const Samples samples = tagged(colours, high_tag);
  const u32 last = SAMPLES - 1;
  Tables t = build(samples, bucket);
  Sheet sheet = sheet_of(samples), twice = sheet;
  print_line(&twice[line_start(last)], {samples[0].tag, samples[last].colour}, "A001");
  Bytes bytes;
  took(bytes, [&] { must(library::rebuild(t, SAMPLES) == 0, "a call answers otherwise"); });
  took(bytes, [&] { must(library::check(t) == 1, "a call answers otherwise"); });
  must(library::remove(t, samples[last].tag) == 0, "refused");
  took(bytes, [&] { must(library::add(t, samples[last]) == 0, "a call answers otherwise"); });
  took(bytes, [&] { must(library::remove(t, samples[0].tag) == 0, "a call answers otherwise"); });
  must(library::clear(t) == 0, "refused");
  took(bytes, [&] { must(library::load(t, sheet) == Loaded{0, SAMPLES}, "a call answers otherwise"); });
  must(library::clear(t) == 0, "refused");
  took(bytes, [&] { must(library::load(t, twice) == Loaded{5, last}, "a call answers otherwise"); });
  return bytes;
}

// Where nearest is asked from: the middle, some samples, and colours that differ from one of them in one bit of red:
// the way to such a colour leaves the way to the sample at each depth in turn.
static std::vector<Nearest> centres(const Tables& t) {
  std::vector<Nearest> all = {FROM_MIDDLE};
  auto add = [&](u32 red, u32 green, u32 blue) { all.push_back({{{{red, green, blue}}, ANY_RADIUS}}); };
  for (u32 row = 0; row < SAMPLES; row += SAMPLES / 4) {
    const u32* c = sample_codes(t.samples.data(), row);
    add(c[0], c[1], c[2]);
    for (u32 bit = 0; bit < CODE_BITS; bit++) add(c[0] ^ 1u << bit, c[1], c[2]);
  }
  return all;
}

// Whether a query was answered is asked after the call, whose frame then is no larger for it.
static void stack_of_queries(Bytes& bytes, const Tables& t) {
  Library library(t, SAMPLES), shorter(t, 100);
  auto answered = [&] { must(library.number == 0, "a query is refused"); };
  took(bytes, [&] { library.ask(WIDE_BALL); });
  answered();
  const u32 in_ball = library.listed;
  took(bytes, [&] { library.ask(box_like(WIDE_BALL)); });
  answered();
  took(bytes, [&] { shorter.ask(WIDE_BALL); });
  must(shorter.number == (in_ball > 100 ? 13 : 0), "a short listing gets another number");
  size_t most = 0;
  for (auto& q : centres(t)) {
    most = std::max(most, stack_of([&] { library.ask(q); }));
    answered();
  }
  bytes.push_back(most);
}

static StackTable::Case of_set(const char* name, const Colours& colours, u32 bucket) {
  Bytes bytes = stack_of_changes(colours, bucket);
  stack_of_queries(bytes, build_rows(colours, bucket));
  return {name, bytes};
}

// Of words that are no sound tables only queries are of interest: the other calls refuse them.
static StackTable::Case of_words(const char* name, const Tables& t) {
  Bytes bytes(6);
  stack_of_queries(bytes, t);
  return {name, bytes};
}

StackTable measure_stack() {
  return {{"build", "check", "add", "remove", "load", "load refused by 5", "ball", "box", "ball, listing of 100 words",
           "nearest"},
          {
              of_set("scattered", scattered(), BUCKET),
              of_set("clustered", clustered(), BUCKET),
              of_set("deepest tree, bucket size 1", paired(), 1),
              of_set("deepest tree on the ball's surface", on_surface(), 1),
              of_set("deepest tree, all equally far", equally_far(), 1),
              of_set("deepest tree, others beside the way down at every depth", closing_in(), 1),
              of_words("words that lead to every octant row on that surface", leading_through_surface()),
              of_words("words that lead to every octant row", leading_before_corner()),
              of_words("words that lead down, and off the way at every depth", leading_down_and_off()),
          }};
}
