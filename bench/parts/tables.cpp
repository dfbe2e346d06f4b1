// How fast tables are built and cleared, beside hand-written C++ (by_hand/build.hpp). nanoflann and FLANN build their
// own index of the same colours.
#include "../shared/library.hpp"
#include "../shared/peers.hpp"
#include "parts.hpp"

// An index built, and asked once so that the build is not left out.
template <class Peer>
static Way building(Who who, const Colours& colours) {
  const u32 row = Peer(colours).ask(Nearest{{colours[0], ANY_RADIUS}});
  must(row != NONE && distance(colours[row], colours[0]) == 0, "an index finds otherwise");
  return {who, "its own index", [&colours] { sink = Peer(colours).ask(Nearest{{colours[0], ANY_RADIUS}}); }};
}

static std::vector<Way> others_building(const Colours& colours) {
  (void)colours;
  return {
#ifdef HAS_NANOFLANN
      building<Nanoflann>(NANOFLANN, colours),
#endif
#ifdef HAS_FLANN
      building<Flann>(FLANN, colours),
#endif
  };
}

static Rows race_builds(const Kind& kind) {
  const Colours colours = kind.colours(SAMPLES);
  const Samples samples = tagged(colours, row_tag);
  const Tables full = build(samples, BUCKET), full_longest = longest(full);
  Tables t = full, u = full_longest, v = full_longest;
  must(library::rebuild(t, SAMPLES) == 0 && same_tables(t, full), "the library builds other tables");
  must(library::rebuild(u, SAMPLES) == 0 && same_tables(u, v), "the library builds other long tables");
  std::vector<Way> ways = {
      {CPP, "build", [&] { sink = octant_count(build(samples, BUCKET).octants.data()); }},
      {LIBRARY, "build", [&] { must(library::rebuild(t, SAMPLES) == 0, "refused"); }},
  };
  for (auto& way : others_building(colours)) ways.push_back(way);
  Rows rows = race({std::string("Build, ") + kind.name, SAMPLES, kind.name}, ways);
  append(rows, race({std::string("Build, longest tables, ") + kind.name, SAMPLES, kind.name},
                    {
                        {CPP, "build, copied, zeros after it", [&] { copy_padded(build(samples, BUCKET), v); }},
                        {LIBRARY, "build, longest tables", [&] { must(library::rebuild(u, SAMPLES) == 0, "refused"); }},
                    }));
  return rows;
}

static void clear_by_hand(Tables& t) {
  std::fill(t.samples.begin(), t.samples.end(), 0);
  std::fill(t.octants.begin(), t.octants.end(), 0);
  set_sample_header(t.samples.data(), 0, t.bucket);
}

static Rows race_clears(const std::string& what, const Tables& full) {
  Tables t = full, u = full;
  clear_by_hand(u);
  must(library::clear(t) == 0 && same_tables(t, u), "C++ clears to other tables");
  return race({what, SAMPLES, ""}, {
                                       {CPP, "zeros, and the bucket size",
                                        [&] {
                                          clear_by_hand(u);
                                          sink = octant_count(u.octants.data());
                                        }},
                                       {LIBRARY, what, [&] { must(library::clear(t) == 0, "refused"); }},
                                   });
}

Rows measure_tables() {
  Rows rows;
  for (auto& kind : KINDS) append(rows, race_builds(kind));
  const Tables full = build_rows(scattered());
  append(rows, race_clears("clear", full));
  append(rows, race_clears("clear, longest tables", longest(full)));
  return rows;
}
