// How fast tables are checked and samples added, removed and loaded, beside hand-written C++ that builds the same
// tables (by_hand/build.hpp) and reads the same sheet (by_hand/sheets.hpp). The C++ trusts the tables that it finds,
// and but for one way that says so looks for no tag that is there twice; the library checks every word first.
#include <unordered_set>

#include "../shared/library.hpp"
#include "../shared/sheets.hpp"
#include "parts.hpp"

using library::Loaded;

static const char* suffix(Lengths lengths) { return lengths == LONGEST ? ", longest tables" : ""; }

// The tables of these samples, and tables of the same lengths that C++ copies its own to where they are longer.
struct Built {
  Tables full, room;
  Lengths lengths;

  Built(const Samples& samples, Lengths how_long) : full(build(samples, BUCKET)), lengths(how_long) {
    if (lengths == LONGEST) full = longest(full);
    room = full;
  }
  u32 keep(const Tables& t) {
    if (lengths == LONGEST) copy_padded(t, room);
    return octant_count(t.octants.data());
  }
  // The tables of fewer samples, as long as these.
  Tables padded(const Samples& fewer) const {
    Tables t = full;
    copy_padded(build(fewer, BUCKET), t);
    return t;
  }
};

// A set that each round finds full, or without the sample that is to be added.
struct Changed {
  Tables t;
  size_t most;
  Sample sample;

  Changed(const Tables& full, const Sample& x) : t(full), most(sample_count(full.samples.data())), sample(x) {}
  void add() { must(library::add(t, sample) == 0, "an add is refused"); }
  void remove() { must(library::remove(t, sample.tag) == 0, "a remove is refused"); }
  void fill() {
    if (sample_count(t.samples.data()) < most) add();
  }
  // The sample that was removed is at the end now, and another one first.
  void fill_and_take_first() {
    fill();
    const u32 *s = t.samples.data(), *c = sample_codes(s, 0);
    sample = {sample_tag(s, 0), {{c[0], c[1], c[2]}}};
  }
};

Rows race_changes(const Race& how, const Samples& samples, Lengths lengths) {
  Built built(samples, lengths);
  Changed adding(built.full, samples.back()), last(built.full, samples.back()), first(built.full, samples[0]);
  adding.remove(), adding.add();
  must(same_tables(adding.t, built.full), "the library's tables are not those by C++");
  first.remove();
  must(same_tables(first.t, built.padded({samples.begin() + 1, samples.end()})), "C++ has other tables after a remove");
  const std::string longer = suffix(lengths);
  return race(how, {
                       {CPP, "build" + longer, [&] { sink = built.keep(build(samples, BUCKET)); }},
                       {LIBRARY, "check" + longer, [&] { must(library::check(built.full) == 1, "not sound"); }},
                       {LIBRARY, "add one" + longer, [&] { adding.add(); }, [&] { adding.remove(); }},
                       {LIBRARY, "remove one" + longer, [&] { first.remove(); }, [&] { first.fill_and_take_first(); }},
                       {LIBRARY, "remove the last" + longer, [&] { last.remove(); }, [&] { last.fill(); }, true},
                   });
}

static bool no_tag_twice(const Samples& samples) {
  std::unordered_set<Tag> tags(2 * samples.size());
  for (auto& sample : samples)
    if (!tags.insert(sample.tag).second) return false;
  return true;
}

// A load of a sheet into empty tables.
static Way loading(const std::string& what, Tables& t, const Sheet& sheet, Loaded wanted, bool only_details) {
  return {LIBRARY, what, [&t, &sheet, wanted] { must(library::load(t, sheet) == wanted, "a load answers otherwise"); },
          [&t] { must(library::clear(t) == 0, "a clear is refused"); }, only_details};
}

Rows race_loads(const Race& how, const Samples& samples, Lengths lengths) {
  Built built(samples, lengths);
  const Sheet sheet = sheet_of(samples);
  const u32 n = samples.size();
  Tables t = built.full;
  must(library::clear(t) == 0 && library::load(t, sheet) == Loaded{0, n}, "a load is refused");
  must(same_tables(t, built.full), "the library loads other tables");
  must(same_tables(Built(read_sheet(sheet), lengths).full, built.full), "C++ loads other tables");
  return race(how, {
                       {CPP, "parse and build", [&] { sink = built.keep(build(read_sheet(sheet), BUCKET)); }},
                       loading(std::string("load") + suffix(lengths), t, sheet, {0, n}, false),
                   });
}

static u32 octants(const Samples& samples, size_t n) {
  return octant_count(build({samples.begin(), samples.begin() + n}, BUCKET).octants.data());
}

// The samples in another sequence: the last is one that an octant is there for.
static Samples with_last_apart(Samples samples) {
  const size_t n = samples.size();
  const u32 all = octants(samples, n);
  for (auto& x : samples) {
    std::swap(x, samples.back());
    if (octants(samples, n - 1) < all) return samples;
    std::swap(x, samples.back());
  }
  fail("no colour has an octant of its own");
}

// Loads that are refused, and what else C++ can do with a sheet: details.
static void race_refusals(const Race& how, const Samples& samples) {
  const u32 n = samples.size(), last = n - 1;
  const Sheet sheet = sheet_of(samples);
  Sheet bad = sheet, twice = sheet;
  bad[bad.size() - 1] = ' ';
  print_line(&twice[line_start(last)], {samples[0].tag, samples[last].colour}, "A001");
  must(read_sheet(sheet).size() == n && read_sheet(bad).size() == last, "C++ reads other lines");
  must(no_tag_twice(read_sheet(sheet)) && !no_tag_twice(read_sheet(twice)), "C++ finds other tags");

  // Octant rows that are one too few, and those of about half: the first line past half that needs one more.
  const Tables full = build(samples, BUCKET);
  Tables t = full, u = full, v = full, w = full;
  u32 half = n / 2;
  while (octants(samples, half + 1) == octants(samples, half)) half++;
  v.octants.resize(octant_words(octants(samples, n) - 1));
  w.octants.resize(octant_words(octants(samples, half)));
  race(how, {
                {CPP, "parse and build", [&] { sink = octant_count(build(read_sheet(sheet), BUCKET).octants.data()); }},
                loading("refused by 12 at the last line", t, bad, {12, last}, true),
                loading("refused by 5 at the last line", u, twice, {5, last}, true),
                loading("refused by 7 at the last line", v, sheet, {7, last}, true),
                loading("refused by 7 at line " + std::to_string(half), w, sheet, {7, half}, true),
                {CPP, "parse, no tag twice, and build",
                 [&] {
                   const Samples lines = read_sheet(sheet);
                   must(no_tag_twice(lines), "a tag twice");
                   sink = octant_count(build(lines, BUCKET).octants.data());
                 }},
                {CPP, "parse alone", [&] { sink = read_sheet(sheet).size(); }},
            });
}

Rows measure_changes() {
  Rows rows;
  for (auto& kind : KINDS) {
    const Samples samples = with_last_apart(tagged(kind.colours(SAMPLES), spread_tag));
    for (Lengths lengths : {JUST_ENOUGH, LONGEST}) {
      const std::string name = kind.name + std::string(suffix(lengths));
      append(rows, race_changes({"Changes, " + name, SAMPLES, kind.name}, samples, lengths));
      append(rows, race_loads({"Loads, " + name, SAMPLES, kind.name}, samples, lengths));
    }
    race_refusals({std::string("Loads refused, ") + kind.name, SAMPLES, kind.name}, samples);
  }
  return rows;
}
