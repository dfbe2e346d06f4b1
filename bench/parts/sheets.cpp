// How fast names are looked up, lines written, and colours turned to codes and back, beside hand-written C++ that is as
// strict (by_hand/sheets.hpp, by_hand/panel.hpp). The lookup is of a tag that no line has, which reads the header and
// every line.
#include "../shared/sheets.hpp"

#include "../shared/library.hpp"
#include "parts.hpp"

const int LINES = SAMPLES;

struct Line {
  Sample sample;
  std::string name;
  const uint8_t* bytes() const { return (const uint8_t*)name.data(); }
};

// A number of so many bits, of any length.
static u32 any_number(int bits, std::mt19937& g) {
  const u32 shift = g() % bits;
  return (u32)((g() % (1ull << bits)) >> shift);
}

static std::vector<Line> any_lines() {
  std::mt19937 g(1);
  std::vector<Line> lines(LINES);
  for (auto& line : lines) {
    line.sample.tag = any_number(32, g);
    for (auto& c : line.sample.colour.c) c = any_number(CODE_BITS, g);
    line.name = any_name(g);
  }
  return lines;
}

// Writes a whole sheet, line by line.
template <class Write>
static void write_all(const std::vector<Line>& lines, Sheet& sheet, Write write) {
  for (size_t i = 0; i < lines.size(); i++) {
    uint8_t* at = &sheet[line_start(i)];
    must(write(lines[i].sample, lines[i].bytes(), lines[i].name.size(), at, LINE_LENGTH) == 0, "a line is refused");
  }
}

static bool same(const Part& a, const Part& b) { return a.start == b.start && a.length == b.length; }

// That both find the same name in a sheet of two lines with every byte changed in turn, which most often is not good.
static void compare_lookups(const Sheet& good) {
  for (size_t at = 0; at < good.size(); at++)
    for (int byte = 0; byte < 256; byte++) {
      Sheet sheet = good;
      sheet[at] = byte;
      const Samples samples = read_sheet(sheet);
      const Tag tag = samples.empty() ? 0 : samples[0].tag;
      must(same(library::name(sheet, tag), find_name(sheet, tag)), "C++ finds another name");
    }
}

// That both refuse the same lines, by the same number.
static void compare_refusals(const Line& line) {
  auto both = [](const Sample& sample, const std::string& name, size_t lent) {
    uint8_t ours[LINE_LENGTH] = {}, theirs[LINE_LENGTH] = {};
    const uint8_t* bytes = (const uint8_t*)name.data();
    u32 number = library::line(sample, bytes, name.size(), ours, lent);
    must(number == put_line(sample, bytes, name.size(), theirs, lent) && memcmp(ours, theirs, LINE_LENGTH) == 0,
         "C++ writes another line");
    return number;
  };
  Sample wrong = line.sample;
  wrong.colour.c[1] = MOST_CODE + 1;
  const size_t lent = LINE_LENGTH;
  must(both(line.sample, line.name, lent) == 0 && both(wrong, line.name, lent) == 4, "other numbers");
  must(both(line.sample, "", lent) == 10 && both(line.sample, "A 1", lent) == 10, "other numbers");
  must(both(line.sample, std::string(NAME_COLUMNS + 1, 'A'), lent) == 10, "other numbers");
  must(both(line.sample, line.name, lent - 1) == 13, "other numbers");
}

// The least tag that no line has.
static Tag absent_tag(const std::vector<Line>& lines) {
  Tag tag = 0;
  auto has = [&](const Line& line) { return line.sample.tag == tag; };
  while (std::any_of(lines.begin(), lines.end(), has)) tag++;
  return tag;
}

static Way looking_up(const std::string& what, const Sheet& sheet, Tag absent) {
  return {LIBRARY, what, [&sheet, absent] { must(library::name(sheet, absent).length == 0, "found"); }};
}

static Rows race_lookups(const Sheet& sheet, const std::vector<Line>& lines) {
  const Tag absent = absent_tag(lines);
  for (auto& line : lines)
    must(same(library::name(sheet, line.sample.tag), find_name(sheet, line.sample.tag)), "C++ finds another name");
  return race({"Sheets read", LINES, ""},
              {
                  {CPP, "the same lookup", [&] { must(find_name(sheet, absent).length == 0, "found"); }},
                  looking_up("lookup of an absent tag", sheet, absent),
                  {CPP, "to a vector of samples", [&] { must(read_sheet(sheet).size() == LINES, "other lines"); }},
              });
}

// The lookup in sheets of fewer and of more lines, the same ones again and again; the time is that of a line: details.
// (Of a small sheet that is read again and again the processor remembers the branches.)
static void race_longer_lookups(const Sheet& sheet, const std::vector<Line>& lines) {
  const Tag absent = absent_tag(lines);
  for (int count : {256, 1024, 4096, 16384, 65536}) {
    Sheet longer = blank_sheet(count);
    for (int k = 0; k < count; k++) std::copy_n(&sheet[line_start(k % LINES)], LINE_LENGTH, &longer[line_start(k)]);
    race({"Lookup, a line", (size_t)count, "", WARM_UP, 1, count}, {looking_up("lookup", longer, absent)});
  }
}

static Rows race_writing(const Sheet& sheet, const std::vector<Line>& lines) {
  Sheet a = blank_sheet(LINES), b = a, c = a;
  auto print = [](const Sample& sample, const uint8_t* name, size_t length, uint8_t* at, size_t) {
    print_line(at, sample, {(const char*)name, length});
    return 0;
  };
  std::vector<Way> ways = {
      {CPP, "digit by digit", [&] { write_all(lines, b, put_line); }},
      {LIBRARY, "lines written", [&] { write_all(lines, a, library::line); }},
      {CPP, "snprintf", [&] { write_all(lines, c, print); }},
  };
  for (auto& way : ways) way.run();
  must(a == sheet && b == sheet && c == sheet, "the sheets written are not the same");
  return race({"Sheets written", LINES, ""}, ways);
}

// Applies one of the conversions to each colour.
template <class From, class To, class Convert>
static void convert_all(const std::vector<From>& from, std::vector<To>& to, Convert convert) {
  for (size_t i = 0; i < from.size(); i++) must(convert(from[i], to[i]) == 0, "a colour is refused");
}

template <class To>
static bool same_bytes(const std::vector<To>& a, const std::vector<To>& b) {
  return memcmp(a.data(), b.data(), a.size() * sizeof(To)) == 0;
}

template <class From, class To, class Ours, class Theirs>
static Rows race_conversion(const std::string& what, const std::vector<From>& from, std::vector<To>& to, Ours ours,
                            Theirs theirs) {
  std::vector<To> other(from.size());
  convert_all(from, to, ours);
  convert_all(from, other, theirs);
  if (!same_bytes(to, other)) fail(what + ": C++ gives something else");
  return race({what, from.size(), ""}, {
                                           {CPP, "the same", [&] { convert_all(from, other, theirs); }},
                                           {LIBRARY, what, [&] { convert_all(from, to, ours); }},
                                       });
}

static Rows race_conversions() {
  std::mt19937 g(2);
  std::vector<PanelColour> panel(SAMPLES), shown(SAMPLES);
  Colours colours(SAMPLES);
  for (auto& x : panel)
    for (auto& v : x.v) v = std::ldexp((float)(g() >> 8), -24);
  Rows rows = race_conversion("floats to codes", panel, colours, library::codes, codes_of);
  append(rows, race_conversion("codes to floats", colours, shown, library::floats, floats_of));
  Colour a, b;
  PanelColour c, d;
  for (float v : {-0.5f, PAST_CHANNELS, NAN, INFINITY})
    must(library::codes({{0, v, 0}}, a) == 9 && codes_of({{0, v, 0}}, b) == 9, "a float is not refused");
  must(library::floats({{0, MOST_CODE + 1, 0}}, c) == 4 && floats_of({{0, MOST_CODE + 1, 0}}, d) == 4,
       "a code is not refused");
  return rows;
}

Rows measure_sheets() {
  const std::vector<Line> lines = any_lines();
  Sheet sheet = blank_sheet(LINES), two = blank_sheet(2);
  write_all(lines, sheet, library::line);
  std::copy_n(sheet.begin() + HEADER_LENGTH, 2 * LINE_LENGTH, two.begin() + HEADER_LENGTH);
  compare_lookups(two);
  compare_refusals(lines[0]);
  Rows rows = race_lookups(sheet, lines);
  if (options.details) race_longer_lookups(sheet, lines);
  append(rows, race_writing(sheet, lines));
  append(rows, race_conversions());
  return rows;
}
