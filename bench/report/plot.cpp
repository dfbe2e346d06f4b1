// The plot: a column for each call, a row for each kind of colours, both axes by logarithms.
#include <algorithm>
#include <cmath>

#include "report.hpp"

const double LEFT = 78, TOP = 104, WIDE = 132, HIGH = 190, ACROSS = 190, DOWN = 246;

struct Column {
  const char *what, *title;
};
const Column COLUMNS[] = {{"ball", "ball, radius 2,048"},
                          {"box", "box like it"},
                          {"nearest", "nearest, any radius"},
                          {"check", "check"},
                          {"load", "load of n lines"}};

struct Style {
  Who who;
  const char *title, *colour, *dashes;
};
const Style STYLES[] = {{SCAN, "straight scan", "#7a7a7a", "1.5 4"},
                        {NANOFLANN, "nanoflann", "#009e73", "9 4"},
                        {CPP, "C++ on the same tables", "#d55e00", "5 3"},
                        {LIBRARY, "library", "#0072b2", ""}};

// What is drawn, as it grows.
struct Drawing {
  std::string svg;

  void line(double x1, double y1, double x2, double y2, const std::string& how) {
    char text[300];
    snprintf(text, sizeof text, "<line x1=\"%.1f\" y1=\"%.1f\" x2=\"%.1f\" y2=\"%.1f\" %s/>\n", x1, y1, x2, y2,
             how.c_str());
    svg += text;
  }
  void text(double x, double y, const std::string& said, const std::string& how) {
    char at[80];
    snprintf(at, sizeof at, "<text x=\"%.1f\" y=\"%.1f\" ", x, y);
    svg += at + how + ">" + said + "</text>\n";
  }
  void path(const std::vector<std::pair<double, double>>& points, const std::string& how) {
    svg += "<polyline points=\"";
    for (auto& p : points) {
      char at[60];
      snprintf(at, sizeof at, "%.1f,%.1f ", p.first, p.second);
      svg += at;
    }
    svg += "\" " + how + "/>\n";
  }
};

static std::string stroke(const Style& style) {
  std::string how = std::string("fill=\"none\" stroke-linejoin=\"round\" stroke=\"") + style.colour + "\"";
  how += style.who == LIBRARY ? " stroke-width=\"2.4\"" : " stroke-width=\"1.8\"";
  if (*style.dashes) how += std::string(" stroke-dasharray=\"") + style.dashes + "\"";
  return how;
}

// The numbers 1, 2 and 5 times a power of ten from one that is at most `least` to one that is at least `most`.
static std::vector<double> steps(double least, double most) {
  std::vector<double> all;
  for (int power = -9; power <= 9; power++)
    for (double digit : {1.0, 2.0, 5.0}) all.push_back(digit * std::pow(10, power));
  auto from = std::upper_bound(all.begin(), all.end(), least) - 1, to = std::lower_bound(all.begin(), all.end(), most);
  return {from, to + 1};
}

static double share(double value, double least, double most) {
  return std::log(value / least) / std::log(most / least);
}

static std::string short_number(double number) {
  char text[40];
  snprintf(text, sizeof text, "%g", number);
  return number >= 1000 ? grouped((uint64_t)number) : text;
}

// The measurements of one call, of all colours or of one kind.
static Rows of(const Rows& rows, const std::string& what, const std::string& colours = "") {
  Rows some;
  for (auto& row : rows)
    if (row.what == what && (colours.empty() || row.colours == colours)) some.push_back(row);
  return some;
}

static std::vector<double> steps_of(const Rows& rows) {
  double least = 1e9, most = 0;
  for (auto& row : rows)
    for (auto& style : STYLES)
      if (auto& time = row.by[style.who]) {
        least = std::min(least, time->best * 1e6);
        most = std::max(most, time->best * 1e6);
      }
  return steps(least, most);
}

static void draw_axes(Drawing& d, double x, double y, const Rows& rows, const std::vector<double>& up) {
  for (double step : up) {
    const double at = y + HIGH * (1 - share(step, up.front(), up.back()));
    d.line(x, at, x + WIDE, at, "stroke=\"#dddddd\"");
    d.text(x - 5, at + 4, short_number(step), "text-anchor=\"end\"");
  }
  for (auto& row : rows) {
    const double at = x + WIDE * share(row.n, rows.front().n, rows.back().n);
    d.line(at, y, at, y + HIGH, "stroke=\"#dddddd\"");
    d.text(at, y + HIGH + 15, grouped(row.n), "text-anchor=\"middle\"");
  }
  d.text(x - 5, y - 9, "µs", "text-anchor=\"end\"");
  d.text(x + WIDE / 2, y + HIGH + 30, "n", "text-anchor=\"middle\"");
}

static void draw_panel(Drawing& d, double x, double y, const Rows& rows, const std::vector<double>& up) {
  draw_axes(d, x, y, rows, up);
  for (auto& style : STYLES) {
    std::vector<std::pair<double, double>> points;
    for (auto& row : rows)
      if (auto& time = row.by[style.who])
        points.push_back({x + WIDE * share(row.n, rows.front().n, rows.back().n),
                          y + HIGH * (1 - share(time->best * 1e6, up.front(), up.back()))});
    if (!points.empty()) d.path(points, stroke(style));
  }
}

static void draw_legend(Drawing& d, const Rows& rows) {
  double x = LEFT;
  for (size_t i = std::size(STYLES); i-- > 0;) {
    const Style& style = STYLES[i];
    const bool there = std::any_of(rows.begin(), rows.end(), [&](const Row& row) { return row.by[style.who]; });
    if (!there) continue;
    d.path({{x, 48}, {x + 36, 48}}, stroke(style));
    d.text(x + 43, 52, style.title, "");
    x += 75 + 7.0 * std::string(style.title).size();
  }
}

std::string growth_plot(const Rows& rows) {
  const double width = LEFT + ACROSS * std::size(COLUMNS) - 34, height = TOP + DOWN * std::size(KINDS) - 8;
  Drawing d;
  char start[300];
  snprintf(start, sizeof start,
           "<svg xmlns=\"http://www.w3.org/2000/svg\" viewBox=\"0 0 %.0f %.0f\" font-family=\"sans-serif\" "
           "font-size=\"12\" fill=\"#222222\">\n<rect width=\"100%%\" height=\"100%%\" fill=\"#ffffff\"/>\n",
           width, height);
  d.svg = start;
  d.text(LEFT, 24, "Time of a call (µs, best round) against the number of samples n, both axes logarithmic",
         "font-size=\"15\" font-weight=\"bold\"");
  draw_legend(d, rows);
  for (size_t i = 0; i < std::size(COLUMNS); i++) {
    const double x = LEFT + ACROSS * i;
    const std::vector<double> up = steps_of(of(rows, COLUMNS[i].what));
    d.text(x + WIDE / 2, TOP - 22, COLUMNS[i].title, "text-anchor=\"middle\" font-weight=\"bold\"");
    for (size_t j = 0; j < std::size(KINDS); j++)
      draw_panel(d, x, TOP + DOWN * j, of(rows, COLUMNS[i].what, KINDS[j].name), up);
  }
  for (size_t j = 0; j < std::size(KINDS); j++) {
    char turned[120];
    const double y = TOP + DOWN * j + HIGH / 2;
    snprintf(turned, sizeof turned, "text-anchor=\"middle\" font-weight=\"bold\" transform=\"rotate(-90 20 %.0f)\"", y);
    d.text(20, y, std::string(KINDS[j].name) + " colours", turned);
  }
  return d.svg + "</svg>\n";
}
