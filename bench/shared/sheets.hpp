// Sheets to be read: lines as printf writes them.
#pragma once

#include <cstdio>
#include <string>

#include "../by_hand/sheets.hpp"
#include "sets.hpp"

using Sheet = std::vector<uint8_t>;

inline void print_line(uint8_t* at, const Sample& sample, const std::string& name) {
  char text[LINE_LENGTH + 1];
  const u32* c = sample.colour.c;
  snprintf(text, sizeof text, "%*llu%*u%*u%*u %-*s\n", TAG_COLUMNS, (unsigned long long)sample.tag, CODE_COLUMNS, c[0],
           CODE_COLUMNS, c[1], CODE_COLUMNS, c[2], NAME_COLUMNS, name.c_str());
  memcpy(at, text, LINE_LENGTH);
}

// A name that is good; half of them have 4 to 8 bytes.
inline std::string any_name(std::mt19937& g) {
  std::string name(g() % 2 ? 1 + g() % NAME_COLUMNS : 4 + g() % 5, ' ');
  for (auto& c : name) c = 33 + g() % 94;
  return name;
}

// A sheet that has only its header yet.
inline Sheet blank_sheet(size_t lines) {
  Sheet sheet(line_start(lines));
  char header[HEADER_LENGTH + 8];
  snprintf(header, sizeof header, "%s%*zu\n", TITLE, COUNT_COLUMNS, lines % (MOST_LINES + 1));
  memcpy(sheet.data(), header, HEADER_LENGTH);
  return sheet;
}

inline Sheet sheet_of(const Samples& samples) {
  std::mt19937 g(8);
  Sheet sheet = blank_sheet(samples.size());
  for (size_t i = 0; i < samples.size(); i++) print_line(&sheet[line_start(i)], samples[i], any_name(g));
  return sheet;
}
