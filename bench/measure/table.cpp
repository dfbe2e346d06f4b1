#include "table.hpp"

#include <algorithm>
#include <cmath>

std::string grouped(uint64_t number) {
  std::string digits = std::to_string(number);
  for (int at = (int)digits.size() - 3; at > 0; at -= 3) digits.insert(at, ",");
  return digits;
}

std::string three_digits(double number) {
  if (number >= 99.95) return grouped((uint64_t)std::llround(number));
  char text[40];
  snprintf(text, sizeof text, "%.*f", number >= 9.995 ? 1 : number >= 0.9995 ? 2 : 3, number);
  return text;
}

std::string whole_or_tenth(double number) {
  const uint64_t tenths = (uint64_t)std::llround(number * 10);
  if (number >= 99.95 || tenths % 10 == 0) return grouped((uint64_t)std::llround(number));
  return grouped(tenths / 10) + "." + std::to_string(tenths % 10);
}

std::string with_median(const std::string& best, const std::string& median) { return best + " (" + median + ")"; }

// How many columns a text takes: its bytes but for those that go on with a character.
static size_t width(const std::string& text) {
  return std::count_if(text.begin(), text.end(), [](char c) { return ((unsigned char)c & 0xC0) != 0x80; });
}

std::string as_text(const Table& table) {
  std::vector<size_t> widths;
  for (auto& cell : table.head) widths.push_back(width(cell));
  for (auto& row : table.rows)
    for (size_t i = 0; i < row.size(); i++) widths[i] = std::max(widths[i], width(row[i]));
  std::string text;
  auto add = [&](const std::vector<std::string>& row) {
    for (size_t i = 0; i < row.size(); i++) {
      const std::string blanks(widths[i] - width(row[i]), ' ');
      text += i == 0 ? row[i] + blanks : "  " + blanks + row[i];
    }
    text += "\n";
  };
  add(table.head);
  for (auto& row : table.rows) add(row);
  return text;
}

std::string as_markdown(const Table& table) {
  std::string text;
  auto add = [&](const std::vector<std::string>& row) {
    for (auto& cell : row) text += "| " + cell + " ";
    text += "|\n";
  };
  add(table.head);
  for (size_t i = 0; i < table.head.size(); i++) text += i == 0 ? "|---" : "|---:";
  text += "|\n";
  for (auto& row : table.rows) add(row);
  return text;
}
