// Tables as text and as Markdown, and numbers in them.
#pragma once

#include <cstdint>
#include <string>
#include <vector>

struct Table {
  std::vector<std::string> head;
  std::vector<std::vector<std::string>> rows;
};

// What stands where there is nothing to say.
const char* const NOTHING = "–";

// A number with commas.
std::string grouped(uint64_t number);
// Three digits, or all of a whole number.
std::string three_digits(double number);
// One digit after the point, below a hundred and where it is not 0.
std::string whole_or_tenth(double number);
// A number of the best round, and that of the median one in brackets.
std::string with_median(const std::string& best, const std::string& median);

std::string as_text(const Table& table);
std::string as_markdown(const Table& table);
