// Hand-written C++ that reads and writes sheets, with the library's checks: the header, columns, ranges and names. The
// benchmark measures the library beside it. Nothing of the library uses it.
#pragma once

#include <cstring>

#include "build.hpp"

// The number at the right of so many columns, if it is at most `most`.
inline bool read_number(const uint8_t* at, size_t columns, u64 most, u64& number) {
  const uint8_t* end = at + columns;
  while (at < end && *at == ' ') at++;
  if (at == end || (*at == '0' && end - at > 1)) return false;
  number = 0;
  for (; at < end; at++) {
    u32 digit = (u32)*at - '0';
    if (digit > 9) return false;
    number = 10 * number + digit;
  }
  return number <= most;
}

inline bool in_name(uint8_t byte) { return byte > ' ' && byte <= '~'; }

// How long the name at the left of these columns is; 0 where it is not good.
inline size_t name_length(const uint8_t* start, const uint8_t* end) {
  const uint8_t* at = start;
  while (at < end && in_name(*at)) at++;
  const size_t length = at - start;
  while (at < end && *at == ' ') at++;
  return at == end ? length : 0;
}

// Where in a sheet a name stands.
struct Part {
  size_t start, length;
};

inline bool read_line(const uint8_t* at, Sample& sample, size_t& length) {
  u64 tag, red, green, blue;
  if (!read_number(at, TAG_COLUMNS, MOST_TAG, tag) || !read_number(at + code_start(0), CODE_COLUMNS, MOST_CODE, red) ||
      !read_number(at + code_start(1), CODE_COLUMNS, MOST_CODE, green) ||
      !read_number(at + code_start(2), CODE_COLUMNS, MOST_CODE, blue) || at[NAME_START - 1] != ' ' ||
      at[LINE_LENGTH - 1] != '\n')
    return false;
  sample = {(Tag)tag, {{(u32)red, (u32)green, (u32)blue}}};
  length = name_length(at + NAME_START, at + NAME_START + NAME_COLUMNS);
  return length > 0;
}

inline bool read_header(const std::vector<uint8_t>& sheet, u64& count) {
  return sheet.size() >= HEADER_LENGTH && memcmp(sheet.data(), TITLE, TITLE_LENGTH) == 0 &&
         sheet[HEADER_LENGTH - 1] == '\n' && read_number(&sheet[TITLE_LENGTH], COUNT_COLUMNS, MOST_LINES, count) &&
         sheet.size() == line_start(count);
}

// The samples of the lines before the first that is not good; none where the header is not.
inline std::vector<Sample> read_sheet(const std::vector<uint8_t>& sheet) {
  std::vector<Sample> samples;
  u64 count;
  if (!read_header(sheet, count)) return samples;
  samples.reserve(count);
  Sample sample;
  size_t length;
  for (u64 k = 0; k < count && read_line(&sheet[line_start(k)], sample, length); k++) samples.push_back(sample);
  return samples;
}

// The name in the first line with the tag; the empty part where there is none, or the sheet is not good.
inline Part find_name(const std::vector<uint8_t>& sheet, Tag tag) {
  u64 count;
  Part found{0, 0};
  if (!read_header(sheet, count)) return found;
  for (u64 k = 0; k < count; k++) {
    const size_t at = line_start(k);
    Sample sample;
    size_t length;
    if (!read_line(&sheet[at], sample, length)) return {0, 0};
    if (found.length == 0 && sample.tag == tag) found = {at + NAME_START, length};
  }
  return found;
}

// Writes a number, a tag or a code, to the left of `end`.
inline void put_number(uint8_t* end, Tag number) {
  do *--end = '0' + number % 10;
  while (number /= 10);
}

// Writes a line over the first bytes lent, and gives the number that the library gives.
inline u32 put_line(const Sample& sample, const uint8_t* name, size_t length, uint8_t* line, size_t line_length) {
  for (u32 code : sample.colour.c)
    if (code > MOST_CODE) return 4;
  if (length < 1 || length > NAME_COLUMNS) return 10;
  for (size_t i = 0; i < length; i++)
    if (!in_name(name[i])) return 10;
  if (line_length < LINE_LENGTH) return 13;
  memset(line, ' ', LINE_LENGTH - 1);
  put_number(line + TAG_COLUMNS, sample.tag);
  for (int i = 0; i < 3; i++) put_number(line + code_start(i) + CODE_COLUMNS, sample.colour.c[i]);
  memcpy(line + NAME_START, name, length);
  line[LINE_LENGTH - 1] = '\n';
  return 0;
}
