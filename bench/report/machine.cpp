#include <sys/utsname.h>
#include <unistd.h>

#include <cmath>
#include <fstream>

#include "../shared/peers.hpp"
#include "report.hpp"

// What a file of lines `name : value` says, without the blanks before it.
static std::string said(const char* file, const std::string& name) {
  std::ifstream lines(file);
  for (std::string line; std::getline(lines, line);) {
    const size_t colon = line.find(':');
    if (colon == std::string::npos || line.compare(0, name.size(), name) != 0) continue;
    const size_t start = line.find_first_not_of(" \t", colon + 1);
    if (start != std::string::npos) return line.substr(start);
  }
  return "unknown";
}

static std::string memory() {
  const double pages = (double)sysconf(_SC_PHYS_PAGES), bytes = (double)sysconf(_SC_PAGESIZE);
  return std::to_string(std::lround(pages * bytes / (1 << 30))) + " GiB of memory";
}

static std::string compiler() {
#if defined(__clang__)
  return "Clang " __clang_version__;
#elif defined(__GNUC__)
  return "GCC " __VERSION__;
#else
  return "unknown compiler";
#endif
}

static std::string nanoflann_version() {
#ifdef HAS_NANOFLANN
  const int v = NANOFLANN_VERSION;
  return std::to_string(v >> 8) + "." + std::to_string(v >> 4 & 15) + "." + std::to_string(v & 15) + ", by its header";
#else
  return "not measured";
#endif
}

static std::string flann_version() {
#ifdef HAS_FLANN
  return FLANN_VERSION_;
#else
  return "not measured";
#endif
}

std::vector<std::string> machine() {
  utsname system;
  uname(&system);
  return {
      "Processor: " + said("/proc/cpuinfo", "model name") + ", " + std::to_string(sysconf(_SC_NPROCESSORS_ONLN)) +
          " cores, " + memory(),
      "Kernel: " + std::string(system.sysname) + " " + system.release + ", " + system.machine,
      "The library: proved and built with " KIT,
      "C++: " + compiler() + ", `-O3`",
      "nanoflann: " + nanoflann_version(),
      "FLANN: " + flann_version(),
  };
}

std::string missing() {
  std::string names;
#ifndef HAS_NANOFLANN
  names += " nanoflann (before 1.5)";
#endif
#ifndef HAS_FLANN
  names += names.empty() ? " FLANN" : ", FLANN";
#endif
  if (names.empty()) return "";
  return "Not here, and so not measured:" + names +
         ". To have it measured: `apt install libnanoflann-dev libflann-dev liblz4-dev`.";
}
