// Queries, and the two that answer them from the same tables: the library and C++ by hand.
#pragma once

#include "../by_hand/listing.hpp"
#include "../by_hand/nearest.hpp"
#include "hubeltxa.h"
#include "sets.hpp"

// Codes; a radius too.
struct Ball {
  Colour centre;
  u32 radius;
  u64 r2() const { return (u64)radius * radius; }
};

struct Box {
  Colour low, high;
};

struct Nearest : Ball {};

// The greatest radius: nothing is farther.
const u32 ANY_RADIUS = MOST_RADIUS;
const u32 ROOT_LOW[3] = {0, 0, 0}, ROOT_SIDE = CODES;
// The row where none is near enough.
const u32 NONE = UINT32_MAX;

// A box around a ball's centre, about as large as the ball.
inline Box box_like(const Ball& ball) {
  const u32 h = ball.radius * 0.806;
  Box b;
  for (int i = 0; i < 3; i++) {
    const u32 x = ball.centre.c[i];
    b.low.c[i] = x < h ? 0 : x - h;
    b.high.c[i] = std::min(x + h, MOST_CODE);
  }
  return b;
}

// What the last query reported. The listing is one that is lent again and again.
struct Asked {
  const Tables& t;
  std::vector<Tag> listing;
  u32 number = 0, listed = 0, entered = 0, measured = 0, found = 0;
  Tag tag = 0;
  u64 d2 = 0;

  Asked(const Tables& tables, size_t room) : t(tables), listing(room) {}
  // Of a set whose tags are the rows.
  std::vector<u32> rows() const { return {listing.begin(), listing.begin() + listed}; }
  bool same(const Asked& o) const {
    return number == 0 && o.number == 0 && listed == o.listed && entered == o.entered && measured == o.measured &&
           found == o.found && tag == o.tag && d2 == o.d2 &&
           std::equal(listing.begin(), listing.begin() + listed, o.listing.begin());
  }
};

// A ball or a box gives how many it lists; nearest gives the row, where tags are the rows, or none.
struct Library : Asked {
  using Asked::Asked;

  u32 ask(const Ball& q) {
    const u32* c = q.centre.c;
    number =
        hbx_ball(t.samples.data(), t.samples.size(), t.octants.data(), t.octants.size(), channel(c[0]), channel(c[1]),
                 channel(c[2]), channel(q.radius), listing.data(), listing.size(), &listed, &entered, &measured);
    return listed;
  }
  u32 ask(const Box& q) {
    const u32 *a = q.low.c, *b = q.high.c;
    number = hbx_box(t.samples.data(), t.samples.size(), t.octants.data(), t.octants.size(), channel(a[0]),
                     channel(a[1]), channel(a[2]), channel(b[0]), channel(b[1]), channel(b[2]), listing.data(),
                     listing.size(), &listed, &entered, &measured);
    return listed;
  }
  u32 ask(const Nearest& q) {
    const u32* c = q.centre.c;
    number = hbx_near(t.samples.data(), t.samples.size(), t.octants.data(), t.octants.size(), channel(c[0]),
                      channel(c[1]), channel(c[2]), channel(q.radius), &found, &tag, &d2);
    return found ? (u32)tag : NONE;
  }
};

struct ByHand : Asked {
  using Asked::Asked;

  template <class Region>
  u32 list(const Region& region) {
    Listing<Region> q{t.samples.data(), t.octants.data(), region, listing.data(), 0, 0, 0};
    list_octant(q, 0, ROOT_LOW, ROOT_SIDE);
    listed = q.listed, entered = q.entered, measured = q.measured;
    return listed;
  }
  u32 ask(const Ball& q) { return list(InBall{{q.centre.c[0], q.centre.c[1], q.centre.c[2]}, q.r2()}); }
  u32 ask(const Box& q) {
    const u32 *a = q.low.c, *b = q.high.c;
    return list(InBox{{a[0], a[1], a[2]}, {b[0], b[1], b[2]}});
  }
  u32 ask(const Nearest& x) {
    const u32* c = x.centre.c;
    Search q{t.samples.data(), t.octants.data(), {c[0], c[1], c[2]}, x.r2(), 0, 0};
    search_octant(q, 0, ROOT_LOW, ROOT_SIDE);
    found = q.row > 0;
    tag = found ? sample_tag(t.samples.data(), q.row - 1) : 0;
    d2 = found ? q.d2 : 0;
    return found ? (u32)tag : NONE;
  }
};
