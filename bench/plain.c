/* A plain interpreter of the machine of docs/machine.md, written from its tables: it decodes a word when it meets it and
   looks slots up as they stand. `bench/run` times the machine beside it. Standard input is what crates/mb_bench reads: the
   number of ticks, and an image without inputs. It prints the same line. */
#include <stdint.h>
#include <stdio.h>
#include <stdlib.h>
#include <string.h>

enum state { FREE, READY, PAUSED, WAITING, ENDED };

struct entry {
  uint32_t number, condition, handler;
  int weak, fired, due;
};

struct slot {
  enum state state;
  uint32_t place, low, count, above, depth;
  struct entry entries[8];
};

struct point {
  uint32_t place, slot, depth, stack[9];
};

static uint32_t code[65536], starts[64], links[16], counters[136];
static int32_t memory[16384], registers[32];
static struct { int weak; uint32_t condition, handler; } lines[65536];
static struct point points[2][65536]; /* pauses and forks by place; a place with none has slot 64 */
static struct slot slots[64];
static uint32_t words, memory_words, slot_count, line_count, link_count, counter_count;

static void fail(const char *what, uint32_t place) {
  printf("%s at %u\n", what, place);
  exit(1);
}

/* the first ready slot of a tree in depth-first order, or 64 */
static uint32_t first_ready(uint32_t s) {
  if (slots[s].state == READY) return s;
  if (slots[s].state == WAITING)
    for (uint32_t c = slots[s].low; c < slots[s].low + slots[s].count; c++) {
      uint32_t found = first_ready(c);
      if (found < 64) return found;
    }
  return 64;
}

static void free_group(uint32_t s) {
  if (slots[s].state != WAITING) return;
  for (uint32_t c = slots[s].low; c < slots[s].low + slots[s].count; c++) {
    free_group(c);
    slots[c].state = FREE;
    slots[c].depth = 0;
  }
}

/* the slot goes on at the handler of its innermost fired abort */
static int relieve(uint32_t s) {
  for (uint32_t i = slots[s].depth; i-- > 0;)
    if (slots[s].entries[i].fired) {
      free_group(s);
      slots[s].depth = i;
      slots[s].state = READY;
      slots[s].place = slots[s].entries[i].handler;
      return 1;
    }
  return 0;
}

static void settle(uint32_t s) {
  while (s != 0) {
    uint32_t above = slots[s].above;
    int ended = 1;
    if (first_ready(above) < 64) return;
    for (uint32_t c = slots[above].low; c < slots[above].low + slots[above].count; c++)
      if (slots[c].state != ENDED) { ended = 0; break; }
    if (ended) {
      free_group(above);
      slots[above].state = READY;
      slots[above].place++;
      return;
    }
    if (relieve(above)) return;
    s = above;
  }
}

static int is_listed(const struct point *table, uint32_t place, uint32_t s) {
  const struct point *p = &table[place];
  if (p->slot != s || p->depth != slots[s].depth) return 0;
  for (uint32_t i = 0; i < p->depth; i++)
    if (p->stack[i] != slots[s].entries[i].number) return 0;
  return 1;
}

static int32_t reads(uint32_t r) { return r == 0 ? 0 : registers[r]; }

static void writes(uint32_t r, uint32_t value) {
  if (r != 0) registers[r] = (int32_t)value;
}

static uint64_t charged;

/* steps of a slot in its turn, or of a condition where s is 64, until it rests or the condition ends */
static int run(uint32_t s, uint32_t place) {
  int upper_stands = 0;
  uint32_t upper = 0;
  for (;;) {
    if (place >= words) fail("OutOfCode", place);
    uint32_t word = code[place], op = word >> 26, d = word >> 21 & 31, a = word >> 16 & 31, b = word >> 11 & 31;
    uint32_t low = word & 0xffff, tail = word & 0x7ff;
    uint32_t imm = upper_stands ? upper << 16 | low : (uint32_t)(int32_t)(int16_t)low;
    uint32_t next = place + 1, byte;
    int had_upper = upper_stands, takes_upper = 0, branches = 0;
    upper_stands = 0;
    switch (op) {
    case 4: if (tail) fail("BadWord", place); writes(d, (uint32_t)reads(a) + (uint32_t)reads(b)); break;
    case 5: {
      uint32_t difference = (uint32_t)reads(b) - (uint32_t)reads(a);
      if (tail > 1) fail("BadWord", place);
      if (tail == 1) difference = (difference & 0x7fffffff) | (uint32_t)(reads(b) < reads(a)) << 31;
      writes(d, difference);
      break;
    }
    case 32: if (tail) fail("BadWord", place); writes(d, reads(a) | reads(b)); break;
    case 33: if (tail) fail("BadWord", place); writes(d, reads(a) & reads(b)); break;
    case 34: if (tail) fail("BadWord", place); writes(d, reads(a) ^ reads(b)); break;
    case 16: if (tail) fail("BadWord", place); writes(d, (uint32_t)reads(a) * (uint32_t)reads(b)); break;
    case 18:
      if (tail) fail("BadWord", place);
      if (reads(a) == 0) writes(d, 0);
      else if (reads(a) == -1) writes(d, -(uint32_t)reads(b));
      else writes(d, reads(b) / reads(a));
      break;
    case 17: {
      uint32_t by = reads(b) & 31;
      if (tail == 0) writes(d, (uint32_t)reads(a) >> by);
      else if (tail == 512) writes(d, reads(a) >> by);
      else if (tail == 1024) writes(d, (uint32_t)reads(a) << by);
      else fail("BadWord", place);
      break;
    }
    case 12: takes_upper = 1; writes(d, (uint32_t)reads(a) + imm); break;
    case 40: takes_upper = 1; writes(d, (uint32_t)reads(a) | imm); break;
    case 41: takes_upper = 1; writes(d, (uint32_t)reads(a) & imm); break;
    case 42: takes_upper = 1; writes(d, (uint32_t)reads(a) ^ imm); break;
    case 44: if (d || a) fail("BadWord", place); upper_stands = 1; upper = low; break;
    case 46: if (d || a) fail("BadWord", place); takes_upper = 1; branches = 1; break;
    case 47:
      takes_upper = 1;
      switch (d) {
      case 0: branches = reads(a) == 0; break;
      case 1: branches = reads(a) != 0; break;
      case 2: branches = reads(a) < 0; break;
      case 3: branches = reads(a) <= 0; break;
      case 4: branches = reads(a) > 0; break;
      case 5: branches = reads(a) >= 0; break;
      default: fail("BadWord", place);
      }
      break;
    case 50: case 54:
      if (tail) fail("BadWord", place);
      byte = (uint32_t)reads(a) + (uint32_t)reads(b);
      if (byte % 4 || byte / 4 >= memory_words) fail("BadAddress", place);
      if (op == 50) writes(d, memory[byte / 4]); else memory[byte / 4] = reads(d);
      break;
    case 58: case 62:
      takes_upper = 1;
      byte = (uint32_t)reads(a) + imm;
      if (byte % 4 || byte / 4 >= memory_words) fail("BadAddress", place);
      if (op == 58) writes(d, memory[byte / 4]); else memory[byte / 4] = reads(d);
      break;
    case 63:
      takes_upper = d == 7;
      if ((s == 64) != (d == 10)) fail("WrongPlace", place);
      switch (d) {
      case 0: {
        uint32_t first = low >> 8, count = low & 255;
        if (link_count || counter_count || count == 0 || first <= s || first + count > slot_count || !is_listed(points[1], place, s))
          fail("WrongPlace", place);
        for (uint32_t c = first; c < first + count; c++)
          if (slots[c].state != FREE) fail("SlotBusy", place);
        for (uint32_t c = first; c < first + count; c++) {
          slots[c].state = READY;
          slots[c].place = starts[c];
          slots[c].above = s;
        }
        slots[s].state = WAITING;
        slots[s].place = place;
        slots[s].low = first;
        slots[s].count = count;
        charged++;
        return 0;
      }
      case 1:
        if (link_count || counter_count || !is_listed(points[0], place, s)) fail("WrongPlace", place);
        charged++;
        if (!relieve(s)) {
          slots[s].state = PAUSED;
          slots[s].place = place;
          settle(s);
        }
        return 0;
      case 2:
        if (link_count || counter_count || slots[s].depth) fail("WrongPlace", place);
        charged++;
        slots[s].state = ENDED;
        settle(s);
        return 0;
      case 3: {
        if (low >= line_count || link_count || counter_count) fail("WrongPlace", place);
        if (slots[s].depth == 8) fail("TableFull", place);
        struct entry *e = &slots[s].entries[slots[s].depth++];
        e->number = low;
        e->weak = lines[low].weak;
        e->condition = lines[low].condition;
        e->handler = lines[low].handler;
        e->fired = e->due = 0;
        break;
      }
      case 4:
        if (link_count || counter_count) fail("WrongPlace", place);
        if (slots[s].depth == 0) fail("TableEmpty", place);
        slots[s].depth--;
        break;
      case 5: if (link_count == 16) fail("TableFull", place); links[link_count++] = place + 1; next = low; break;
      case 6: if (link_count == 0) fail("TableEmpty", place); next = links[--link_count]; break;
      case 7: if (counter_count == 136) fail("TableFull", place); counters[counter_count++] = had_upper ? upper << 16 | low : low; break;
      case 8:
        if (counter_count == 0) fail("TableEmpty", place);
        if (counters[counter_count - 1] > 0) counters[counter_count - 1]--;
        else { counter_count--; next = low; }
        break;
      case 9: if (counter_count == 0) fail("TableEmpty", place); counter_count--; break;
      case 10: charged++; return reads(a) != 0;
      default: fail("BadWord", place);
      }
      break;
    default: fail("BadWord", place);
    }
    if (had_upper && !takes_upper) fail("WrongPlace", place);
    if (branches) {
      byte = 4 * place + imm;
      if (byte % 4 || byte / 4 >= words) fail("OutOfCode", place);
      next = byte / 4;
    }
    charged++;
    place = next;
  }
}

/* the conditions of a tree in depth-first order, of each slot from the outermost */
static void tests(uint32_t s) {
  for (uint32_t i = 0; i < slots[s].depth; i++) {
    struct entry *e = &slots[s].entries[i];
    if (!e->due) continue;
    int holds = run(64, e->condition);
    e->due = 0;
    e->fired = e->weak && holds;
    if (!e->weak && holds) {
      free_group(s);
      slots[s].depth = i;
      slots[s].state = READY;
      slots[s].place = e->handler;
      return;
    }
  }
  if (slots[s].state == WAITING)
    for (uint32_t c = slots[s].low; c < slots[s].low + slots[s].count; c++) tests(c);
}

static uint32_t count_of(const char *name) {
  char word[16];
  uint32_t count;
  if (scanf("%15s %u", word, &count) != 2 || strcmp(word, name)) fail("no image", 0);
  return count;
}

static void read_points(const char *name, struct point *table) {
  for (uint32_t i = 0; i < 65536; i++) table[i].slot = 64;
  for (uint32_t n = count_of(name); n > 0; n--) {
    uint32_t place, slot, depth;
    if (scanf("%u %u %u", &place, &slot, &depth) != 3) fail("no image", 0);
    table[place].slot = slot;
    table[place].depth = depth;
    for (uint32_t i = 0; i < depth; i++)
      if (scanf("%u", &table[place].stack[i]) != 1) fail("no image", 0);
  }
}

static uint32_t number(const char *form) {
  uint32_t n;
  if (scanf(form, &n) != 1) fail("no image", 0);
  return n;
}

int main(void) {
  uint64_t ticks, outputs;
  if (scanf("%lu ARPRET 1", &ticks) != 1) fail("no image", 0);
  words = count_of("code");
  for (uint32_t i = 0; i < words; i++) code[i] = number("%x");
  memory_words = count_of("memory");
  for (uint32_t i = 0; i < memory_words; i++) memory[i] = (int32_t)number("%d");
  if (count_of("inputs")) fail("an image with inputs", 0);
  outputs = count_of("outputs");
  for (uint64_t i = 0; i < outputs; i++) number("%u");
  slot_count = count_of("slots");
  for (uint32_t i = 0; i < slot_count; i++) starts[i] = number("%u");
  line_count = count_of("aborts");
  for (uint32_t i = 0; i < line_count; i++) {
    char kind;
    if (scanf(" %c %u %u", &kind, &lines[i].condition, &lines[i].handler) != 3) fail("no image", 0);
    lines[i].weak = kind == 'w';
  }
  read_points("pauses", points[0]);
  read_points("forks", points[1]);
  slots[0].state = READY;
  slots[0].place = starts[0];
  for (uint64_t tick = 0; tick < ticks; tick++) {
    charged += 1 + outputs;
    for (uint32_t s = 0; s < 64; s++)
      for (uint32_t i = 0; i < slots[s].depth; i++) {
        slots[s].entries[i].fired = 0;
        slots[s].entries[i].due = 1;
      }
    tests(0);
    for (uint32_t s = 0; s < 64; s++)
      if (slots[s].state == PAUSED) { slots[s].state = READY; slots[s].place++; }
    for (uint32_t s = first_ready(0); s < 64; s = first_ready(0)) run(s, slots[s].place);
  }
  printf("ticks %lu cycles %lu\n", ticks, charged);
  return 0;
}
