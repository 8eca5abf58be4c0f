/* Calls each function of the C interface, with answers known from document 01. Prints what differs; its status is 0 if nothing does. */
#include "dubrakosh.h"

#include <stdio.h>
#include <string.h>

static int differences = 0;

static void expect(const char *what, uint64_t got, uint64_t wanted) {
  if (got != wanted) {
    printf("%s: %llu, expected %llu\n", what, (unsigned long long)got, (unsigned long long)wanted);
    differences++;
  }
}

static void expect_bytes(const char *what, const uint8_t *got, const uint8_t *wanted, size_t count) {
  if (memcmp(got, wanted, count) != 0) {
    printf("%s: the bytes differ\n", what);
    differences++;
  }
}

static const uint8_t *bytes(const char *text) {
  return (const uint8_t *)text;
}

/* The table of `A matches {*}`, big-endian, as document 01 writes it out. */
static const uint8_t example[49] = {
    0xC0, 0xAD, 0, 0, 0, 0, 0, 2, 0, 0, 0, 1, 0, 0, 0, 1, 0, 0, 0, 0, 0, 0, 0, 0,
    0xC0, 0xAD, 1, 0, 0, 0, 0, 0, 0, 0, 0, 1, 0, 0, 0, 0, 0, 0, 0, 0, 0, 0, 0, 0, 0x41};

enum { ROOM = 128, FILL = 0x5A, UNSET = 0x77 };

static void compiles(void) {
  const char *text = "A matches {*}";
  uint8_t out[ROOM], filled[ROOM];
  uint64_t place = UNSET;
  memset(out, FILL, ROOM);
  memset(filled, FILL, ROOM);
  expect("compile", dk_compile(bytes(text), strlen(text), false, out, ROOM, &place), 0);
  expect("compile, length", place, 49);
  expect_bytes("compile, table", out, example, 49);
  expect_bytes("compile, behind the table", out + 49, filled + 49, ROOM - 49);
  memset(out, FILL, ROOM);
  expect("compile without room", dk_compile(bytes(text), strlen(text), false, out, 48, &place), 11);
  expect("compile without room, place", place, 13);
  expect_bytes("compile without room, output", out, filled, ROOM);
  text = "A matches {a matches {*} a matches {*}}";
  expect("compile a name twice", dk_compile(bytes(text), strlen(text), true, out, ROOM, &place), 9);
  expect("compile a name twice, place", place, 25);
  expect_bytes("compile a name twice, output", out, filled, ROOM);
}

static void checks(void) {
  uint8_t spoiled[49];
  uint64_t place = UNSET;
  expect("check", dk_check(example, 49, &place), 0);
  expect("check, place", place, 0);
  place = UNSET;
  expect("check a part", dk_check(example, 48, &place), 12);
  expect("check a part, place", place, 0);
  memcpy(spoiled, example, 49);
  spoiled[27] = 1;
  expect("check a spoiled record", dk_check(spoiled, 49, &place), 13);
  expect("check a spoiled record, place", place, 1);
  expect("check nothing", dk_check(example, 0, &place), 12);
}

static void merges(void) {
  uint8_t out[ROOM], filled[ROOM];
  uint64_t place = UNSET;
  uint32_t records = UNSET, pool = UNSET, which = UNSET;
  memset(out, FILL, ROOM);
  memset(filled, FILL, ROOM);
  expect("merge", dk_merge(example, 49, example, 49, false, out, ROOM, &place, &records, &pool, &which), 0);
  expect("merge, length", place, 74);
  expect("merge, record shift", records, 1);
  expect("merge, pool shift", pool, 1);
  expect("merge, table named", which, 0);
  expect("merge, count", out[7], 3);
  expect("merge, pool", out[11], 2);
  expect("merge, a of record 2", out[2 * 24 + 7], 1);
  expect_bytes("merge, behind the table", out + 74, filled + 74, ROOM - 74);
  memset(out, FILL, ROOM);
  expect("merge without room", dk_merge(example, 49, example, 49, true, out, 73, &place, &records, &pool, &which), 11);
  expect("merge without room, place", place, 74);
  expect("merge without room, record shift", records, 0);
  expect("merge without room, pool shift", pool, 0);
  expect("merge without room, table named", which, 0);
  expect("merge with no table", dk_merge(example, 49, example, 3, true, out, ROOM, &place, &records, &pool, &which), 12);
  expect("merge with no table, table named", which, 2);
  expect("merge no table", dk_merge(example, 0, example, 3, true, out, ROOM, &place, &records, &pool, &which), 12);
  expect("merge no table, table named", which, 1);
  expect_bytes("merges refused, output", out, filled, ROOM);
}

static void judges(void) {
  const char *text = "PULSE matches {rate matches {|100..160|}}";
  const char *data = "(PULSE)<rate=<140>>";
  uint8_t table[ROOM];
  uint64_t place, length;
  uint32_t record = UNSET;
  expect("compile a form", dk_compile(bytes(text), strlen(text), true, table, ROOM, &length), 0);
  place = UNSET;
  expect("judge", dk_judge(table, (size_t)length, 1, bytes(data), strlen(data), &record, &place), 0);
  expect("judge, record", record, 0);
  expect("judge, place", place, 0);
  data = "(PULSE)<rate=<72>>";
  expect("judge another", dk_judge(table, (size_t)length, 1, bytes(data), strlen(data), &record, &place), 24);
  expect("judge another, record", record, 3);
  expect("judge another, place", place, 13);
  expect("judge at no object", dk_judge(table, (size_t)length, 2, bytes(data), strlen(data), &record, &place), 14);
  expect("judge at no object, record", record, 0);
  expect("judge at no object, place", place, 2);
  expect("judge no text", dk_judge(table, (size_t)length, 1, bytes(data), 0, &record, &place), 2);
  expect("judge no text, record", record, 0);
  expect("judge no text, place", place, 0);
}

static void names(void) {
  uint64_t start = UNSET, length = UNSET;
  expect("name", dk_name(example, 49, 1, &start, &length), 0);
  expect("name, start", start, 48);
  expect("name, length", length, 1);
  expect("name of the header", dk_name(example, 49, 0, &start, &length), 14);
  expect("name of the header, place", start, 0);
  expect("name of the header, length", length, 0);
  expect("name in no table", dk_name(example, 5, 1, &start, &length), 12);
  expect("name in no table, length", length, 0);
}

int main(void) {
  compiles();
  checks();
  merges();
  judges();
  names();
  printf("C interface: %d differences\n", differences);
  return differences != 0;
}
