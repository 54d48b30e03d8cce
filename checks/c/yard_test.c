/* Calls every function of the library yard on good, short and damaged input, and prints what each did. Every buffer stands between canaries, which are
   looked at after every call. With a sheet on standard input and the word "check", prints what ./barge prints; with the word "sheet", writes the
   example of the scope, made by the library. */
#include "praithong.h"

int printf(const char *format, ...);
int strcmp(const char *a, const char *b);
long read(int fd, void *buffer, unsigned long count);
long write(int fd, const void *buffer, unsigned long count);
void *malloc(unsigned long size);
void free(void *memory);
void exit(int status);

#define GUARD 16
#define ROOM 8192
#define CANARY 0xC5

/* A buffer of bytes or of numbers, with a guard on each side. */
static uint8_t guarded_bytes[GUARD + ROOM + GUARD];
static uint8_t guarded_sheet[GUARD + ROOM + GUARD];
static uint32_t guarded_fields[GUARD + 16 + GUARD];
static uint8_t *const out = guarded_bytes + GUARD;
static uint8_t *const sheet = guarded_sheet + GUARD;
static uint32_t *const fields = guarded_fields + GUARD;

static void fill(void) {
  for (int i = 0; i < (int)sizeof guarded_bytes; i++) guarded_bytes[i] = CANARY;
  for (int i = 0; i < GUARD + 16 + GUARD; i++) guarded_fields[i] = CANARY;
}

static void clear_sheet(void) {
  for (int i = 0; i < (int)sizeof guarded_sheet; i++) guarded_sheet[i] = CANARY;
}

static void broken(const char *name, const char *what, int at) {
  printf("%s: %s %d was changed\n", name, what, at);
  exit(1);
}

/* Nothing but the first `bytes` bytes of out and the first `numbers` fields may have changed, and nothing around the sheet. */
static void intact(const char *name, int bytes, int numbers) {
  for (int i = 0; i < (int)sizeof guarded_bytes; i++)
    if ((i < GUARD || GUARD + bytes <= i) && guarded_bytes[i] != CANARY) broken(name, "byte", i - GUARD);
  for (int i = 0; i < GUARD + 16 + GUARD; i++)
    if ((i < GUARD || GUARD + numbers <= i) && guarded_fields[i] != CANARY) broken(name, "field", i - GUARD);
  for (int i = 0; i < GUARD; i++)
    if (guarded_sheet[i] != CANARY || guarded_sheet[GUARD + ROOM + i] != CANARY) broken(name, "byte around the sheet", i);
}

static void refused(const char *name, uint64_t answer) {
  printf("%s: refused %u %u\n", name, yard_number(answer), yard_place(answer));
  intact(name, 0, 0);
}

static void show_bytes(const char *name, int count) {
  printf("%s:", name);
  for (int i = 0; i < count; i++) printf(" %02x", out[i]);
  printf("\n");
  intact(name, count, 0);
}

static void show_fields(const char *name, int count) {
  printf("%s:", name);
  for (int i = 0; i < count; i++) printf(" %u", fields[i]);
  printf("\n");
  intact(name, 0, count);
}

static void check(const char *name, uint64_t length, uint64_t room) {
  fill();
  uint64_t answer = yard_check(sheet, length, out, room);
  if (yard_is_refused(answer)) {
    refused(name, answer);
    return;
  }
  printf("%s: n %u failed %u\n", name, yard_n(answer), yard_failed(answer));
  show_bytes(name, YARD_VERDICT_BYTES * (int)yard_n(answer));
}

static void read_as(const char *name, int count, uint64_t (*function)(const uint8_t *, uint64_t, uint32_t *), uint64_t length) {
  fill();
  uint64_t answer = function(sheet, length, fields);
  if (yard_is_refused(answer)) {
    refused(name, answer);
    return;
  }
  printf("%s: answer %lu\n", name, answer);
  show_fields(name, count);
}

static void write_as(const char *name, const uint32_t *numbers, int count, uint64_t (*function)(const uint32_t *, uint8_t *, uint64_t), uint64_t room) {
  fill();
  uint64_t answer = function(numbers, out, room);
  if (yard_is_refused(answer)) {
    refused(name, answer);
    return;
  }
  printf("%s: answer %lu\n", name, answer);
  show_bytes(name, count);
}

static const uint32_t vessel[YARD_HEADER_FIELDS] = {1, 8000, 250, 60, 0, 20000, 200000, 2, 0, 0};
static const uint32_t vessel_2[YARD_HEADER_FIELDS] = {2, 8000, 250, 60, 0, 20000, 200000, 2, 400000, 300};
static const uint32_t plate[YARD_RECORD_FIELDS] = {2, 7, 1000, 0, 500, 600, 0, 0, 0, 0, 0, 0, 0};
static const uint32_t inner[YARD_RECORD_FIELDS] = {4, 9, 1000, 0, 500, 600, 0, 0, 0, 0, 30000, 0, 0};
static const uint32_t member[YARD_RECORD_FIELDS] = {5, 12, 0, 500, 300, 420, 100, 100, 90, 50, 560, 168, 1000};
static uint32_t damaged[YARD_RECORD_FIELDS];

static const uint32_t *with(const uint32_t *numbers, int count, int at, uint32_t number) {
  for (int i = 0; i < count; i++) damaged[i] = i == at ? number : numbers[i];
  return damaged;
}

static const uint32_t *header_with(const uint32_t *numbers, int at, uint32_t number) { return with(numbers, YARD_HEADER_FIELDS, at, number); }

static const uint32_t *record_with(const uint32_t *numbers, int at, uint32_t number) { return with(numbers, YARD_RECORD_FIELDS, at, number); }

static uint64_t header_bytes(const uint32_t *numbers) { return numbers[0] == 1 ? YARD_HEADER_1_BYTES : YARD_HEADER_2_BYTES; }

static void write_header(const char *name, const uint32_t *numbers, uint64_t room) {
  write_as(name, numbers, (int)header_bytes(numbers), yard_write_header, room);
}

static void read_header(const char *name, uint64_t length) { read_as(name, YARD_HEADER_FIELDS, yard_read_header, length); }

static void write_record(const char *name, const uint32_t *numbers, uint64_t room) {
  write_as(name, numbers, YARD_RECORD_BYTES, yard_write_record, room);
}

static void read_record(const char *name, uint64_t length) { read_as(name, YARD_RECORD_FIELDS, yard_read_record, length); }

static void read_verdict(const char *name, uint64_t length) { read_as(name, YARD_VERDICT_FIELDS, yard_read_verdict, length); }

/* What the test is made of must be written: its answers are 0. */
static void written(const char *what, uint64_t answers) {
  if (answers != 0) {
    printf("%s: not written\n", what);
    exit(1);
  }
}

/* The example of the scope: a vessel with a plate and a longitudinal. */
static void example(void) {
  uint8_t *first = sheet + YARD_HEADER_1_BYTES, *second = first + YARD_RECORD_BYTES;
  clear_sheet();
  written("example", yard_write_header(vessel, sheet, 44) | yard_write_record(plate, first, 32) | yard_write_record(member, second, YARD_RECORD_BYTES));
}

static void headers(void) {
  write_header("header written", vessel, YARD_HEADER_1_BYTES);
  write_header("header into more room", vessel, 40);
  write_header("header into 11 bytes", vessel, 11);
  write_header("header into no bytes", header_with(vessel, 0, 7), 0);
  write_header("version 0", header_with(vessel, 0, 0), YARD_HEADER_1_BYTES);
  write_header("version 257", header_with(vessel, 0, 257), YARD_HEADER_1_BYTES);
  write_header("L 70000", header_with(vessel, 1, 70000), YARD_HEADER_1_BYTES);
  write_header("L 8000 + 65536", header_with(vessel, 1, 8000 + 65536), YARD_HEADER_1_BYTES);
  write_header("D0 0", header_with(vessel, 2, 0), YARD_HEADER_1_BYTES);
  write_header("H 61", header_with(vessel, 3, 61), YARD_HEADER_1_BYTES);
  write_header("H 65596", header_with(vessel, 3, 65596), YARD_HEADER_1_BYTES);
  write_header("two runs", header_with(vessel, 4, 1), YARD_HEADER_1_BYTES);
  write_header("runs 2", header_with(vessel, 4, 2), YARD_HEADER_1_BYTES);
  write_header("runs 2 in 11 bytes", damaged, 11);
  damaged[7] = 401;
  write_header("runs 2 and n 401", damaged, YARD_HEADER_1_BYTES);
  damaged[2] = 1001;
  write_header("D0 1001, runs 2 and n 401", damaged, YARD_HEADER_1_BYTES);
  write_header("M 1000001", header_with(vessel, 5, 1000001), YARD_HEADER_1_BYTES);
  write_header("ZB 4294967295", header_with(vessel, 6, 4294967295u), YARD_HEADER_1_BYTES);
  write_header("n 65938", header_with(vessel, 7, 65938), YARD_HEADER_1_BYTES);
  write_header("version 1 with ZDB 1", header_with(vessel, 8, 1), YARD_HEADER_1_BYTES);
  write_header("version 1 with ZDB 1 into 11 bytes", damaged, 11);
  damaged[7] = 401;
  write_header("version 1 with n 401 and ZDB 1", damaged, YARD_HEADER_1_BYTES);
  write_header("version 1 with ZDB 4294967295", header_with(vessel, 8, 4294967295u), YARD_HEADER_1_BYTES);
  damaged[9] = 1;
  write_header("version 1 with ZDB 4294967295 and depth 1", damaged, YARD_HEADER_1_BYTES);
  write_header("version 1 with depth 300", header_with(vessel, 9, 300), YARD_HEADER_2_BYTES);
  example();
  read_header("header read", 44);
  read_header("header in 12 bytes", 12);
  read_header("header in 11 bytes", 11);
  sheet[11] |= 1;
  read_header("header with a spare bit", YARD_HEADER_1_BYTES);
  sheet[0] = 0;
  read_header("header with no version", YARD_HEADER_1_BYTES);
}

/* A vessel with a bottom plate and an inner bottom plate. */
static void bottoms(const uint32_t *numbers) {
  uint64_t bytes = header_bytes(numbers);
  uint8_t *first = sheet + bytes, *second = first + YARD_RECORD_BYTES;
  clear_sheet();
  written("two bottoms", yard_write_header(numbers, sheet, bytes) | yard_write_record(plate, first, YARD_RECORD_BYTES) | yard_write_record(inner, second, YARD_RECORD_BYTES));
}

static void headers_written_in_2(void) {
  write_header("version 2 written", vessel_2, YARD_HEADER_2_BYTES);
  write_header("version 2 into more room", vessel_2, 40);
  write_header("version 2 into 19 bytes", vessel_2, 19);
  write_header("version 2 into 15 bytes", vessel_2, 15);
  write_header("version 2 into 12 bytes", vessel_2, 12);
  write_header("version 2 into 11 bytes", vessel_2, 11);
  write_header("version 15 into 11 bytes", header_with(vessel_2, 0, 15), 11);
  write_header("version 15 into 15 bytes", damaged, 15);
  write_header("version 15 into 20 bytes", damaged, 20);
  write_header("version 258", header_with(vessel_2, 0, 258), YARD_HEADER_2_BYTES);
  write_header("version 2 with L 3999", header_with(vessel_2, 1, 3999), YARD_HEADER_2_BYTES);
  write_header("ZDB 0 into 15 bytes", header_with(vessel_2, 8, 0), 15);
  write_header("ZDB 0", damaged, YARD_HEADER_2_BYTES);
  damaged[9] = 0;
  write_header("ZDB 0 and depth 0", damaged, YARD_HEADER_2_BYTES);
  damaged[4] = 2;
  write_header("runs 2, ZDB 0 and depth 0", damaged, YARD_HEADER_2_BYTES);
  write_header("ZDB 1", header_with(vessel_2, 8, 1), YARD_HEADER_2_BYTES);
  write_header("ZDB 100000000", header_with(vessel_2, 8, 100000000), YARD_HEADER_2_BYTES);
  write_header("ZDB 100000001", header_with(vessel_2, 8, 100000001), YARD_HEADER_2_BYTES);
  write_header("ZDB 400000 + 2^27", header_with(vessel_2, 8, 134617728), YARD_HEADER_2_BYTES);
  write_header("ZDB 4294967295", header_with(vessel_2, 8, 4294967295u), YARD_HEADER_2_BYTES);
  write_header("depth 99", header_with(vessel_2, 9, 99), YARD_HEADER_2_BYTES);
  write_header("depth 100", header_with(vessel_2, 9, 100), YARD_HEADER_2_BYTES);
  write_header("depth 1000", header_with(vessel_2, 9, 1000), YARD_HEADER_2_BYTES);
  write_header("depth 1001", header_with(vessel_2, 9, 1001), YARD_HEADER_2_BYTES);
  write_header("depth 300 + 65536", header_with(vessel_2, 9, 65836), YARD_HEADER_2_BYTES);
}

static void headers_read_in_2(void) {
  bottoms(vessel_2);
  read_header("version 2 read", 52);
  read_header("version 2 in 20 bytes", 20);
  read_header("version 2 in 19 bytes", 19);
  read_header("version 2 in 15 bytes", 15);
  read_header("version 2 in 12 bytes", 12);
  read_header("version 2 in 11 bytes", 11);
  sheet[19] |= 1;
  read_header("the last of 27 spare bits", YARD_HEADER_2_BYTES);
  sheet[19] = 0;
  sheet[16] |= 4;
  read_header("the first of 27 spare bits", YARD_HEADER_2_BYTES);
  sheet[15] &= 0xE0;
  sheet[16] &= 7;
  read_header("depth 0 and a spare bit", YARD_HEADER_2_BYTES);
  for (int i = 12; i < 16; i++) sheet[i] = 0;
  read_header("ZDB 0, depth 0 and a spare bit", YARD_HEADER_2_BYTES);
  sheet[11] |= 4;
  read_header("the first of three spare bits, and ZDB 0", YARD_HEADER_2_BYTES);
  read_header("the same in 19 bytes", 19);
  sheet[0] = 0xf7;
  read_header("the same as version 15", YARD_HEADER_2_BYTES);
  read_header("the same as version 15 in 15 bytes", 15);
  read_header("the same as version 15 in 11 bytes", 11);
}

static void records_written(void) {
  write_record("plate written", plate, YARD_RECORD_BYTES);
  write_record("plate into 15 bytes", plate, 15);
  write_record("kind 257", record_with(plate, 0, 257), YARD_RECORD_BYTES);
  write_record("kind 258 of a plate", record_with(plate, 0, 258), YARD_RECORD_BYTES);
  write_record("kind 0", record_with(plate, 0, 0), YARD_RECORD_BYTES);
  write_record("kind 9", record_with(member, 0, 9), YARD_RECORD_BYTES);
  write_record("id 65543", record_with(plate, 1, 65543), YARD_RECORD_BYTES);
  write_record("z 65536", record_with(plate, 3, 65536), YARD_RECORD_BYTES);
  write_record("ballast 7", record_with(plate, 8, 7), YARD_RECORD_BYTES);
  write_record("ballast 7 in 3 bytes", damaged, 3);
  damaged[10] = 1;
  damaged[11] = 1;
  write_record("ballast 7, cargo and a number past it", damaged, YARD_RECORD_BYTES);
  damaged[5] = 4294967295u;
  write_record("T 4294967295, ballast 7, cargo and a number past it", damaged, YARD_RECORD_BYTES);
  write_record("ballast with a tank top at z", record_with(plate, 8, 1), YARD_RECORD_BYTES);
  damaged[9] = 120;
  write_record("ballast with a tank top", damaged, YARD_RECORD_BYTES);
  damaged[3] = 121;
  write_record("a tank top below z", damaged, YARD_RECORD_BYTES);
  write_record("a number past the cargo", record_with(plate, 11, 1), YARD_RECORD_BYTES);
  write_record("the last number", record_with(plate, 12, 4294967295u), YARD_RECORD_BYTES);
  damaged[10] = 5;
  write_record("cargo and the last number", damaged, YARD_RECORD_BYTES);
  write_record("member written", member, YARD_RECORD_BYTES);
  write_record("sigma 1 of 255", record_with(member, 9, 255), YARD_RECORD_BYTES);
  write_record("sigma 1 of 256", record_with(member, 9, 256), YARD_RECORD_BYTES);
  damaged[12] = 0;
  write_record("sigma 1 of 256 and K 0", damaged, YARD_RECORD_BYTES);
  damaged[8] = 356;
  write_record("eta 356, sigma 1 of 256 and K 0", damaged, YARD_RECORD_BYTES);
  write_record("W 100001", record_with(member, 10, 100001), YARD_RECORD_BYTES);
}

/* The record that begins at this byte, to the front of the sheet. */
static void to_the_front(int from) {
  for (int i = 0; i < YARD_RECORD_BYTES; i++) sheet[i] = sheet[from + i];
}

static void records_read(void) {
  example();
  to_the_front(YARD_HEADER_1_BYTES);
  read_record("plate read", YARD_RECORD_BYTES);
  read_record("plate in 15 bytes", 15);
  sheet[15] |= 1;
  read_record("plate with a spare bit", YARD_RECORD_BYTES);
  sheet[0] &= 15;
  read_record("record with no kind", YARD_RECORD_BYTES);
  to_the_front(YARD_HEADER_1_BYTES + YARD_RECORD_BYTES);
  read_record("member read", 20);
  sheet[14] &= 0xFC;
  read_record("member with K 232", YARD_RECORD_BYTES);
  bottoms(vessel_2);
  to_the_front(YARD_HEADER_2_BYTES + YARD_RECORD_BYTES);
  read_record("inner bottom plate read", YARD_RECORD_BYTES);
}

/* The example with its plate as thick as it must be, under a tank that presses more than the sea. */
static void ballast(void) {
  example();
  record_with(plate, 5, 617);
  damaged[8] = 1;
  damaged[9] = 400;
  written("plate with ballast", yard_write_record(damaged, sheet + YARD_HEADER_1_BYTES, YARD_RECORD_BYTES));
}

static void sheets(void) {
  example();
  check("example", 44, 8);
  check("example into more room", 44, 100);
  check("example into 7 bytes", 44, 7);
  check("example with a byte too few", 43, 8);
  check("example with a byte too many", 45, 8);
  check("11 bytes", 11, 8);
  sheet[28] = 0xF0;
  check("kind 15", 44, 8);
  example();
  sheet[42] &= 0xFC;
  check("K 232 in record 1", 44, 8);
  example();
  for (int i = 28; i < 44; i++) sheet[i] = sheet[i - YARD_RECORD_BYTES];
  check("equal ids", 44, 8);
  ballast();
  check("a plate under ballast", 44, 8);
}

/* The inner bottom plate needs 617 by ZB, 458 by rule 1 where ZDB is 400,000, and 873 where it is 100,000. */
static void sheets_in_2(void) {
  bottoms(vessel);
  check("two bottoms in version 1", 44, 8);
  check("version 1 with 20 + 16n bytes", 52, 8);
  bottoms(vessel_2);
  check("two bottoms in version 2", 52, 8);
  check("two bottoms into more room", 52, 100);
  check("two bottoms into 7 bytes", 52, 7);
  check("two bottoms with a byte too few", 51, 8);
  check("two bottoms with a byte too many", 53, 8);
  check("version 2 with 12 + 16n bytes", 44, 8);
  check("version 2 with no record there", YARD_HEADER_2_BYTES, 8);
  check("version 2 with 19 bytes", 19, 0);
  check("version 2 with 12 bytes", 12, 0);
  sheet[0] = 0xf7;
  check("version 15 with 12 bytes", 12, 0);
  check("version 15 with 52 bytes", 52, 8);
  bottoms(header_with(vessel_2, 8, 100000));
  check("two bottoms with a smaller ZDB", 52, 8);
  sheet[18] = 1;
  check("a spare bit of version 2", 52, 8);
  bottoms(vessel_2);
  sheet[36] = 0xF0;
  check("kind 15 in version 2", 52, 8);
  bottoms(vessel_2);
  sheet[51] = 1;
  check("a spare bit of record 1 in version 2", 52, 8);
  bottoms(vessel_2);
  for (int i = 36; i < 52; i++) sheet[i] = sheet[i - YARD_RECORD_BYTES];
  check("equal ids in version 2", 52, 8);
  bottoms(header_with(vessel_2, 7, 0));
  check("version 2 with no record", YARD_HEADER_2_BYTES, 0);
}

/* A sheet of version 2 with no record, by its length, wave height and depth. */
static void hull_of(const char *name, uint32_t L, uint32_t H, uint32_t depth) {
  uint32_t numbers[YARD_HEADER_FIELDS] = {2, L, 250, H, 0, 20000, 200000, 0, 400000, depth};
  clear_sheet();
  written(name, yard_write_header(numbers, sheet, YARD_HEADER_2_BYTES));
  check(name, YARD_HEADER_2_BYTES, 0);
}

/* A hull may be 35 depths long at H 60 and 25 at H 120. Beyond that a header alone is still fine; the sheet is refused, after 1 and 3 and before all else. */
static void slender_hulls(void) {
  hull_of("35 depths at H 60", 7980, 60, 228);
  hull_of("35 depths and a centimetre at H 60", 7981, 60, 228);
  hull_of("25 depths at H 120", 8000, 120, 320);
  hull_of("25 depths and a centimetre at H 120", 8001, 120, 320);
  hull_of("35 depths at H 120", 7980, 120, 228);
  hull_of("135 depths at H 0", 13500, 0, 100);
  bottoms(header_with(vessel_2, 9, 229));
  check("two bottoms on the least depth", 52, 8);
  write_header("header of a slender hull", header_with(vessel_2, 9, 228), YARD_HEADER_2_BYTES);
  bottoms(damaged);
  read_header("header of a slender hull", 52);
  check("two bottoms of a slender hull", 52, 8);
  check("a slender hull with a byte too many", 53, 8);
  check("a slender hull into 7 bytes", 52, 7);
  check("a slender hull in 19 bytes", 19, 8);
  sheet[36] = 0xF0;
  check("a slender hull with a kind 15", 52, 8);
  sheet[19] = 1;
  check("a slender hull with a spare bit", 52, 8);
}

static void verdicts(void) {
  example();
  fill();
  yard_check(sheet, 44, out, 8);
  for (int i = 0; i < 8; i++) sheet[i] = out[i];
  read_verdict("verdict read", 8);
  read_verdict("verdict in 3 bytes", 3);
  sheet[3] |= 2;
  read_verdict("verdict with a source", YARD_VERDICT_BYTES);
  sheet[3] |= 1;
  read_verdict("verdict with the highest source", YARD_VERDICT_BYTES);
  sheet[1] &= 0xC7;
  read_verdict("pass that requires", YARD_VERDICT_BYTES);
  ballast();
  fill();
  yard_check(sheet, 44, out, 8);
  for (int i = 0; i < YARD_VERDICT_BYTES; i++) sheet[i] = out[i];
  read_verdict("pass under ballast", YARD_VERDICT_BYTES);
}

/* What must stand in the sheet's buffer and around it, whatever an edit does; and the length of the sheet. */
static uint8_t guarded_wanted[GUARD + ROOM + GUARD];
static uint8_t *const wanted = guarded_wanted + GUARD;
static uint64_t length;

static void as_it_is(void) {
  for (int i = 0; i < (int)sizeof guarded_wanted; i++) guarded_wanted[i] = guarded_sheet[i];
}

/* The numbers of a record with the number's last three digits as its id, 000 being 1000, and all of it as its thickness, so that no two are alike. */
static const uint32_t *numbered(int number) {
  static uint32_t numbers[YARD_RECORD_FIELDS];
  for (int i = 0; i < YARD_RECORD_FIELDS; i++) numbers[i] = number % 2 ? plate[i] : member[i];
  numbers[1] = (uint32_t)((number - 1) % 1000 + 1);
  numbers[5] = (uint32_t)number;
  return numbers;
}

/* The header of the sheets that are edited. */
static const uint32_t *hull;

/* How long they are with so many records. */
static uint64_t long_with(uint64_t records) { return header_bytes(hull) + YARD_RECORD_BYTES * records; }

/* A sheet with these records, up to a 0, at the front of bytes; its length. */
static uint64_t lay(uint8_t *bytes, const int *numbers) {
  uint32_t count = 0;
  uint64_t answer = 0;
  for (; numbers[count]; count++) answer |= yard_write_record(numbered(numbers[count]), bytes + long_with(count), YARD_RECORD_BYTES);
  answer |= yard_write_header(header_with(hull, 7, count), bytes, long_with(0));
  written("sheet to edit", answer);
  return long_with(count);
}

#define LIST(...) ((const int[]){__VA_ARGS__})

static void begin(const int *numbers) {
  clear_sheet();
  length = lay(sheet, numbers);
  as_it_is();
}

/* An edit is to leave these records; the sixteen bytes that a removal frees are to be zero. */
static void leaving(const int *numbers) {
  uint64_t left = lay(wanted, numbers);
  if (left < length)
    for (int i = 0; i < YARD_RECORD_BYTES; i++) wanted[left + (uint64_t)i] = 0;
}

static void edited(const char *name, uint64_t answer) {
  if (yard_is_refused(answer)) {
    printf("%s: refused %u %u\n", name, yard_number(answer), yard_place(answer));
  } else {
    printf("%s: length %lu\n", name, answer);
    length = answer;
  }
  for (int i = 0; i < (int)sizeof guarded_wanted; i++) {
    if (guarded_sheet[i] != guarded_wanted[i]) {
      printf("%s: byte %d of the buffer is not what it must be\n", name, i - GUARD);
      exit(1);
    }
  }
  intact(name, 0, 0);
}

static void put(const char *name, const uint32_t *numbers, uint64_t room) {
  fill();
  edited(name, yard_put(sheet, room, length, numbers));
}

static void take(const char *name, uint32_t id, uint64_t room) {
  fill();
  edited(name, yard_remove(sheet, room, length, id));
}

static void puts_in(void) {
  begin(LIST(3, 7, 9, 0));
  leaving(LIST(3, 1007, 9, 0));
  put("put over record 1, in no more room", numbered(1007), length);
  begin(LIST(3, 7, 9, 0));
  leaving(LIST(2, 3, 7, 9, 0));
  put("put in front, in room for one", numbered(2), long_with(4));
  leaving(LIST(2, 3, 4, 7, 9, 0));
  put("put in the middle", numbered(4), 100);
  leaving(LIST(2, 3, 4, 7, 9, 1000, 0));
  put("put at the end", numbered(1000), ROOM);
  leaving(LIST(2, 3, 4, 7, 9, 2000, 0));
  put("put over the last", numbered(2000), long_with(6));
  begin(LIST(0));
  leaving(LIST(500, 0));
  put("put into an empty sheet", numbered(500), long_with(1));
}

static void takes_out(void) {
  begin(LIST(3, 7, 9, 12, 0));
  leaving(LIST(7, 9, 12, 0));
  take("remove the first", 3, length);
  leaving(LIST(7, 12, 0));
  take("remove the middle one", 9, 100);
  leaving(LIST(7, 0));
  take("remove the last", 12, long_with(3));
  leaving(LIST(7, 8, 0));
  put("put where bytes came free", numbered(8), long_with(2));
  leaving(LIST(8, 0));
  take("remove the first of two", 7, long_with(2));
  leaving(LIST(0));
  take("remove the only one", 8, long_with(1));
  take("remove from an empty sheet", 8, ROOM);
}

/* The sheet as it is now, refused by both, in a buffer of so many bytes. */
static void both_refuse(const char *name, uint64_t room) {
  as_it_is();
  put(name, numbered(8), room);
  take(name, 7, room);
}

static void damage(const char *name, int at, uint8_t byte) {
  begin(LIST(3, 7, 9, 0));
  sheet[at] = byte;
  both_refuse(name, ROOM);
}

static void refused_sheets(void) {
  begin(LIST(3, 7, 9, 0));
  both_refuse("a buffer of a byte too few", long_with(3) - 1);
  both_refuse("a buffer of no bytes", 0);
  length = 11;
  both_refuse("a sheet of 11 bytes", ROOM);
  length = long_with(0) - 1;
  both_refuse("a sheet of a byte less than its header", ROOM);
  length = 0;
  both_refuse("a sheet of no bytes", 0);
  length = 0xFFFFFFFFFFFFFFFFu;
  both_refuse("the longest sheet", ROOM);
  length = long_with(3) - 1;
  both_refuse("a sheet with a byte too few", ROOM);
  length = long_with(4);
  both_refuse("a sheet with a record too many", ROOM);
  length = header_bytes(hull[0] == 1 ? vessel_2 : vessel) + 3 * YARD_RECORD_BYTES;
  both_refuse("a sheet as long as the other version's", ROOM);
  damage("version 0", 0, 0x07);
  damage("version 15", 0, 0xf7);
  length = 15;
  both_refuse("version 15 in 15 bytes", ROOM);
  damage("a spare bit of the header", 11, 0x19);
  damage("kind 15 in record 1", (int)long_with(1), 0xF0);
  damage("a spare bit of record 2", (int)long_with(3) - 1, 1);
  begin(LIST(3, 7, 7, 0));
  both_refuse("equal ids", ROOM);
}

/* What only a sheet of version 2 is refused for. */
static void refused_in_2(void) {
  begin(LIST(3, 7, 9, 0));
  length = 15;
  both_refuse("a sheet of version 2 in 15 bytes", ROOM);
  damage("ZDB over 100000000", 12, 0xFF);
  damage("depth 1004", 15, 0x1F);
  damage("the last spare bit of version 2", 19, 1);
  damage("a depth of 204", 15, 6);
  sheet[long_with(1)] = 0xF0;
  both_refuse("a depth of 204 and kind 15", ROOM);
  length = long_with(3) - 1;
  both_refuse("a depth of 204 and a byte too few", ROOM);
}

static void refused_edits(void) {
  begin(LIST(3, 7, 9, 0));
  put("put kind 9", record_with(numbered(7), 0, 9), length);
  put("put id 0", record_with(numbered(7), 1, 0), length);
  put("put id 65543", record_with(numbered(7), 1, 65543), ROOM);
  put("put the last number of a plate", record_with(numbered(7), 12, 4294967295u), ROOM);
  put("put K 0 of a member, with no room", record_with(numbered(8), 12, 0), length);
  put("put a new id in no more room", numbered(8), length);
  put("put a new id in a byte too few", numbered(8), length + 15);
  take("remove id 8", 8, ROOM);
  take("remove id 0", 0, ROOM);
  take("remove id 10", 10, ROOM);
  take("remove id 65535", 65535, ROOM);
  take("remove id 65543", 65543, ROOM);
  take("remove id 4294967295", 4294967295u, ROOM);
}

static void full(void) {
  static int numbers[401];
  for (int i = 0; i < 399; i++) numbers[i] = 2 * i + 2;
  begin(numbers);
  numbers[399] = 999;
  leaving(numbers);
  put("put record 399", numbered(999), long_with(400));
  put("put with n at 400", numbered(1000), ROOM);
  put("put in front with n at 400", numbered(1), ROOM);
  put("put kind 9 with n at 400", record_with(numbered(7), 0, 9), ROOM);
  put("put K 0 of a member with n at 400", record_with(numbered(8), 12, 0), ROOM);
  numbers[399] = 1999;
  leaving(numbers);
  put("put over record 399", numbered(1999), long_with(400));
  for (int i = 0; i < 400; i++) numbers[i] = numbers[i + 1];
  leaving(numbers);
  take("remove the first of 400", 2, long_with(400));
  take("remove it again", 2, long_with(400));
}

static void edits(const uint32_t *header) {
  hull = header;
  printf("edits in version %u\n", hull[0]);
  puts_in();
  takes_out();
  refused_sheets();
  if (hull[0] == 2) refused_in_2();
  refused_edits();
  full();
}

/* The text of a sheet, with a guard on each side. */
#define TEXT 65536
static uint8_t guarded_text[GUARD + TEXT + GUARD];
static uint8_t *const text = guarded_text + GUARD;

static void clear_text(void) {
  for (int i = 0; i < (int)sizeof guarded_text; i++) guarded_text[i] = CANARY;
}

/* Bytes into a sheet, in an output of so many. */
static void read_bytes(const char *name, const uint8_t *bytes, uint64_t count, uint64_t room) {
  fill();
  uint64_t answer = yard_read_text(bytes, count, out, room);
  if (yard_is_refused(answer)) {
    refused(name, answer);
    return;
  }
  printf("%s: length %lu\n", name, answer);
  show_bytes(name, (int)answer);
}

static void read_into(const char *name, const char *words, uint64_t room) {
  uint64_t count = 0;
  clear_text();
  for (; words[count]; count++) text[count] = (uint8_t)words[count];
  read_bytes(name, text, count, room);
}

static void read_text(const char *name, const char *words) { read_into(name, words, ROOM); }

/* What stands in the output becomes the sheet, so that it can be written again. */
static uint64_t read_back(const char *name, const char *words) {
  uint64_t count = 0;
  clear_text();
  clear_sheet();
  fill();
  for (; words[count]; count++) text[count] = (uint8_t)words[count];
  uint64_t answer = yard_read_text(text, count, out, ROOM);
  if (yard_is_refused(answer)) {
    printf("%s: not read\n", name);
    exit(1);
  }
  for (uint64_t i = 0; i < answer; i++) sheet[i] = out[i];
  return answer;
}

/* The sheet, of so many bytes, into text, which is shown with its line ends. */
static void write_text(const char *name, uint64_t count, uint64_t room) {
  fill();
  clear_text();
  uint64_t answer = yard_write_text(sheet, count, text, room);
  uint64_t written = yard_is_refused(answer) ? 0 : answer;
  for (int i = 0; i < (int)sizeof guarded_text; i++)
    if ((i < GUARD || GUARD + written <= (uint64_t)i) && guarded_text[i] != CANARY) broken(name, "byte of the text", i - GUARD);
  if (yard_is_refused(answer)) {
    refused(name, answer);
    return;
  }
  intact(name, 0, 0);
  printf("%s: length %lu\n", name, answer);
  if (answer > 200) return;
  printf("%s: ", name);
  for (uint64_t i = 0; i < answer; i++) {
    if (text[i] == '\r') printf("<CR>");
    else if (text[i] == '\n') printf("<LF>");
    else printf("%c", text[i]);
  }
  printf("\n");
}

/* The lines of the example, and of the two bottoms in version 2. */
#define HEADER(n) "1,8000,250,60,0,20000,200000," n
#define HEADER_2(n) "2,8000,250,60,0,20000,200000," n ",400000,300"
#define PLATE "2,7,1000,0,500,600,0,0,0,0,0"
#define INNER "4,9,1000,0,500,600,0,0,0,0,30000"
#define MEMBER "5,12,0,500,300,420,100,100,90,50,560,168,1000"
#define EXAMPLE HEADER("2") "\r\n" PLATE "\r\n" MEMBER "\r\n"
#define BOTTOMS HEADER_2("2") "\r\n" PLATE "\r\n" INNER "\r\n"

static void texts_read(void) {
  read_text("text of the example", EXAMPLE);
  read_into("text into no more room", EXAMPLE, 44);
  read_into("text into 43 bytes", EXAMPLE, 43);
  read_into("text into no bytes", EXAMPLE, 0);
  read_text("text of version 2", BOTTOMS);
  read_into("text of version 2 into 52 bytes", BOTTOMS, 52);
  read_into("text of version 2 into 51 bytes", BOTTOMS, 51);
  read_text("a header with no record", HEADER("0"));
  read_text("version 2 with no record", HEADER_2("0") "\n");
}

static void line_ends(void) {
  read_text("LF alone", HEADER("2") "\n" PLATE "\n" MEMBER "\n");
  read_text("both line ends, the last one missing", HEADER("2") "\r\n" PLATE "\n" MEMBER);
  read_text("empty text", "");
  read_text("a LF", "\n");
  read_text("a CR LF", "\r\n");
  read_text("a CR", "\r");
  read_text("two LF", "\n\n");
  read_text("an empty line at the end", HEADER("0") "\n\n");
  read_text("an empty line at the end, with CR LF", HEADER("0") "\r\n\r\n");
  read_text("an empty line in between", HEADER("1") "\r\n\r\n" PLATE "\r\n");
  read_text("an empty line in front", "\n" HEADER("0") "\n");
  read_text("a CR at the end", HEADER("0") "\r");
  read_text("a CR between two lines", HEADER("1") "\r" PLATE "\r\n");
  read_text("a CR before a comma", "1\r,8000,250,60,0,20000,200000,0\n");
  read_text("two CR before a LF", HEADER("0") "\r\r\n");
  read_text("a byte-order mark", "\xEF\xBB\xBF" HEADER("0") "\n");
}

static void quotes(void) {
  read_text("fields in quotes", "\"1\",\"8000\",250,\"60\",\"0\",20000,200000,\"2\"\r\n" PLATE "\n\"5\",\"12\",0,500,300,420,100,100,90,50,560,168,\"1000\"");
  read_text("a quote that is not closed", "1,8000,250,60,0,20000,200000,\"0\n");
  read_text("a quote that is not closed, in a line of two fields", "1,\"8000");
  read_text("a quote inside a field", "1,80\"00,250,60,0,20000,200000,0\n");
  read_text("a quote inside a field of a line of two", "1,80\"00\n");
  read_text("a quote at the end of a field", "1,8000\",250,60,0,20000,200000,0\n");
  read_text("a blank behind a closing quote", "\"1\" ,8000,250,60,0,20000,200000,0\n");
  read_text("a CR behind a closing quote", "\"1\"\r,8000,250,60,0,20000,200000,0\n");
  read_text("a CR LF behind a closing quote", "1,8000,250,60,0,20000,200000,\"0\"\r\n");
  read_text("an empty field in quotes", "1,8000,250,60,\"\",20000,200000,0\n");
  read_text("a doubled quote", "1,8000,250,60,\"0\"\"\",20000,200000,0\n");
  read_text("a doubled quote and a comma in a line of two fields", "1,\"80\"\",00\"\n");
  read_text("a doubled quote that closes nothing", "1,\"80\"\"\n");
  read_text("three quotes behind each other at the end", "1,8000,250,60,0,20000,200000,\"0\"\"\"");
  read_text("a quote in the second line", HEADER("1") "\n2,7,10\"00,0,500,600,0,0,0,0,0\n");
  read_text("a line end in quotes is none", HEADER("2") "\n9,\"a\r\nb\nc\"\nx\n");
}

static void numbers_written(void) {
  read_text("a leading zero", "1,08000,250,60,0,20000,200000,0\n");
  read_text("two zeros", "1,8000,250,60,00,20000,200000,0\n");
  read_text("a version with a leading zero, and two fields", "01,8000\n");
  read_text("a blank before a number", "1, 8000,250,60,0,20000,200000,0\n");
  read_text("a sign", "1,+8000,250,60,0,20000,200000,0\n");
  read_text("a minus", "1,8000,250,60,-0,20000,200000,0\n");
  read_text("a fraction", "1,8000.0,250,60,0,20000,200000,0\n");
  read_text("a colon", "1,800:,250,60,0,20000,200000,0\n");
  read_text("an empty field", "1,8000,250,60,,20000,200000,0\n");
  read_text("an empty first field", ",8000\n");
  read_text("L in nine digits", "1,100008000,250,60,0,20000,200000,0\n");
  read_text("L in ten digits", "1,4294975296,250,60,0,20000,200000,0\n");
  read_text("L 16384", "1,16384,250,60,0,20000,200000,0\n");
  read_text("L 16383", "1,16383,250,60,0,20000,200000,0\n");
  read_text("runs 2 in a text", "1,8000,250,60,2,20000,200000,0\n");
  read_text("n 512", HEADER("512") "\n");
  read_text("n 511", HEADER("511") "\n");
  read_text("ZDB 2^27", "2,8000,250,60,0,20000,200000,0,134217728,300\n");
  read_text("ZDB 2^27 - 1", "2,8000,250,60,0,20000,200000,0,134217727,300\n");
  read_text("depth 1024", "2,8000,250,60,0,20000,200000,0,400000,1024\n");
  read_text("z 1024 of a plate", HEADER("1") "\n2,7,1000,1024,500,600,0,0,0,0,0\n");
  read_text("W 131072", HEADER("1") "\n5,12,0,500,300,420,100,100,90,50,131072,168,1000\n");
  read_text("W 131071", HEADER("1") "\n5,12,0,500,300,420,100,100,90,50,131071,168,1000\n");
}

static void counts(void) {
  read_text("7 numbers in version 1", "1,8000,250,60,0,20000,200000\n");
  read_text("9 numbers in version 1", HEADER("0") ",0\n");
  read_text("a comma behind the header", HEADER("0") ",\n");
  read_text("the numbers of version 2 in version 1", HEADER("0") ",400000,300\n");
  read_text("8 numbers in version 2", "2,8000,250,60,0,20000,200000,0\n");
  read_text("9 numbers in version 2", "2,8000,250,60,0,20000,200000,0,400000\n");
  read_text("11 numbers in version 2", HEADER_2("0") ",0\n");
  read_text("10 numbers for a plate", HEADER("1") "\n2,7,1000,0,500,600,0,0,0,0\n");
  read_text("a plate's zero bits", HEADER("1") "\n" PLATE ",0\n");
  read_text("13 numbers for a plate", HEADER("1") "\n" PLATE ",0,0\n");
  read_text("11 numbers for a member", HEADER("1") "\n5,12,0,500,300,420,100,100,90,50,560\n");
  read_text("12 numbers for a member", HEADER("1") "\n5,12,0,500,300,420,100,100,90,50,560,168\n");
  read_text("14 numbers for a member", HEADER("1") "\n" MEMBER ",0\n");
  read_text("version 0 in a text", "0,x,y\n");
  read_text("version 15 in a text", "15\n");
  read_text("version 15 in a text", "15,\"a\"\"\",b,1,1,1,1,1,1,1,1,1,1,1\n");
  read_text("version 16 in a text", "16\n");
  read_text("version 15 and a record of no kind", "15\n9\n");
  read_text("version 15 and a plate of two numbers", "15\n2,7\n");
  read_text("version 15 and a number too wide", "15\n2,1024,1000,0,500,600,0,0,0,0,0\n");
  read_text("kind 0 in a text", HEADER("1") "\n0\n");
  read_text("kind 9 in a text", HEADER("1") "\n9,9999999999,x\n");
  read_text("kind 15 in a text", HEADER("1") "\n15,,,,,,,,,,,,,,,\n");
  read_text("kind 16 in a text", HEADER("1") "\n16\n");
  read_text("kind 9 behind a plate", HEADER("2") "\n" PLATE "\n9\n");
}

static void in_turn(void) {
  read_text("two fields, one of them no number", "1,x\n");
  read_text("two fields, the first no number", "x,1\n");
  read_text("two fields, the first empty in quotes", "\"\",1\n");
  read_text("15 in line 1 and 14 in line 2", "1,8000\nx\n");
  read_text("14 in line 2 and 15 in line 3", HEADER("2") "\nx\n2,7\n");
  read_text("15 in line 2 and a quote in line 3", HEADER("2") "\n2,7\n\"\n");
  read_text("D0 0 and 14 in line 2", "1,8000,0,60,0,20000,200000,1\nx\n");
  read_text("D0 0 and no record", "1,8000,0,60,0,20000,200000,1\n");
  read_text("kind 9 in line 2 and 15 in line 3", HEADER("2") "\n9\n" PLATE ",0\n");
  read_text("kind 9 and one record of two", HEADER("2") "\n9\n");
  read_into("14 into no bytes", "x", 0);
  read_into("15 into no bytes", "1,8000", 0);
  read_into("4 into no bytes", HEADER("1") "\n", 0);
  read_into("kind 9 into no bytes", HEADER("1") "\n9\n", 0);
}

static void by_the_table(void) {
  read_text("one record of two", HEADER("2") "\n" PLATE "\n");
  read_text("a record of none", HEADER("0") "\n" PLATE "\n");
  read_text("three records of two", EXAMPLE MEMBER "\n");
  read_text("one record of two in version 2", HEADER_2("2") "\n" PLATE "\n");
  read_text("a slender hull in a text", "2,8000,250,60,0,20000,200000,0,400000,228\n");
  read_text("a slender hull and a record of none", "2,8000,250,60,0,20000,200000,0,400000,228\n" PLATE "\n");
  read_text("a depth of 229 in a text", "2,8000,250,60,0,20000,200000,0,400000,229\n");
  read_text("ZDB 0 in a text", "2,8000,250,60,0,20000,200000,0,0,300\n");
  read_text("K 232 in record 1 of a text", HEADER("2") "\n" PLATE "\n5,12,0,500,300,420,100,100,90,50,560,168,232\n");
  read_text("equal ids in a text", HEADER("2") "\n" PLATE "\n" PLATE "\n");
  read_text("ids that fall", HEADER("2") "\n" MEMBER "\n" PLATE "\n");
}

static void texts_written(void) {
  example();
  write_text("example as text", 44, TEXT);
  write_text("example as text, into no more room", 44, 109);
  write_text("example as text, into 108 bytes", 44, 108);
  write_text("example as text, into no bytes", 44, 0);
  write_text("text of a sheet with a byte too few", 43, TEXT);
  write_text("text of a sheet with a byte too many", 45, TEXT);
  write_text("text of 11 bytes", 11, TEXT);
  write_text("text of no bytes", 0, 0);
  sheet[28] = 0xF0;
  write_text("text of kind 15", 44, TEXT);
  write_text("text of kind 15 into no bytes", 44, 0);
  example();
  sheet[42] &= 0xFC;
  write_text("text of K 232 in record 1", 44, TEXT);
  example();
  sheet[11] |= 1;
  write_text("text of a spare bit", 44, TEXT);
  sheet[0] = 0xf7;
  write_text("text of version 15", 44, TEXT);
  bottoms(vessel_2);
  write_text("two bottoms as text", 52, TEXT);
  write_text("two bottoms as text, into no more room", 52, 107);
  write_text("two bottoms as text, into 106 bytes", 52, 106);
  for (int i = 36; i < 52; i++) sheet[i] = sheet[i - YARD_RECORD_BYTES];
  write_text("text of equal ids", 52, TEXT);
  bottoms(header_with(vessel_2, 9, 228));
  write_text("text of a slender hull", 52, TEXT);
  bottoms(header_with(vessel, 7, 0));
  write_text("text of no record", YARD_HEADER_1_BYTES, TEXT);
  write_text("quoted fields, written again", read_back("quoted", "\"1\",8000,\"250\",60,0,20000,200000,\"1\"\n\"2\",\"7\",1000,0,500,600,0,0,0,0,\"0\""), TEXT);
  write_text("a text, written again", read_back("text", EXAMPLE), TEXT);
}

/* A sheet of 400 plates into text and back, and what a record more or another line at the end comes to. */
static void full_text(const char *name, const uint32_t *header) {
  uint64_t bytes = header_bytes(header), length = bytes;
  clear_sheet();
  written(name, yard_write_header(header_with(header, 7, 400), sheet, bytes));
  for (uint32_t id = 1; id <= 400; id++, length += YARD_RECORD_BYTES) written(name, yard_write_record(record_with(plate, 1, id), sheet + length, YARD_RECORD_BYTES));
  write_text(name, length, TEXT);
  uint64_t answer = yard_write_text(sheet, length, text, TEXT);
  write_text(name, length, answer - 1);
  yard_write_text(sheet, length, text, TEXT);
  fill();
  printf("%s, read again: length %lu\n", name, yard_read_text(text, answer, out, length));
  for (uint64_t i = 0; i < length; i++)
    if (out[i] != sheet[i]) broken(name, "byte read again", (int)i);
  intact(name, (int)length, 0);
  read_bytes(name, text, answer, length - 1);
  text[answer] = '9';
  read_bytes(name, text, answer + 1, length);
  text[answer] = 'x';
  read_bytes(name, text, answer + 1, length);
}

/* So many bytes of one kind behind the first words and before the last, in memory that has no byte more. */
static void many(const char *name, const char *front, uint8_t byte, uint64_t count, const char *back) {
  uint64_t length = 0, words = 0;
  while (front[words]) words++;
  for (uint64_t i = 0; back[i]; i++) words++;
  uint8_t *bytes = malloc(words + count);
  if (!bytes) {
    printf("%s: no memory\n", name);
    exit(1);
  }
  for (; front[length]; length++) bytes[length] = (uint8_t)front[length];
  for (uint64_t i = 0; i < count; i++) bytes[length++] = byte;
  for (uint64_t i = 0; back[i]; i++) bytes[length++] = (uint8_t)back[i];
  read_bytes(name, bytes, length, ROOM);
  free(bytes);
}

/* So many lines of one byte, a kind that is not known, behind a header, and then a line that is no number. */
static void many_lines(const char *name, uint64_t count) {
  const char *front = HEADER("400") "\n";
  uint64_t length = 0;
  uint8_t *bytes = malloc(2 * count + 64);
  if (!bytes) {
    printf("%s: no memory\n", name);
    exit(1);
  }
  for (; front[length]; length++) bytes[length] = (uint8_t)front[length];
  for (uint64_t i = 0; i < count; i++, length += 2) {
    bytes[length] = '9';
    bytes[length + 1] = '\n';
  }
  read_bytes(name, bytes, length, ROOM);
  bytes[length] = 'x';
  read_bytes(name, bytes, length + 1, ROOM);
  free(bytes);
}

static void long_texts(uint64_t count) {
  printf("%lu bytes\n", count);
  many("digits", "", '1', count, "");
  many("zeros", "", '0', count, "");
  many("quotes", "", '"', count, "");
  many("quotes, and one more", "\"", '"', count, "");
  many("commas", "", ',', count, "");
  many("LF", "", '\n', count, "");
  many("CR", "", '\r', count, "");
  many("digits in quotes", "\"", '1', count, "\"");
  many("digits in quotes that are not closed", "\"", '1', count, "");
  many("quotes in a field", "1,\"", '"', count, "\"\n");
  many("commas behind a version", "1", ',', count, "\n");
  many("commas behind no version", "3", ',', count, "\n");
  many("digits in line 2", HEADER("1") "\n", '1', count, "\n");
  many("quotes in line 2", HEADER("1") "\n", '"', count, "\n");
  many("commas in line 2", HEADER("1") "\n", ',', count, "\n");
  many("LF behind a header", HEADER("1") "\n", '\n', count, "");
  many("commas behind a kind", HEADER("1") "\n2", ',', count, "\n");
  many("commas behind no kind", HEADER("1") "\n9", ',', count, "\n");
  many("commas in quotes behind no kind", HEADER("1") "\n9,\"", ',', count, "\"\n");
  many("LF in quotes behind no kind", HEADER("1") "\n9,\"", '\n', count, "\"\nx");
  many_lines("lines of no kind", count / 2);
}

static void texts(void) {
  texts_read();
  line_ends();
  quotes();
  numbers_written();
  counts();
  in_turn();
  by_the_table();
  texts_written();
  full_text("400 plates", vessel);
  full_text("400 plates in version 2", vessel_2);
  long_texts(65536);
  long_texts(1000000);
}

/* What ./barge prints of the sheet on standard input. */
static void as_barge(void) {
  fill();
  uint64_t length = 0;
  long got;
  while (length < ROOM && (got = read(0, sheet + length, ROOM - length)) > 0) length += (uint64_t)got;
  uint64_t answer = yard_check(sheet, length, out, ROOM);
  if (yard_is_refused(answer)) {
    intact("check", 0, 0);
    printf("refused %u %u\n", yard_number(answer), yard_place(answer));
    return;
  }
  intact("check", YARD_VERDICT_BYTES * (int)yard_n(answer), 0);
  for (uint32_t i = 0; i < yard_n(answer); i++) {
    if (yard_read_verdict(out + YARD_VERDICT_BYTES * i, YARD_VERDICT_BYTES, fields) != 0) {
      printf("verdict %u cannot be read\n", i);
      exit(1);
    }
    intact("verdict", YARD_VERDICT_BYTES * (int)yard_n(answer), YARD_VERDICT_FIELDS);
    printf("%u %u %u %u\n", fields[0], fields[1], fields[2], fields[3]);
  }
  printf("%u %u\n", yard_n(answer), yard_failed(answer));
}

/* What the header's own helpers take out of an answer. */
static void taken_apart(const char *name, uint64_t answer) {
  if (yard_is_refused(answer)) printf("%s: refused %u %u\n", name, yard_number(answer), yard_place(answer));
  else printf("%s: n %u failed %u\n", name, yard_n(answer), yard_failed(answer));
}

/* They are C and not proved, so that they are tried at the ends of what they are for. */
static void helpers(void) {
  const uint64_t one = 1;
  taken_apart("the least answer", 0);
  taken_apart("one record, passed", 65536);
  taken_apart("a full sheet, all failed", 400 * 65536 + 400);
  taken_apart("the greatest that is no refusal", (one << 40) - 1);
  taken_apart("the least refusal", one << 40);
  taken_apart("the last record's last field", (7 * one << 40) + 32 * 399 + 13);
  taken_apart("the greatest number", 15 * one << 40);
  taken_apart("the greatest place", (8 * one << 40) + 4294967295u);
}

int main(int count, char **words) {
  clear_sheet();
  if (count == 2 && strcmp(words[1], "check") == 0) {
    as_barge();
  } else if (count == 2 && strcmp(words[1], "sheet") == 0) {
    example();
    write(1, sheet, 44);
  } else {
    headers();
    headers_written_in_2();
    headers_read_in_2();
    records_written();
    records_read();
    sheets();
    sheets_in_2();
    slender_hulls();
    verdicts();
    edits(vessel);
    edits(vessel_2);
    texts();
    helpers();
  }
  return 0;
}
