/* Tests of the calls. Prints a line for each: `pass NAME` or `FAIL NAME`, and `end` last. Its words say which:
 *
 *   rows SCRIPT OUTPUT ..   the output of each script is what the file behind it has
 *   calls                   answers, refusals, room, each with what must stay as it was
 *   stack                   the same, and the deepest predicate, on a stack of 1 MiB
 *   long                    scripts and texts of 16 MiB, and of one byte more
 *   grows                   1,000 turns of calls take no memory that stays
 *   threads                 two threads call at once */
#include "juqabhino.h"

#include <malloc.h>
#include <pthread.h>
#include <stdbool.h>
#include <stdio.h>
#include <stdlib.h>
#include <string.h>

enum { FILLED = 0xA5 };

static void tell(const char *name, const char *part, bool holds) { printf("%s %s%s\n", holds ? "pass" : "FAIL", name, part); }

static void *block_of(size_t length) {
  void *block = malloc(length);
  if (block == NULL) {
    puts("FAIL no memory for the tests");
    exit(1);
  }
  return block;
}

/* Bytes at the very end of a block, so that a tool sees a read behind them; the pointer is not null where there are none. */
typedef struct {
  uint8_t *block;
  const uint8_t *bytes;
  size_t len;
} Text;

static Text text_of(const void *bytes, size_t len) {
  Text text = {block_of(len + 1), NULL, len};
  memcpy(text.block + 1, bytes, len);
  text.bytes = text.block + 1;
  return text;
}

static Text text(const char *bytes) { return text_of(bytes, strlen(bytes)); }

/* Room at the end of a block, filled with one byte. */
static Text room_of(size_t len) {
  Text room = {block_of(len + 1), NULL, len};
  memset(room.block, FILLED, len + 1);
  room.bytes = room.block + 1;
  return room;
}

static uint8_t *room_at(const Text *room) { return room->block + 1; }

/* The room has the text at its front and is as it was behind that; the byte in front of it is as it was. */
static bool holds(const Text *room, const char *want, size_t want_len) {
  if (want_len > room->len || memcmp(room->bytes, want, want_len) != 0)
    return false;
  bool is_filled = room->block[0] == FILLED;
  for (size_t i = want_len; i < room->len; i++)
    is_filled = is_filled && room->bytes[i] == FILLED;
  return is_filled;
}

/* Whether a run has this status and output; where the output does not fit, its length is told and nothing is written. */
static bool runs(const char *words, Text script, size_t room_len, uint8_t status, const char *wanted) {
  Text asked = text(words);
  Text copy = text_of(script.bytes, script.len);
  Text room = room_of(room_len);
  size_t told = 77;
  uint8_t got = juqabhino_run(asked.bytes, asked.len, script.bytes, script.len, room_at(&room), room.len, &told);
  size_t length = strlen(wanted);
  bool is_right = got == status && told == length && holds(&room, wanted, status == JUQABHINO_NO_ROOM ? 0 : length);
  is_right = is_right && memcmp(copy.bytes, script.bytes, script.len) == 0 && memcmp(asked.bytes, words, asked.len) == 0;
  free(asked.block);
  free(copy.block);
  free(room.block);
  return is_right;
}

typedef struct {
  const char *name, *words, *script;
  size_t room_len;
  uint8_t status;
  const char *wanted;
} Run;

#define HI "0 code Arguments::from_str(s\"6869\")\n"
#define GEN_4 "calls 5\noff 1\ncode 4\nhints 2\nexprs 75\n"

static const Run RUNS[] = {
    {"an empty script", "", "", 8, JUQABHINO_OK, ""},
    {"an empty script without room", "", "", 0, JUQABHINO_OK, ""},
    {"a call", "", "format \"hi\"", 100, JUQABHINO_OK, HI},
    {"the word run", "run", "format \"hi\"\n", 100, JUQABHINO_OK, HI},
    {"room that is just enough", "", "format \"hi\"", 36, JUQABHINO_OK, HI},
    {"room of one byte too few", "", "format \"hi\"", 35, JUQABHINO_NO_ROOM, HI},
    {"no room", "", "format \"hi\"", 0, JUQABHINO_NO_ROOM, HI},
    {"the words gen 4", "gen 4", "", 100, JUQABHINO_OK, GEN_4},
    {"gen reads no script", "gen 4", "this is none", 100, JUQABHINO_OK, GEN_4},
    {"a summary that does not fit", "gen 4", "", 10, JUQABHINO_NO_ROOM, GEN_4},
    {"another word", "walk", "format \"hi\"", 100, JUQABHINO_USAGE, "error usage\n"},
    {"gen without a number", "gen", "", 100, JUQABHINO_USAGE, "error usage\n"},
    {"gen of too large a number", "gen 4294967296", "", 100, JUQABHINO_USAGE, "error usage\n"},
    {"words that are not UTF-8", "\xFF\xFE", "format \"hi\"", 100, JUQABHINO_USAGE, "error usage\n"},
    {"words that end in a part of a character", "run\xC3", "format \"hi\"", 100, JUQABHINO_USAGE, "error usage\n"},
    {"a refusal that does not fit", "walk", "", 11, JUQABHINO_NO_ROOM, "error usage\n"},
    {"no script", "", "format \"hi\"\n\nformat\n", 100, JUQABHINO_SYNTAX, "error syntax at line 3\n"},
    {"a script that is not UTF-8", "", "format \"hi\"\nopt \xFF\n", 100, JUQABHINO_SYNTAX, "error syntax at line 2\n"},
    {"a script that ends in a part of a character", "", "opt caf\xC3", 100, JUQABHINO_SYNTAX, "error syntax at line 1\n"},
};

static void test_runs(void) {
  for (size_t i = 0; i < sizeof RUNS / sizeof RUNS[0]; i++) {
    const Run *row = &RUNS[i];
    Text script = text(row->script);
    tell("run: ", row->name, runs(row->words, script, row->room_len, row->status, row->wanted));
    free(script.block);
  }
  Text zero = text_of("opt a\n\0", 7);
  tell("run: ", "a byte of 0 is no script", runs("", zero, 100, JUQABHINO_SYNTAX, "error syntax at line 2\n"));
  free(zero.block);
}

/* One question: options, a predicate, what it reads, why, and the first hint from a number on. A null text is none. */
typedef struct {
  const char *options, *predicate;
  uint8_t reads;
  const char *reason;
  uint64_t number, found;
  const char *hint;
} Question;

static const Question QUESTIONS[] = {
    {"opt unix\n", "unix", JUQABHINO_TRUE, NULL, 0, 0, NULL},
    {"opt unix", "windows", JUQABHINO_FALSE, "windows is disabled", 0, 0, "enable windows"},
    {"opt unix", "windows", JUQABHINO_FALSE, "windows is disabled", 1, 0, NULL},
    {"opt unix", "windows", JUQABHINO_FALSE, "windows is disabled", UINT64_MAX, 0, NULL},
    {"opt unix", "not(unix)", JUQABHINO_FALSE, "unix is enabled", 0, 0, "disable unix"},
    {"opt unix", "", JUQABHINO_UNKNOWN, NULL, 0, 0, NULL},
    {"", "any()", JUQABHINO_FALSE, "", 0, 0, NULL},
    {"", "all()", JUQABHINO_TRUE, NULL, 0, 0, NULL},
    {"", "all(any(a, b), c)", JUQABHINO_FALSE, "a, b and c are disabled", 0, 0, "enable a and c"},
    {"", "all(any(a, b), c)", JUQABHINO_FALSE, "a, b and c are disabled", 1, 1, "enable b and c"},
    {"", "all(any(a, b), c)", JUQABHINO_FALSE, "a, b and c are disabled", 2, 0, NULL},
    {"opt a", "any(all(x, not(x)), all(y, not(a)))", JUQABHINO_FALSE, "a is enabled and x and y are disabled", 0, 1,
     "enable y; disable a"},
    {"opt feature = \"net\"", "feature = \"net\"", JUQABHINO_TRUE, NULL, 0, 0, NULL},
    {"opt feature = \"net\"", "feature = \"std\"", JUQABHINO_FALSE, "feature = \"std\" is disabled", 0, 0,
     "enable feature = \"std\""},
    {"", "version(\"1.70\")", JUQABHINO_UNKNOWN, NULL, 0, 0, NULL},
    {"# a note\n\ncfg windows\nopt unix\nformat \"hi\"\n", "unix", JUQABHINO_TRUE, NULL, 0, 0, NULL},
};

static bool checks(const Text *options, const Text *predicate, uint8_t status, uint8_t reads) {
  uint8_t got = 77;
  bool is_right = juqabhino_check(options->bytes, options->len, predicate->bytes, predicate->len, &got) == status;
  return is_right && got == (status == JUQABHINO_OK ? reads : 77);
}

/* The reason through room of a length; `reason` is null where the status goes without an output. */
static bool reasons(const Text *options, const Text *predicate, size_t room_len, uint8_t status, const char *reason) {
  Text room = room_of(room_len);
  size_t told = 77;
  uint8_t got =
      juqabhino_reason(options->bytes, options->len, predicate->bytes, predicate->len, room_at(&room), room.len, &told);
  const char *wanted = status == JUQABHINO_OK ? reason : "";
  bool is_right = got == status && holds(&room, wanted, strlen(wanted));
  if (status != JUQABHINO_NONE)
    is_right = is_right && told == (reason == NULL ? 0 : strlen(reason));
  free(room.block);
  return is_right;
}

/* The hint through room of a length, from a number on, with the number that is found. */
static bool hints(const Text *options, const Text *predicate, uint64_t number, size_t room_len, uint8_t status,
                  uint64_t found, const char *hint) {
  Text room = room_of(room_len);
  size_t told = 77;
  uint64_t at = number;
  uint8_t got =
      juqabhino_hint(options->bytes, options->len, predicate->bytes, predicate->len, &at, room_at(&room), room.len, &told);
  const char *wanted = status == JUQABHINO_OK ? hint : "";
  bool is_right = got == status && holds(&room, wanted, strlen(wanted));
  if (status == JUQABHINO_OK)
    is_right = is_right && at == found;
  else if (status != JUQABHINO_NONE)
    is_right = is_right && at == number;
  if (status != JUQABHINO_NONE)
    is_right = is_right && told == (hint == NULL ? 0 : strlen(hint));
  free(room.block);
  return is_right;
}

static void test_question(const Question *row) {
  Text options = text(row->options);
  Text predicate = text(row->predicate);
  uint8_t status = row->reason == NULL ? JUQABHINO_NONE : JUQABHINO_OK;
  tell("check: ", row->predicate, checks(&options, &predicate, JUQABHINO_OK, row->reads));
  tell("reason: ", row->predicate, reasons(&options, &predicate, 100, status, row->reason));
  if (row->reason != NULL && row->reason[0] != '\0') {
    size_t length = strlen(row->reason);
    tell("reason, just room: ", row->predicate, reasons(&options, &predicate, length, status, row->reason));
    tell("reason, no room: ", row->predicate,
         reasons(&options, &predicate, length - 1, JUQABHINO_NO_ROOM, row->reason));
  }
  status = row->hint == NULL ? JUQABHINO_NONE : JUQABHINO_OK;
  tell("hint: ", row->predicate, hints(&options, &predicate, row->number, 100, status, row->found, row->hint));
  if (row->hint != NULL) {
    size_t length = strlen(row->hint);
    tell("hint, just room: ", row->predicate,
         hints(&options, &predicate, row->number, length, status, row->found, row->hint));
    tell("hint, no room: ", row->predicate,
         hints(&options, &predicate, row->number, length - 1, JUQABHINO_NO_ROOM, 0, row->hint));
  }
  free(options.block);
  free(predicate.block);
}

typedef struct {
  const char *name, *options, *predicate;
  uint8_t status;
} Refused;

static const Refused REFUSED[] = {
    {"options that are none", "opt unix\nopt", "unix", JUQABHINO_SYNTAX},
    {"options that are not UTF-8", "opt \xFF", "unix", JUQABHINO_SYNTAX},
    {"a bracket that is not closed", "opt unix", "all(unix", JUQABHINO_PREDICATE},
    {"a bracket that is not opened", "opt unix", "unix)", JUQABHINO_PREDICATE},
    {"a quote that is not closed", "opt unix", "feature = \"std", JUQABHINO_PREDICATE},
    {"a predicate of two lines", "opt unix", "unix\nformat \"hi\"", JUQABHINO_PREDICATE},
    {"a predicate that is not UTF-8", "opt unix", "\xFF", JUQABHINO_PREDICATE},
};

/* A refused question leaves all as it was, and tells no length. */
static void test_refused(const char *name, const Text *options, const Text *predicate, uint8_t status) {
  tell("check refused: ", name, checks(options, predicate, status, 0));
  tell("reason refused: ", name, reasons(options, predicate, 100, status, NULL));
  tell("hint refused: ", name, hints(options, predicate, 3, 100, status, 0, NULL));
}

static void test_calls(void) {
  test_runs();
  for (size_t i = 0; i < sizeof QUESTIONS / sizeof QUESTIONS[0]; i++)
    test_question(&QUESTIONS[i]);
  for (size_t i = 0; i < sizeof REFUSED / sizeof REFUSED[0]; i++) {
    Text options = text(REFUSED[i].options);
    Text predicate = text(REFUSED[i].predicate);
    test_refused(REFUSED[i].name, &options, &predicate, REFUSED[i].status);
    free(options.block);
    free(predicate.block);
  }
}

/* A predicate of so many `not(` around one word. */
static Text nested(size_t depth) {
  Text predicate = room_of(depth * 5 + 1);
  for (size_t i = 0; i < depth; i++)
    memcpy(room_at(&predicate) + i * 4, "not(", 4);
  room_at(&predicate)[depth * 4] = 'a';
  memset(room_at(&predicate) + depth * 4 + 1, ')', depth);
  return predicate;
}

static void *on_small_stack(void *unused) {
  Text options = text("opt a");
  Text deepest = nested(127);
  test_calls();
  tell("stack: ", "a deep predicate", checks(&options, &deepest, JUQABHINO_OK, JUQABHINO_FALSE));
  tell("stack: ", "its reason", reasons(&options, &deepest, 100, JUQABHINO_OK, "a is enabled"));
  tell("stack: ", "its hint", hints(&options, &deepest, 0, 100, JUQABHINO_OK, 0, "disable a"));
  free(options.block);
  free(deepest.block);
  return unused;
}

static void test_stack(void) {
  pthread_attr_t small;
  pthread_t thread;
  bool is_started = pthread_attr_init(&small) == 0 && pthread_attr_setstacksize(&small, 1 << 20) == 0 &&
                    pthread_create(&thread, &small, on_small_stack, NULL) == 0;
  tell("stack: ", "a thread of 1 MiB is started", is_started);
  if (is_started)
    tell("stack: ", "it ends", pthread_join(thread, NULL) == 0);
}

/* So many line feeds, and then a text. */
static Text filled(size_t len, const char *end) {
  Text script = room_of(len);
  size_t end_len = strlen(end);
  memset(room_at(&script), '\n', len - end_len);
  memcpy(room_at(&script) + len - end_len, end, end_len);
  return script;
}

static void test_long(void) {
  Text most = filled(JUQABHINO_MOST, "format \"hi\"");
  Text faulty = filled(JUQABHINO_MOST, "format");
  Text options = filled(JUQABHINO_MOST, "opt unix");
  Text too_long = filled(JUQABHINO_MOST + 1, "opt unix");
  Text unix_word = text("unix");
  Text no_options = text("");
  tell("long: ", "16 MiB of script", runs("", most, 100, JUQABHINO_OK, HI));
  tell("long: ", "a fault in its last line", runs("", faulty, 100, JUQABHINO_SYNTAX, "error syntax at line 16777211\n"));
  tell("long: ", "one byte more", runs("", too_long, 100, JUQABHINO_TOO_LONG, "error too long\n"));
  tell("long: ", "16 MiB of options", checks(&options, &unix_word, JUQABHINO_OK, JUQABHINO_TRUE));
  test_refused("options of one byte more", &too_long, &unix_word, JUQABHINO_TOO_LONG);
  test_refused("a predicate of one byte more", &no_options, &too_long, JUQABHINO_TOO_LONG);
  Text texts[] = {most, faulty, options, too_long, unix_word, no_options};
  for (size_t i = 0; i < sizeof texts / sizeof texts[0]; i++)
    free(texts[i].block);
}

/* How many bytes the allocator has handed out, or 0 where it does not say. With glibc, what a thread keeps for later counts too. */
static size_t in_use(void) {
#if defined __GLIBC_PREREQ
#if __GLIBC_PREREQ(2, 33)
  return mallinfo2().uordblks;
#endif
#endif
  return 0;
}

/* Each call with each kind of end: an answer, no room, a refusal. Whether all end as they must. */
static bool turn(const Text *script, const Text *no_script, const Text *options, const Text *predicate) {
  return runs("", *script, 100, JUQABHINO_OK, HI) && runs("", *script, 9, JUQABHINO_NO_ROOM, HI) &&
         runs("", *no_script, 100, JUQABHINO_SYNTAX, "error syntax at line 2\n") &&
         runs("gen 4", *script, 100, JUQABHINO_OK, GEN_4) && checks(options, predicate, JUQABHINO_OK, JUQABHINO_FALSE) &&
         checks(no_script, predicate, JUQABHINO_SYNTAX, 0) &&
         reasons(options, predicate, 100, JUQABHINO_OK, "windows is disabled") &&
         reasons(options, predicate, 9, JUQABHINO_NO_ROOM, "windows is disabled") &&
         hints(options, predicate, 0, 100, JUQABHINO_OK, 0, "enable windows") &&
         hints(options, predicate, 1, 100, JUQABHINO_NONE, 0, NULL) &&
         hints(options, no_script, 0, 100, JUQABHINO_PREDICATE, 0, NULL);
}

static void test_grows(void) {
  Text script = text("format \"hi\"");
  Text no_script = text("opt unix\nopt (");
  Text options = text("opt unix");
  Text predicate = text("windows");
  bool are_right = true;
  for (int i = 0; i < 10; i++)
    are_right = are_right && turn(&script, &no_script, &options, &predicate);
  size_t before = in_use();
  for (int i = 0; i < 1000; i++)
    are_right = are_right && turn(&script, &no_script, &options, &predicate);
  size_t after = in_use();
  tell("grows: ", "each of 1,000 turns ends as it must", are_right);
  if (before == 0)
    puts("bytes in use: the allocator does not say");
  else
    tell("grows: ", "the bytes in use are as before", after == before);
  free(script.block);
  free(no_script.block);
  free(options.block);
  free(predicate.block);
}

typedef struct {
  const char *script, *wanted, *options;
  uint8_t reads;
  bool is_right;
} Work;

static void *work(void *given) {
  Work *mine = given;
  Text script = text(mine->script);
  Text options = text(mine->options);
  Text predicate = text("unix");
  mine->is_right = true;
  for (int i = 0; i < 2000; i++)
    mine->is_right = mine->is_right && runs("", script, 100, JUQABHINO_OK, mine->wanted) &&
                     checks(&options, &predicate, JUQABHINO_OK, mine->reads);
  free(script.block);
  free(options.block);
  free(predicate.block);
  return NULL;
}

static void test_threads(void) {
  Work works[] = {{"format \"hi\"", HI, "opt unix", JUQABHINO_TRUE, false},
                  {"format \"he\"", "0 code Arguments::from_str(s\"6865\")\n", "", JUQABHINO_FALSE, false}};
  pthread_t threads[2];
  bool are_started = pthread_create(&threads[0], NULL, work, &works[0]) == 0;
  are_started = are_started && pthread_create(&threads[1], NULL, work, &works[1]) == 0;
  tell("threads: ", "two are started", are_started);
  if (!are_started)
    return;
  for (int i = 0; i < 2; i++)
    pthread_join(threads[i], NULL);
  tell("threads: ", "the first has its own answers", works[0].is_right);
  tell("threads: ", "the second has its own answers", works[1].is_right);
}

/* The bytes of a file, of at most 64 KiB. */
static Text read_file(const char *path) {
  Text bytes = room_of(65536);
  FILE *file = fopen(path, "rb");
  if (file == NULL) {
    printf("FAIL cannot read %s\n", path);
    exit(1);
  }
  bytes.len = fread(room_at(&bytes), 1, bytes.len, file);
  fclose(file);
  Text exact = text_of(bytes.bytes, bytes.len);
  free(bytes.block);
  return exact;
}

static void test_rows(int count, char **paths) {
  for (int i = 0; i + 1 < count; i += 2) {
    Text script = read_file(paths[i]);
    Text output = read_file(paths[i + 1]);
    Text room = room_of(output.len + 3);
    size_t told = 0;
    uint8_t none = 0;
    uint8_t status = juqabhino_run(&none, 0, script.bytes, script.len, room_at(&room), room.len, &told);
    tell("row: ", paths[i],
         status == JUQABHINO_OK && told == output.len && holds(&room, (const char *)output.bytes, output.len));
    free(script.block);
    free(output.block);
    free(room.block);
  }
}

int main(int count, char **words) {
  const char *word = count < 2 ? "" : words[1];
  if (strcmp(word, "rows") == 0)
    test_rows(count - 2, words + 2);
  else if (strcmp(word, "calls") == 0)
    test_calls();
  else if (strcmp(word, "stack") == 0)
    test_stack();
  else if (strcmp(word, "long") == 0)
    test_long();
  else if (strcmp(word, "grows") == 0)
    test_grows();
  else if (strcmp(word, "threads") == 0)
    test_threads();
  else
    return 2;
  puts("end");
  return 0;
}
