/* Runs a script, and then says why a predicate is off and what switches it on.
 *
 * The script is read from standard input where the program has the word `-`, else it is the one below. */
#include "juqabhino.h"

#include <stdio.h>
#include <stdlib.h>
#include <string.h>

static const char BUILT_IN[] = "opt unix\n"
                               "cfg unix\n"
                               "format \"hi\"\n"
                               "cfg windows\n"
                               "format \"ho\"\n";

static const char OPTIONS[] = "opt unix\n"
                              "opt feature = \"net\"\n";

static const char PREDICATE[] = "any(all(windows, feature = \"net\"), not(unix))";

static const uint8_t *bytes_of(const char *text) { return (const uint8_t *)text; }

/* Room for so many bytes, initialised. */
static uint8_t *room_for(size_t length) {
  uint8_t *room = calloc(length == 0 ? 1 : length, 1);
  if (room == NULL) {
    fputs("no memory\n", stderr);
    exit(1);
  }
  return room;
}

/* All of standard input, but for what is behind one byte more than a script may have. */
static uint8_t *read_input(size_t *length) {
  uint8_t *script = room_for(JUQABHINO_MOST + 1);
  *length = fread(script, 1, JUQABHINO_MOST + 1, stdin);
  return script;
}

/* Prints what becomes of a script: a first call with a guess, and a second one where that was too small. */
static uint8_t run(const uint8_t *script, size_t script_len) {
  size_t room_len = 4096;
  uint8_t *room = room_for(room_len);
  size_t told = 0;
  uint8_t status = juqabhino_run(bytes_of(""), 0, script, script_len, room, room_len, &told);
  if (status == JUQABHINO_NO_ROOM) {
    free(room);
    room_len = told;
    room = room_for(room_len);
    status = juqabhino_run(bytes_of(""), 0, script, script_len, room, room_len, &told);
  }
  fwrite(room, 1, told, stdout);
  free(room);
  return status;
}

/* Prints why the predicate is off, and each way to switch it on. These texts are short. */
static uint8_t explain(const char *options, const char *predicate) {
  uint8_t room[256] = {0};
  uint8_t reads = JUQABHINO_UNKNOWN;
  size_t told = 0;
  size_t options_len = strlen(options);
  size_t predicate_len = strlen(predicate);
  uint8_t status = juqabhino_check(bytes_of(options), options_len, bytes_of(predicate), predicate_len, &reads);
  if (status != JUQABHINO_OK || reads != JUQABHINO_FALSE)
    return status;
  status = juqabhino_reason(bytes_of(options), options_len, bytes_of(predicate), predicate_len, room, sizeof room, &told);
  if (status == JUQABHINO_OK)
    printf("%s is off: %.*s\n", predicate, (int)told, (const char *)room);
  for (uint64_t number = 0;; number++) {
    status = juqabhino_hint(bytes_of(options), options_len, bytes_of(predicate), predicate_len, &number, room, sizeof room,
                            &told);
    if (status != JUQABHINO_OK)
      return status == JUQABHINO_NONE ? JUQABHINO_OK : status;
    printf("to switch it on: %.*s\n", (int)told, (const char *)room);
    if (number == UINT64_MAX)
      return JUQABHINO_OK;
  }
}

int main(int count, char **words) {
  uint8_t status;
  if (count == 2 && strcmp(words[1], "-") == 0) {
    size_t length;
    uint8_t *script = read_input(&length);
    status = run(script, length);
    free(script);
  } else {
    status = run(bytes_of(BUILT_IN), strlen(BUILT_IN));
  }
  if (status == JUQABHINO_OK)
    status = explain(OPTIONS, PREDICATE);
  return status;
}
