/* Salvages a record file that was left without its end, as by a full disk. In the repository's root, once `make lib` has built the library:
 *     printf '219300 327100\n255910 349510 14\n240000 335000\n' | bin/cradlekeel save --replace target/full.rec
 *     head -c 50 target/full.rec > target/cut_short.rec
 *     gcc -Iinclude examples/salvage.c target/lib/libcradlekeel.a -o target/salvage
 *     rm -f target/salvaged.rec && target/salvage 20 target/cut_short.rec target/salvaged.rec
 * The first word is the length of a record, 18 for files from before. The exit status is 0 where the new file is written and told of, 2 for
 * wrong usage, 1 otherwise. */
#include <inttypes.h>
#include <stdio.h>
#include <stdlib.h>
#include <string.h>
#include "cradlekeel.h"

static const uint32_t edges[] = {1600, 2500, 3500, 5000, 20001}; /* those with which the broken file was made: here the program's */

static uint8_t file[CK_LARGEST_FILE]; /* room for any new file */

static void *with_room(void *held, size_t bytes)
{
    void *at = realloc(held, bytes);
    if (!at) {
        fprintf(stderr, "salvage: no memory\n");
        exit(1);
    }
    return at;
}

/* All bytes of a file, however many; a file that cannot be read ends the program, which says why. */
static uint8_t *read_all(const char *path, size_t *length)
{
    uint8_t *bytes = NULL;
    size_t room = 0;
    FILE *from = fopen(path, "rb");
    for (*length = 0; from && *length == room; *length += fread(bytes + *length, 1, room - *length, from)) {
        room = 2 * room + CK_LARGEST_FILE;
        bytes = with_room(bytes, room);
    }
    if (!from || ferror(from)) {
        perror(path);
        exit(1);
    }
    fclose(from);
    return bytes;
}

/* Writes a new file; 0 where that fails, and then it has said why. */
static int write_new(const char *path, size_t length)
{
    FILE *to = fopen(path, "wbx"); /* x: a file that exists is not overwritten, so the broken one never is */
    if (!to) {
        perror(path);
        return 0;
    }
    int is_written = fwrite(file, 1, length, to) == length;
    if (fclose(to) != 0 || !is_written) { /* a full disk may show only when the file is closed */
        perror(path);
        remove(path);
        return 0;
    }
    return 1;
}

int main(int argc, char **argv)
{
    size_t length, record_length = argc != 4 ? 0 : strcmp(argv[1], "20") == 0 ? 20 : strcmp(argv[1], "18") == 0 ? 18 : 0;
    if (record_length == 0) {
        fprintf(stderr, "usage: salvage 18|20 BROKEN NEW\n");
        return 2;
    }
    uint8_t *bytes = read_all(argv[2], &length);
    size_t room = length / record_length; /* of the list: no more records can be dropped */
    uint64_t *dropped = with_room(NULL, (room + 1) * sizeof *dropped);
    ck_salvaged salvaged = ck_salvage(bytes, length, record_length, edges, 5, file, sizeof file, dropped, room);
    if (salvaged.refusal != CK_ACCEPTED || salvaged.kept == 0) { /* CK_TOO_MANY_RECORDS is the one refusal that this program can meet */
        fprintf(stderr, "salvage: %s: %s\n", argv[2], salvaged.refusal ? "over 3,200 records would be kept" : "nothing can be kept");
        return 1;
    }
    if (!write_new(argv[3], CK_RECORD_BYTES * salvaged.kept + CK_TRAILER_BYTES)) return 1;
    printf("%zu kept, %zu dropped, %zu bytes left over\n", salvaged.kept, salvaged.dropped, salvaged.leftover);
    for (size_t i = 0; i < salvaged.dropped; i++) printf("record %" PRIu64 " is dropped\n", dropped[i]);
    free(dropped);
    free(bytes);
    if (fflush(stdout) != 0 || ferror(stdout)) { /* of any print before, too */
        fprintf(stderr, "salvage: standard output could not be written\n");
        return 1;
    }
    return 0;
}
