/* A gateway that saves, acts and restarts, and hands each message on once.

       cc -I include tests/example.c crates/capi/out/libcapi.a -o example && ./example [FOLDER]

   It saves before it acts: else a cut between the two would double the message. So that such a cut does not lose it either, the gateway
   looks at its start for a message that is saved as complete and was not handed on. FOLDER is empty at first; without one, one is made. */
#define _POSIX_C_SOURCE 200809L
#include <errno.h>
#include <fcntl.h>
#include <stdio.h>
#include <stdlib.h>
#include <string.h>
#include <sys/wait.h>
#include <unistd.h>
#include "kirruskabe.h"

#define OWN 0x2301AF
#define STATION 0x230456
#define COMPLETE 2 /* phase, octet 4 of the stored form */

/* What is saved, as one: the stored form, and how many messages were completed so far, which names the last of them. */
static struct {
    uint8_t form[KIRRUSKABE_FORM];
    uint32_t messages;
} saved;

static void fail(const char *what) {
    fprintf(stderr, "example: %s: %s\n", what, strerror(errno));
    exit(1);
}

/* Nothing that the example itself gives to the library may be refused. */
static void taken(const char *what, uint8_t number) {
    if (number == 0) return;
    fprintf(stderr, "example: %s is refused with %d\n", what, number);
    exit(1);
}

/* Writing in another file and renaming it: after a cut the file is the old one or the new one, and never a part of each. */
static void put_whole(const char *name, const void *octets, size_t length) {
    int file = open("new", O_WRONLY | O_CREAT | O_TRUNC, 0600), folder = open(".", O_RDONLY);
    if (file < 0 || folder < 0 || write(file, octets, length) != (ssize_t)length || fsync(file) != 0 || close(file) != 0
        || rename("new", name) != 0 || fsync(folder) != 0 || close(folder) != 0) fail(name);
}

/* Hands on the message of the stored form, if that was not done: its file is the act and the record of it in one. */
static void hand_on(void) {
    const uint8_t *first = saved.form, *second = saved.form + 512;
    const int length = 10 * first[14] - 4 - first[13];
    uint8_t store[630];
    char name[32];
    snprintf(name, sizeof name, "message-%lu", (unsigned long)saved.messages);
    if (access(name, F_OK) == 0) return;
    if (errno != ENOENT) fail(name);
    memcpy(store, first + 23, 487);
    memcpy(store + 487, second + 4, 143);
    put_whole(name, store, (size_t)length);
    printf("  hands on %s: %.*s\n", name, length, (const char *)store);
}

/* The stamp differs from the one before. */
static uint16_t next_stamp(void) {
    return (uint16_t)((saved.form[2] << 8 | saved.form[3]) + 1);
}

/* A fresh receiver only where nothing was ever saved: it knows of no message that was handed on. */
static void start(void) {
    uint8_t copy[KIRRUSKABE_FORM], line[KIRRUSKABE_LINE], number;
    int file = open("saved", O_RDONLY);
    if (file < 0 && errno == ENOENT) {
        taken("the own address", kirruskabe_fresh(OWN, 0, saved.form, sizeof saved.form));
        put_whole("saved", &saved, sizeof saved);
        return;
    }
    if (file < 0 || read(file, &saved, sizeof saved) != (ssize_t)sizeof saved || close(file) != 0) fail("saved");
    memcpy(copy, saved.form, sizeof copy);
    number = kirruskabe_on_end(copy, sizeof copy, 0, line, sizeof line);
    if (number == 17 || number == 18) taken("the stored form", number);
    if (saved.form[4] == COMPLETE) hand_on();
}

/* A datagram comes. Refused, it changes nothing; else what it leaves is saved, and then its answer is acted on. */
static void take(const uint8_t *datagram, int cut) {
    uint8_t line[KIRRUSKABE_LINE];
    if (kirruskabe_on_datagram(saved.form, sizeof saved.form, next_stamp(), datagram, KIRRUSKABE_DATAGRAM, line, sizeof line) != 0) return;
    if (line[0] == KIRRUSKABE_HANDED_ON) saved.messages++;
    put_whole("saved", &saved, sizeof saved);
    if (line[0] != KIRRUSKABE_HANDED_ON) return;
    if (cut) {
        printf("  cut between saving and acting\n");
        exit(0);
    }
    hand_on();
}

/* The station sends a message: its header, then its blocks. */
static void take_message(const char *message, uint8_t ns, int cut) {
    static const uint8_t labels[17];
    uint8_t datagram[KIRRUSKABE_DATAGRAM], info[12], size[2];
    const uint8_t *octets = (const uint8_t *)message;
    const size_t length = strlen(message);
    taken("the message", kirruskabe_message_size(length, size, sizeof size));
    for (size_t i = 0; i <= size[0]; i++) {
        const uint8_t datatype = i == 0 ? 6 : 7;
        if (i == 0) taken("the header", kirruskabe_full_header(length, 4, ns, OWN, STATION, info, sizeof info));
        else taken("a block", kirruskabe_message_block(octets, length, i - 1, info, sizeof info));
        taken("a datagram", kirruskabe_write_datagram(labels, sizeof labels, 1, datatype, info, sizeof info, 1, datagram, sizeof datagram));
        take(datagram, cut);
    }
}

/* One run of the gateway, a process by itself: nothing but the files goes from one run to the next. */
static void run(const char *title, const char *message, uint8_t ns, int cut) {
    int status;
    printf("%s\n", title);
    fflush(stdout);
    pid_t child = fork();
    if (child == 0) {
        start();
        printf("  takes %s\n", message);
        take_message(message, ns, cut);
        exit(0);
    }
    if (child < 0 || waitpid(child, &status, 0) != child) fail("run");
    if (status != 0) exit(1);
}

int main(int argc, char **argv) {
    char made[] = "/tmp/kirruskabe-XXXXXX";
    const char *folder = argc > 1 ? argv[1] : mkdtemp(made);
    if (folder == NULL || chdir(folder) != 0) fail(argc > 1 ? argv[1] : made);
    if (argc < 2) printf("in %s\n", folder);
    run("first run", "tare +12", 5, 1);
    run("second run, the station repeats", "tare +12", 5, 0);
    run("third run, the station repeats again", "tare +12", 5, 0);
    run("fourth run, the next message", "depth 212", 6, 0);
    run("fifth run, the first message once more, as a new one", "tare +12", 5, 0);
    return 0;
}
