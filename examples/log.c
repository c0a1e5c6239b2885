/*
 * A tree that survives a loss of power. One file holds the tables that a start found, and behind them the log of the changes since
 * (docs/LOG.md):
 *
 *     cc -I include examples/log.c target/staticlib/libcapi.a -o log
 *     ./log FILE
 *
 * It reads commands, one to a line: `mkdir PATH`, `create PATH`, `remove PATH`, `move PATH PATH`, `list`. It says `done` when the change
 * is on the disk, so that what was done stays done, however the program ends.
 */
#define _POSIX_C_SOURCE 200809L
#include <errno.h>
#include <fcntl.h>
#include <libgen.h>
#include <stdio.h>
#include <stdlib.h>
#include <string.h>
#include <unistd.h>

#include "skeinrabbit.h"

#define MAX_FILE_NAME 4000

static struct skein_tables tables;
static uint8_t room[4096];
static struct skein_log changes = SKEIN_EMPTY_LOG(room);
/* How many bytes of the log are in the file. */
static uint64_t kept;
static const char *file_name;
static int file = -1;

static void fail(const char *what)
{
	perror(what);
	exit(1);
}

static void put(int to, const void *bytes, size_t size)
{
	const char *from = (const char *)bytes;

	while (size > 0) {
		const ssize_t written = write(to, from, size);

		if (written < 0 && errno != EINTR)
			fail("write");
		if (written > 0) {
			from += written;
			size -= (size_t)written;
		}
	}
}

static size_t get(int from, void *bytes, size_t size)
{
	size_t got = 0;

	while (got < size) {
		const ssize_t part = read(from, (char *)bytes + got, size - got);

		if (part < 0 && errno != EINTR)
			fail("read");
		if (part == 0)
			break;
		if (part > 0)
			got += (size_t)part;
	}
	return got;
}

/* Makes the rename of a file last. */
static void sync_directory(void)
{
	char name[MAX_FILE_NAME + 1];
	int directory;

	strcpy(name, file_name);
	directory = open(dirname(name), O_RDONLY | O_DIRECTORY);
	if (directory < 0 || fsync(directory) != 0)
		fail("directory");
	close(directory);
}

/* Starts a log at the tables of this moment: a new file with these and nothing behind, which takes the old one's place at once. */
static void start_log(void)
{
	char name[MAX_FILE_NAME + 5];

	sprintf(name, "%s.new", file_name);
	if (file >= 0)
		close(file);
	file = open(name, O_WRONLY | O_CREAT | O_TRUNC, 0600);
	if (file < 0)
		fail(name);
	put(file, &tables, sizeof(tables));
	if (fsync(file) != 0)
		fail("fsync");
	if (rename(name, file_name) != 0)
		fail("rename");
	sync_directory();
	changes.used = 0;
	kept = 0;
}

/* The tables as the last run left them, or fresh ones. */
static void recover(void)
{
	const int old = open(file_name, O_RDONLY);
	size_t size;
	int64_t dropped;

	if (old < 0) {
		if (errno != ENOENT)
			fail(file_name);
		skeinrabbit_fresh(&tables, SKEIN_MAX_LEVEL);
		return;
	}
	if (get(old, &tables, sizeof(tables)) != sizeof(tables)) {
		fprintf(stderr, "%s holds no tables\n", file_name);
		exit(1);
	}
	size = get(old, room, sizeof(room));
	close(old);
	dropped = skeinrabbit_replay(&tables, room, size);
	if (dropped < 0) {
		fprintf(stderr, "%s is damaged: error %lld\n", file_name, (long long)-dropped);
		exit(1);
	}
	printf("%lld of %lu bytes made again\n", (long long)size - (long long)dropped, (unsigned long)size);
}

/* Puts what a call appended into the file. Only then is the change done; if it cannot be, the program ends before it says so. */
static void keep(void)
{
	if (changes.used == kept)
		return;
	put(file, changes.bytes + kept, (size_t)(changes.used - kept));
	if (fsync(file) != 0)
		fail("fsync");
	kept = changes.used;
}

/* The directory of a path, and its last component in `name`. */
static int64_t split(const char *path, const char **name)
{
	const char *const slash = strrchr(path, '/');

	if (slash == NULL)
		return -SKEIN_EINVAL;
	*name = slash + 1;
	return skeinrabbit_lookup(&tables, path, slash == path ? 1 : (size_t)(slash - path));
}

static int64_t create(const char *path, uint64_t kind)
{
	const char *name;
	const int64_t above = split(path, &name);

	if (above < 0)
		return above;
	return skeinrabbit_create(&tables, SKEIN_FIRST_THREAD, (uint64_t)above, kind, name, strlen(name), &changes, NULL);
}

static int64_t remove_path(const char *path)
{
	const int64_t entry = skeinrabbit_lookup(&tables, path, strlen(path));

	return entry < 0 ? entry : skeinrabbit_remove(&tables, SKEIN_FIRST_THREAD, (uint64_t)entry, &changes, NULL);
}

static int64_t move(const char *from, const char *to)
{
	const char *name;
	const int64_t source = skeinrabbit_lookup(&tables, from, strlen(from)), above = split(to, &name);

	if (source < 0 || above < 0)
		return source < 0 ? source : above;
	return skeinrabbit_rename(&tables, SKEIN_FIRST_THREAD, (uint64_t)source, (uint64_t)above, name, strlen(name), &changes, NULL);
}

/* An entry's path, from the root down. */
static void show(uint64_t entry)
{
	const uint8_t *const name = tables.names + entry * SKEIN_NAME_BYTES;

	if (entry == SKEIN_ROOT)
		return;
	show(tables.entries[entry * SKEIN_ENTRY_CELLS + 1]);
	printf("/%.*s", (int)name[0], (const char *)name + 1);
}

static int64_t list(void)
{
	uint64_t entry;

	for (entry = 1; entry < SKEIN_MAX_ENTRIES; entry++) {
		if (tables.entries[entry * SKEIN_ENTRY_CELLS] != 0) {
			show(entry);
			printf("\n");
		}
	}
	return 0;
}

static int64_t command(const char *line)
{
	char first[256], second[256];

	if (sscanf(line, "mkdir %255s", first) == 1)
		return create(first, SKEIN_KIND_DIRECTORY);
	if (sscanf(line, "create %255s", first) == 1)
		return create(first, SKEIN_KIND_REGULAR);
	if (sscanf(line, "remove %255s", first) == 1)
		return remove_path(first);
	if (sscanf(line, "move %255s %255s", first, second) == 2)
		return move(first, second);
	return strncmp(line, "list", 4) == 0 ? list() : -SKEIN_EINVAL;
}

int main(int argc, char **argv)
{
	char line[1024];

	if (argc != 2 || strlen(argv[1]) > MAX_FILE_NAME) {
		fprintf(stderr, "usage: %s FILE\n", argv[0]);
		return 64;
	}
	file_name = argv[1];
	recover();
	start_log();
	while (fgets(line, sizeof(line), stdin) != NULL) {
		int64_t answer;

		if (changes.size - changes.used < SKEIN_LOG_FIELD_BYTES)
			start_log();
		answer = command(line);
		keep();
		if (answer < 0)
			printf("refused: error %lld\n", (long long)-answer);
		else
			printf("done\n");
		fflush(stdout);
	}
	return 0;
}
