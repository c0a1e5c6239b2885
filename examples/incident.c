/*
 * The incident, replayed. A program may read the calibration tree and do everything in an import folder. It tries to move the
 * calibration table to the import folder, to write it there and to move it back. Each step's answer is printed beside the one that
 * document 01 asks for; the exit status is 0 only if all agree. What two such programs can do together: examples/together.skein.
 */
#include <stdio.h>

#include "skeinrabbit.h"

enum { CAL = 1, IMPORT = 2, TABLE = 3, FEED = 4 };

#define HANDLED \
	(SKEIN_FS_WRITE_FILE | SKEIN_FS_READ_FILE | SKEIN_FS_REMOVE_FILE | SKEIN_FS_MAKE_REG | SKEIN_FS_REFER)

static struct skein_tables tables;
static int differences;

static const char *answer_name(int64_t answer)
{
	static char number[24];

	switch (answer) {
	case -SKEIN_EACCES:
		return "EACCES";
	case -SKEIN_EXDEV:
		return "EXDEV";
	default:
		snprintf(number, sizeof(number), "%lld", (long long)answer);
		return number;
	}
}

static void step(const char *what, int64_t answer, int64_t expected)
{
	printf("  %-46s %s\n", what, answer_name(answer));
	if (answer != expected) {
		printf("    expected %s\n", answer_name(expected));
		differences++;
	}
}

/* A set-up call: quiet unless it fails. */
static void must(const char *what, int64_t answer, int64_t expected)
{
	if (answer != expected)
		step(what, answer, expected);
}

/* The tree: /cal, /import, /cal/table, /import/feed. */
static void make_tree(void)
{
	must("fresh tables", skeinrabbit_fresh(&tables, SKEIN_MAX_LEVEL), 0);
	must("create /cal", skeinrabbit_create(&tables, 0, SKEIN_ROOT, SKEIN_KIND_DIRECTORY, "cal", 3, NULL, NULL), CAL);
	must("create /import", skeinrabbit_create(&tables, 0, SKEIN_ROOT, SKEIN_KIND_DIRECTORY, "import", 6, NULL, NULL), IMPORT);
	must("create /cal/table", skeinrabbit_create(&tables, 0, CAL, SKEIN_KIND_REGULAR, "table", 5, NULL, NULL), TABLE);
	must("create /import/feed", skeinrabbit_create(&tables, 0, IMPORT, SKEIN_KIND_REGULAR, "feed", 4, NULL, NULL), FEED);
}

/* Everything in /import; in /cal what the caller says. */
static void restrict_program(uint64_t cal_rights)
{
	const struct skein_ruleset_attr attr = { HANDLED, 0, 0 };

	must("create ruleset", skeinrabbit_create_ruleset(&tables, &attr, sizeof(attr), 0), 0);
	must("rule on /cal", skeinrabbit_add_path_rule(&tables, 0, CAL, cal_rights, 0), 0);
	must("rule on /import", skeinrabbit_add_path_rule(&tables, 0, IMPORT, HANDLED, 0), 0);
	must("no_new_privs", skeinrabbit_set_no_new_privs(&tables, 0), 0);
	must("restrict", skeinrabbit_restrict(&tables, 0, 0, 0), 0);
}

static void replay(int64_t move_out, int64_t move_back)
{
	step("read /cal/table", skeinrabbit_access(&tables, 0, TABLE, SKEIN_FS_READ_FILE, NULL), 0);
	step("write /cal/table", skeinrabbit_access(&tables, 0, TABLE, SKEIN_FS_WRITE_FILE, NULL), -SKEIN_EACCES);
	step("write /import/feed", skeinrabbit_access(&tables, 0, FEED, SKEIN_FS_WRITE_FILE, NULL), 0);
	step("move /cal/table to /import", skeinrabbit_rename(&tables, 0, TABLE, IMPORT, "table", 5, NULL, NULL), move_out);
	step("write the table after the attempt", skeinrabbit_access(&tables, 0, TABLE, SKEIN_FS_WRITE_FILE, NULL), -SKEIN_EACCES);
	step("move the table back to /cal", skeinrabbit_rename(&tables, 0, TABLE, CAL, "table", 5, NULL, NULL), move_back);
	step("write /cal/table", skeinrabbit_access(&tables, 0, TABLE, SKEIN_FS_WRITE_FILE, NULL), -SKEIN_EACCES);
}

int main(void)
{
	puts("The program may read /cal and do everything in /import:");
	make_tree();
	restrict_program(SKEIN_FS_READ_FILE);
	replay(-SKEIN_EACCES, -SKEIN_EACCES);

	puts("It may also remove, create and refer in /cal, but not write there:");
	make_tree();
	restrict_program(HANDLED & ~SKEIN_FS_WRITE_FILE);
	replay(-SKEIN_EXDEV, 0);

	puts(differences == 0 ? "The table was never written." : "Some answers differ.");
	return differences == 0 ? 0 : 1;
}
