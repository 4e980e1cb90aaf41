// SPDX-License-Identifier: GPL-2.0+
/*
 * The starts of U-Boot's sandbox for tests/compare_saving, put into cmd/ of its sources by tests/sandboxes. A start is
 * U-Boot's own from its first line to the end of `bootcmd`: it reads its environment from the file `card`, runs `preboot`,
 * counts, and runs `bootcmd` or `altbootcmd`. It ends where a board boots, starts anew, is switched off or shows its prompt,
 * and leaves a file `record` with these lines:
 *
 * - `found NAME=VALUE` for each variable that is set before `preboot` runs. A backslash is doubled, and a newline is `\n`.
 * - `dev 0 WORDS` for each call of `load`, `dhcp`, `bootm` and `bootz`; `dev 1 WORDS` if it fails, which it does if its words
 *   begin as a line of the file `fails`.
 * - `booted NAME`, `restarted reset`, `halted poweroff`, `end STATUS` with the status of the text that ran, or `prompt` if none
 *   ran.
 *
 * The shell is the modern one if there is a file `modern`.
 */
#include <config.h>
#include <linux/types.h>
#include <cli.h>
#include <cli_hush.h>
#include <command.h>
#include <env.h>
#include <env_internal.h>
#include <os.h>
#include <search.h>
#include <stdio.h>
#include <vsprintf.h>
#include <asm/global_data.h>
#include <linux/string.h>

DECLARE_GLOBAL_DATA_PTR;

enum { MOST_ARGUMENTS = 64, LARGEST_LISTING = 0x8000 };

static int record = -1;
static char ran[16];

static void note(const char *text)
{
	if (record < 0)
		record = os_open("record", OS_O_WRONLY | OS_O_CREAT | OS_O_TRUNC);
	os_write(record, text, strlen(text));
}

/* Ends the start. */
static void end_start(const char *how, const char *word)
{
	note(how);
	note(word);
	note("\n");
	os_exit(0);
}

/* Notes a variable as it is in U-Boot's listing, which doubles backslashes. */
static void note_found(const char *entry)
{
	char line[2 * LARGEST_LISTING], *to = line;

	for (; *entry; entry++) {
		*to++ = *entry == '\n' ? '\\' : *entry;
		if (*entry == '\n')
			*to++ = 'n';
	}
	*to = '\0';
	note("found ");
	note(line);
	note("\n");
}

/* In the place of cli_init, before `preboot` runs. */
void starts_begin(void)
{
	static char listing[LARGEST_LISTING];
	char *all = listing, *entry;

#ifdef CONFIG_HUSH_MODERN_PARSER
	if (os_get_filesize("modern", &(loff_t){ 0 }) >= 0)
		gd->flags |= GD_FLG_HUSH_MODERN_PARSER;
#endif
	if (hexport_r(&env_htab, '\0', 0, &all, sizeof(listing), 0, NULL) < 0)
		end_start("no listing", "");
	for (entry = all; *entry; entry += strlen(entry) + 1)
		note_found(entry);
	cli_init();
}

/* In the place of run_command_list, where U-Boot starts by itself. */
int starts_run(const char *text, int size, int flag)
{
	int status = run_command_list(text, size, flag);

#ifdef CONFIG_HUSH_MODERN_PARSER
	if (gd->flags & GD_FLG_HUSH_MODERN_PARSER) {
		snprintf(ran, sizeof(ran), "%d", status);
		return status;
	}
#endif
	snprintf(ran, sizeof(ran), "%s", get_local_var("$?"));
	return status;
}

/* In the place of cli_loop. */
void starts_prompt(void)
{
	end_start(*ran ? "end " : "prompt", ran);
}

/* Whether a call fails by the file `fails`. */
static bool fails(const char *words)
{
	void *lines;
	char *rest, *line;
	int size;

	if (os_read_file("fails", &lines, &size))
		return false;
	rest = lines;
	rest[size - 1] = '\0';
	while ((line = strsep(&rest, "\n")))
		if (!strncmp(words, line, strlen(line)))
			return true;
	return false;
}

static int do_device(struct cmd_tbl *cmdtp, int flag, int argc, char *const argv[])
{
	char words[LARGEST_LISTING] = "";
	bool failed;
	int i;

	for (i = 0; i < argc; i++) {
		strlcat(words, argv[i], sizeof(words));
		strlcat(words, i + 1 < argc ? " " : "", sizeof(words));
	}
	failed = fails(words);
	note(failed ? "dev 1 " : "dev 0 ");
	note(words);
	note("\n");
	if (!failed && !strncmp(argv[0], "boot", 4))
		end_start("booted ", argv[0]);
	return failed;
}

/* In the place of do_reset and do_poweroff. */
int starts_reset(struct cmd_tbl *cmdtp, int flag, int argc, char *const argv[])
{
	end_start("restarted ", argv[0]);
	return 0;
}

int starts_poweroff(struct cmd_tbl *cmdtp, int flag, int argc, char *const argv[])
{
	end_start("halted ", argv[0]);
	return 0;
}

U_BOOT_CMD(load, MOST_ARGUMENTS, 1, do_device, "a device command", "WORDS");
U_BOOT_CMD(dhcp, MOST_ARGUMENTS, 1, do_device, "a device command", "WORDS");
U_BOOT_CMD(bootm, MOST_ARGUMENTS, 1, do_device, "ends a start", "WORDS");
U_BOOT_CMD(bootz, MOST_ARGUMENTS, 1, do_device, "ends a start", "WORDS");
