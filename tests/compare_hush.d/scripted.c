// SPDX-License-Identifier: GPL-2.0+
/*
 * Commands for U-Boot's sandbox whose results are scripted, put into cmd/ of its sources by
 * tests/sandboxes:
 *
 * - `load` and `dhcp` take the next digit of a word: 0 is success, 1 is failure. `test -e` asks in the same
 *   way whether a file is there.
 * - `scripted COUNT DEVICES SHELL` takes the images 1.image, 2.image and so on, and writes to 1.theirs, 2.theirs
 *   a record of each run of bootcmd, in the form of docs/RUNNING.md. A device command beyond the word is taken
 *   to succeed; the next word is the last one that was used up, with its last 0 made 1 and what stood after
 *   it left out. So the runs come in dictionary order, each once. Each run is a process of its own, which has
 *   20 seconds. In 1.echoed, 2.echoed and so on the text of each record is what `echo` writes, and no message.
 *   The variables of N.image are set as they stand there; N.imported in its place is read by U-Boot's import.
 *   SHELL is `old` or, in a U-Boot that has it, `modern`.
 * - `scripted COUNT DEVICES SHELL LIST` does so by a device list in the form of docs/RUNNING.md: U-Boot has the
 *   commands of the list then, beside those of the shell, and no other. The text of a record is what `echo` writes,
 *   and no message. A call of which the list does not speak ends the run. After a success of a call that names
 *   files, the text of one runs, as `source` runs it, from the folder N.files: a question is asked of each but the
 *   last. If N.words is there, it has the words of
 *   the runs, a line each. If LIST is not there, an image has its own, N.LIST, or else none.
 *
 * Three endings are U-Boot's own: `broken`, if a run reads or writes where nothing is; `panic`, if the modern shell
 * gives up, on which a board resets or hangs; `prompt STATUS`, if the modern shell asks for a command before the
 * script has come back to who started it.
 */
#include <config.h>
#include <linux/types.h>
#include <cli.h>
#include <cli_hush.h>
#include <command.h>
#include <console.h>
#include <env.h>
#include <env_callback.h>
#include <env_internal.h>
#include <fs.h>
#include <malloc.h>
#include <mapmem.h>
#include <membuff.h>
#include <os.h>
#include <search.h>
#include <stdio.h>
#include <vsprintf.h>
#include <asm/global_data.h>
#include <linux/string.h>

DECLARE_GLOBAL_DATA_PTR;

/* Of the host's C library. */
int fork(void);
int pipe(int ends[2]);
int waitpid(int process, int *status, int options);
uint alarm(uint seconds);
void (*signal(int number, void (*handler)(int)))(int);

enum {
	LONGEST_WORD = 1001, LARGEST_TEXT = 0x40000, LARGEST_NAME = 256, SECONDS = 20, BAD_ADDRESS = 11,
	MOST_LINES = 800, MOST_WORDS = 24, MOST_FILES = 4,
	/* As far as U-Boot looks for the end of a text that it imports, and more. */
	IMPORT_ROOM = 0x200000,
	/* The greatest CONFIG_SYS_MAXARGS of a board. */
	MOST_ARGUMENTS = 64
};

/*
 * A line of the device list. A setting is a name and, after its end, a value. A `call` line has the words of its
 * pattern after the name, and what its calls always answer, `0` or `1`, and the name and the first word of the call that
 * they need, if it says so.
 */
struct device_line {
	/* how a success ends the run, and a space; NULL if it does not */
	const char *ends;
	bool steady, call;
	/* the files of which the text of one runs after a success, and the one whose variables it sets; NULL if there is none */
	const char *runs[MOST_FILES + 1], *imports;
	char always, *needs, *needs_word, *name, *sub, *pattern[MOST_WORDS + 1], *settings[MOST_WORDS + 1];
};

static char outcomes[LONGEST_WORD + 1];
/* How many digits of the word are used, and how many device commands were asked. */
static int asked, devices;
static int bound, listing, plain, report;
static bool own_import, modern, by_list;
/* The argument LIST, if an image may have a list of its own; and the number of the image. */
static const char *own_lists;
static int image_number;
static struct device_line lines[MOST_LINES], *end_of_lines = lines;
/* The names of its lines `known`, each between spaces. */
static char known_names[64] = " ";
static char record[8 * LARGEST_TEXT], variables[sizeof(record)];
static int record_size, variables_size;
static char text[LARGEST_TEXT], echoed[LARGEST_TEXT];
static int echoed_size;

static void fail(const char *why)
{
	os_printf("scripted: %s\n", why);
	os_exit(3);
}

static void add_byte(char byte)
{
	if (record_size == sizeof(record))
		fail("a record is too large");
	record[record_size++] = byte;
}

static void add(const char *bytes)
{
	while (*bytes)
		add_byte(*bytes++);
}

/* Bytes in text form, or in word form, where a space is \x20 too. */
static void add_form(const char *bytes, int size, bool is_word)
{
	static const char digits[] = "0123456789abcdef";
	int i;

	if (is_word && !size)
		add("\\e");
	for (i = 0; i < size; i++) {
		uchar byte = bytes[i];

		if (byte == '\n') {
			add("\\n");
		} else if (byte == '\\') {
			add("\\\\");
		} else if (byte < 32 || byte > 126 || (is_word && byte == ' ')) {
			add("\\x");
			add_byte(digits[byte >> 4]);
			add_byte(digits[byte & 15]);
		} else {
			add_byte(byte);
		}
	}
}

/* Drops the backslash that U-Boot's export puts in front of each backslash, and tells the size. */
static int drop_escapes(char *value)
{
	char *from, *to = value;

	for (from = value; *from; from++) {
		if (*from == '\\')
			from++;
		*to++ = *from;
	}
	return to - value;
}

static void add_variables(void)
{
	char *all = NULL, *entry, *value;
	int size;

	if (hexport_r(&env_htab, '\0', 0, &all, 0, 0, NULL) < 0)
		fail("the environment cannot be told");
	for (entry = all; *entry; entry += size + 1) {
		size = strlen(entry);
		value = strchr(entry, '=') + 1;
		add("var ");
		add_form(entry, value - entry - 1, true);
		add("=");
		add_form(value, drop_escapes(value), false);
		add("\n");
	}
}

static void add_text(const char *bytes, int size)
{
	if (size) {
		add("text ");
		add_form(bytes, size, false);
		add("\n");
	}
}

/* Keeps the variables as lines. U-Boot's export writes beyond its memory where a value has a backslash, so it is called once. */
static void keep_variables(void)
{
	int before = record_size;

	add_variables();
	variables_size = record_size - before;
	memcpy(variables, record + before, variables_size);
	record_size = before;
}

/* Writes the record with its text after what the run asked, and takes the text off it again. */
static void write_record(int file, const char *first, const char *bytes, int size, const char *how, const char *status)
{
	int before = record_size;

	add_text(bytes, size);
	os_write(file, first, strlen(first));
	os_write(file, record, record_size);
	os_write(file, variables, variables_size);
	os_write(file, how, strlen(how));
	os_write(file, status, strlen(status));
	os_write(file, "\n", 1);
	record_size = before;
}

/* Ends a run: its records are written, its word told, and its process ends. */
static void end_run(const char *how, const char *status)
{
	char first[sizeof(outcomes) + 8];
	int size;

	gd->flags &= ~GD_FLG_RECORD;
	size = membuff_get((struct membuff *)&gd->console_out, text, sizeof(text));
	outcomes[asked] = '\0';
	sprintf(first, "run %s\n", asked ? outcomes : ".");
	keep_variables();
	write_record(listing, first, by_list ? echoed : text, by_list ? echoed_size : size, how, status);
	write_record(plain, first, echoed, echoed_size, how, status);
	os_write(report, outcomes, asked);
	os_exit(0);
}

/*
 * Where the record goes on after the first call that succeeded of those that a line needs; 0 if it needs none, and -1 if none
 * has succeeded.
 */
static int met_at(const struct device_line *line)
{
	char wanted[LARGEST_TEXT];
	int at, size;

	if (!line->needs)
		return 0;
	size = snprintf(wanted, sizeof(wanted), "dev 0 %s%s%s", line->needs, line->needs_word ? " " : "",
			line->needs_word ? line->needs_word : "");
	for (at = 0; at + size < record_size; at++)
		if ((!at || record[at - 1] == '\n') && !memcmp(record + at, wanted, size) && strchr(" \n", record[at + size]))
			return at + size;
	return -1;
}

/* The answer in a line of the record from `at` on with the words of its last, which begins at `start`; 0 if there is none. */
static char earlier_answer(int at, int start)
{
	for (; at < start; at++)
		if ((!at || record[at - 1] == '\n') &&
		    !memcmp(record + at + 5, record + start + 5, record_size - start - 5))
			return record[at + 4];
	return 0;
}

/*
 * Answers a command: by `answer`, unless that is 0, or else, if it is steady, as it was answered after `from` in the record, or by
 * the next digit of the word.
 */
static int ask(int argc, char *const argv[], bool steady, int from, char answer)
{
	int start = record_size, i;

	if (devices++ == bound)
		end_run("cut devices", "");
	add("dev 0");
	for (i = 0; i < argc; i++) {
		add(" ");
		add_form(argv[i], strlen(argv[i]), true);
	}
	add("\n");
	if (steady && !answer)
		answer = earlier_answer(from, start);
	if (!answer) {
		if (!outcomes[asked]) {
			outcomes[asked] = '0';
			outcomes[asked + 1] = '\0';
		}
		answer = outcomes[asked++];
	}
	record[start + 4] = answer;
	return answer - '0';
}

static int do_device(struct cmd_tbl *cmdtp, int flag, int argc, char *const argv[])
{
	return ask(argc, argv, false, 0, 0);
}

/* In the place of file_exists, for `test -e`. */
int scripted_exists(const char *interface, const char *part, const char *path, int type)
{
	char *const words[] = { "test", "-e", (char *)interface, (char *)part, (char *)path };

	return !ask(5, words, false, 0, 0);
}

/* In the place of puts and putc, in `echo`. */
void scripted_puts(const char *bytes)
{
	int size = strlen(bytes);

	puts(bytes);
	if (echoed_size + size > sizeof(echoed))
		fail("the text is too large");
	memcpy(echoed + echoed_size, bytes, size);
	echoed_size += size;
}

void scripted_putc(const char byte)
{
	char bytes[] = { byte, '\0' };

	scripted_puts(bytes);
}

/* Whether a line speaks of a call: of its first word if `sub`, otherwise of the name alone. */
static bool speaks(const struct device_line *line, bool sub, int argc, char *const argv[])
{
	if (line->call || strcmp(line->name, argv[0]) || !line->sub == sub)
		return false;
	return !sub || (argc > 1 && !strcmp(line->sub, argv[1]));
}

/* The word of a call that `@N` or `@last` names; NULL if the call does not have it. */
static const char *word_of_call(const char *which, int argc, char *const argv[])
{
	int word = strcmp(which, "@last") ? dectoul(which + 1, NULL) : argc - 1;

	return word < argc ? argv[word] : NULL;
}

/* Sets the variables of a line whose command succeeds. */
static void set_by_line(const struct device_line *line, int argc, char *const argv[])
{
	char *const *setting;

	for (setting = line->settings; *setting; setting++) {
		const char *name = *setting, *value = name + strlen(name) + 1;

		if ((line->sub || line->call) && *name == '@')
			name = word_of_call(name, argc, argv);
		if (line->call && *value == '@')
			value = word_of_call(value, argc, argv);
		if (name && value && *name && *name != '-' && !strchr(name, '='))
			env_set(name, value);
	}
}

/* Whether a call has the words of a pattern: `*` is any end of a word, and `**` at the end is all that follow. */
static bool fits(char *const *pattern, int argc, char *const argv[])
{
	int i;

	for (i = 1; *pattern; i++, pattern++) {
		int size = strlen(*pattern);

		if (!strcmp(*pattern, "**") && !pattern[1])
			return true;
		if (i >= argc)
			return false;
		if (size && (*pattern)[size - 1] == '*' ? strncmp(*pattern, argv[i], size - 1) : strcmp(*pattern, argv[i]))
			return false;
	}
	return i == argc;
}

/* The first `call` line that fits a call; NULL if there is none. */
static const struct device_line *call_line(int argc, char *const argv[])
{
	const struct device_line *line;

	for (line = lines; line < end_of_lines; line++)
		if (line->call && !strcmp(line->name, argv[0]) && fits(line->pattern, argc, argv))
			return line;
	return NULL;
}

/* The text of a file; NULL where there is none. */
static char *text_of(const char *name, int *size)
{
	loff_t length;
	char *copy;
	int file;

	if (os_get_filesize(name, &length))
		return NULL;
	file = os_open(name, OS_O_RDONLY);
	copy = calloc(1, length + 1);
	if (file < 0 || !copy || os_read(file, copy, length) != length)
		fail(name);
	os_close(file);
	*size = length;
	return copy;
}

/*
 * Runs the text of a file, as `source` does: the first of several that a question finds, which is asked of each but the last, and
 * once in a run.
 */
static int run_file(const char *const *files)
{
	char name[LARGEST_NAME], *script;
	const char *file;
	int size, status;

	for (file = *files; files[1]; file = *++files) {
		char *const words[] = { "runs", (char *)file };

		if (!ask(2, words, true, 0, 0))
			break;
	}
	snprintf(name, sizeof(name), "%d.files/%s", image_number, file);
	script = text_of(name, &size);
	if (!script)
		fail(name);
	status = run_command_list(script, size, 0);
	free(script);
	return status;
}

/* `env`, `itest` and `setexpr`, what they do in U-Boot, and whether the list has them computed. */
static struct {
	struct cmd_tbl *command;
	int (*own)(struct cmd_tbl *cmdtp, int flag, int argc, char *const argv[]);
	bool known;
} computed[3];

/* Where a text lies that is imported. */
#define IMPORT_ADDRESS 0x1000

/*
 * Imports the text of a file by U-Boot's `env import`: with the flags and the names of the call, if it is one of `env import`, and
 * with the address and the size of the text in place of its own. If that call has no size, or `-`, there is none, and the memory
 * after the text is empty.
 */
static void import_file(const char *file, int argc, char *const argv[])
{
	char name[LARGEST_NAME], address[20], length[20], *words[MOST_ARGUMENTS + 4] = { "env", "import" }, *content;
	int size, i = 1, count = 2, past, env = 0;
	bool sized = true;

	snprintf(name, sizeof(name), "%d.files/%s", image_number, file);
	content = text_of(name, &size);
	if (!content)
		fail(name);
	memset(map_sysmem(IMPORT_ADDRESS, IMPORT_ROOM), 0, IMPORT_ROOM);
	memcpy(map_sysmem(IMPORT_ADDRESS, size), content, size);
	free(content);
	if (argc > 1 && !strcmp(argv[1], "import")) {
		while (++i < argc && *argv[i] == '-')
			words[count++] = argv[i];
		sized = i + 1 < argc && strcmp(argv[i + 1], "-");
	}
	if (count == 2)
		words[count++] = "-t";
	snprintf(address, sizeof(address), "%x", IMPORT_ADDRESS);
	snprintf(length, sizeof(length), "%x", size);
	words[count++] = address;
	words[count++] = sized ? length : "-";
	for (past = i + 2; i > 1 && past < argc; past++)
		words[count++] = argv[past];
	while (strcmp(computed[env].command->name, "env"))
		env++;
	if (computed[env].own(computed[env].command, 0, count, words))
		fail("a text is not imported");
}

/* A command of the device list. */
static int do_listed(struct cmd_tbl *cmdtp, int flag, int argc, char *const argv[])
{
	const char *ends = NULL;
	bool sub = false, known = false, steady = false;
	const struct device_line *line = call_line(argc, argv);

	if (line) {
		int met = met_at(line);

		if (met < 0 ? ask(argc, argv, false, 0, '1') : ask(argc, argv, line->steady, met, line->always))
			return 1;
		set_by_line(line, argc, argv);
		if (line->imports)
			import_file(line->imports, argc, argv);
		if (line->ends)
			end_run(line->ends, argv[0]);
		return *line->runs ? run_file(line->runs) : 0;
	}
	for (line = lines; line < end_of_lines; line++)
		sub |= speaks(line, true, argc, argv);
	for (line = lines; line < end_of_lines; line++) {
		if (speaks(line, sub, argc, argv)) {
			known = true;
			if (!ends)
				ends = line->ends;
			steady |= line->steady;
		}
	}
	if (!known)
		end_run("stop unknown ", argv[0]);
	if (ask(argc, argv, steady, 0, 0))
		return 1;
	for (line = lines; line < end_of_lines; line++)
		if (speaks(line, sub, argc, argv))
			set_by_line(line, argc, argv);
	if (ends)
		end_run(ends, argv[0]);
	return 0;
}

/* Whether the words of `env`, `itest` or `setexpr` are computed. */
static bool is_computed(int argc, char *const argv[])
{
	if (!strcmp(argv[0], "env"))
		return argc < 2 || !strcmp(argv[1], "exists") || !strcmp(argv[1], "set") || !strcmp(argv[1], "delete");
	if (!strcmp(argv[0], "itest"))
		return argc != 4 || (*argv[1] != '*' && *argv[3] != '*');
	if (strcmp(argv[0], "setexpr"))
		return false;
	if (argc < 3)
		return true;
	if (*argv[2] == '*' || !strcmp(argv[2], "fmt") || !strcmp(argv[2], "sub") || !strcmp(argv[2], "gsub"))
		return false;
	return argc < 5 || (*argv[4] != '*' && (hextoul(argv[4], NULL) || !strchr("/%", *argv[3])));
}

static int do_computed(struct cmd_tbl *cmdtp, int flag, int argc, char *const argv[])
{
	int i = 0;

	while (computed[i].command != cmdtp)
		i++;
	if (!computed[i].known || !is_computed(argc, argv))
		return do_listed(cmdtp, flag, argc, argv);
	return computed[i].own(cmdtp, flag, argc, argv);
}

/* Places in U-Boot's table of commands; a command without a name is one that no script calls. */
#define NO_NAME "\1"
ll_entry_declare_list(struct cmd_tbl, scripted_places, cmd) = {
	[0 ... MOST_LINES - 1] = { NO_NAME, MOST_ARGUMENTS, cmd_always_repeatable, do_listed, "" }
};

/* What U-Boot does when some variables are set, which would refuse what the sandbox has not, as a console. */
static void forget_callbacks(void)
{
	struct env_clbk_tbl *callback = ll_entry_start(struct env_clbk_tbl, env_clbk);
	int left;

	for (left = ll_entry_count(struct env_clbk_tbl, env_clbk); left; left--)
		(callback++)->name = NO_NAME;
}

/* U-Boot's table of commands, by the device list. */
static void make_table(void)
{
	static const char kept[] = " echo exit false run scripted_prompt setenv showvar test true ";
	static const char asked_for[] = " env itest setexpr ";
	struct cmd_tbl *place = _u_boot_list_2_cmd_2_scripted_places, *command;
	struct cmd_tbl *start = ll_entry_start(struct cmd_tbl, cmd), *end = start + ll_entry_count(struct cmd_tbl, cmd);
	const struct device_line *line;
	char name[64];
	int i = 0;

	for (command = start; command < end; command++) {
		snprintf(name, sizeof(name), " %s ", command->name);
		if (command->maxargs == CONFIG_SYS_MAXARGS)
			command->maxargs = MOST_ARGUMENTS;
		if (strstr(asked_for, name)) {
			computed[i].command = command;
			computed[i].known = strstr(known_names, name);
			computed[i++].own = command->cmd;
			command->cmd = do_computed;
		} else if (!strstr(kept, name)) {
			command->name = NO_NAME;
		}
	}
	for (line = lines; line < end_of_lines; line++) {
		snprintf(name, sizeof(name), "%s", line->name);
		name[strcspn(name, ".")] = '\0';
		for (command = start; command < end && strcmp(command->name, name); command++)
			;
		if (command == end)
			(place++)->name = strdup(name);
	}
}

/* Keeps a setting, with an end after its name. */
static void keep_setting(struct device_line *line, char *word)
{
	char **setting = line->settings;

	while (*setting)
		setting++;
	*setting = word;
	*strchr(word, '=') = '\0';
}

/* How a command ends the run if the list has this word and a space before its name; NULL if it does not. */
static const char *ending_of(const char *word)
{
	if (!strcmp(word, "final"))
		return "booted ";
	if (!strcmp(word, "restart"))
		return "restarted ";
	return strcmp(word, "halt") ? NULL : "halted ";
}

/* Whether a word after `needs NAME` is no word of the call that is needed. */
static bool begins_clause(const char *word)
{
	return ending_of(word) || !strcmp(word, "steady") || !strcmp(word, "always") || !strcmp(word, "runs") ||
	       !strcmp(word, "imports") || !strcmp(word, "normal") || strchr(word, '=');
}

/* A word of a pattern, with the value of its variable in place of `${NAME}`, if that has one. */
static char *filled(char *word)
{
	char made[LARGEST_TEXT], *end = strchr(word, '}'), *value;

	if (strncmp(word, "${", 2) || !end || (end[1] && strcmp(end, "}*")))
		return word;
	*end = '\0';
	value = env_get(word + 2);
	*end = '}';
	if (!value || !*value)
		return word;
	snprintf(made, sizeof(made), "%s%s", value, end + 1);
	return strdup(made);
}

/* Reads the words of a line `or call`: it adds a file to those of the last `call` line with the same name and pattern. */
static void read_or(char *const *words)
{
	struct device_line *line = end_of_lines;
	const char **file;

	while (line-- > lines) {
		char *const *word = words + 1, *const *pattern = line->pattern;

		if (!line->call || strcmp(line->name, *words))
			continue;
		while (*pattern && !strcmp(*pattern, filled(*word)))
			pattern++, word++;
		if (*pattern || strcmp(*word, ":"))
			continue;
		for (file = line->runs; *file; file++)
			;
		if (file == line->runs || file == line->runs + MOST_FILES)
			fail("a line `or` that adds to none");
		*file = word[2];
		return;
	}
	fail("a line `or` that adds to none");
}

/* Reads the words of a `call` line: its name and pattern, `:`, and what it says of these calls. */
static void read_call(struct device_line *line, char **at)
{
	char **pattern = line->pattern;

	line->call = true;
	line->name = *at;
	while (strcmp(*++at, ":"))
		*pattern++ = filled(*at);
	while (*++at) {
		if (ending_of(*at))
			line->ends = ending_of(*at);
		else if (!strcmp(*at, "steady"))
			line->steady = true;
		else if (!strcmp(*at, "always"))
			line->always = **++at;
		else if (!strcmp(*at, "runs"))
			*line->runs = *++at;
		else if (!strcmp(*at, "imports"))
			line->imports = *++at;
		else if (!strcmp(*at, "normal"))
			++at;
		else if (!strcmp(*at, "needs")) {
			line->needs = *++at;
			if (at[1] && !begins_clause(at[1]))
				line->needs_word = *++at;
		}
		else
			keep_setting(line, *at);
	}
}

/* Reads a line of the device list, but for a comment. */
static void read_line(char *row)
{
	static char *always_fails[] = { "", "**", ":", "always", "1", NULL };
	struct device_line *line = end_of_lines;
	char *words[MOST_WORDS + 2] = { NULL }, **at = words, **word = words;

	while (row && word < words + MOST_WORDS) {
		*word = strsep(&row, " \t\r");
		word += **word != '\0';
	}
	if (row || end_of_lines == lines + MOST_LINES)
		fail("the device list is too large");
	*word = NULL;
	if (!*at)
		return;
	if (!strcmp(*at, "known") && at[1] && !at[2]) {
		strlcat(known_names, at[1], sizeof(known_names));
		strlcat(known_names, " ", sizeof(known_names));
		return;
	}
	if (!strcmp(*at, "or") && at[1] && !strcmp(at[1], "call")) {
		read_or(at + 2);
		return;
	}
	end_of_lines++;
	if (!strcmp(*at, "call") && at[1]) {
		read_call(line, at + 1);
		return;
	}
	if (!strcmp(*at, "absent") && at[1]) {
		always_fails[0] = at[1];
		read_call(line, always_fails);
		return;
	}
	if (at[1] && !strchr(at[1], '='))
		line->ends = ending_of(*at);
	at += line->ends != NULL;
	line->steady = !strcmp(*at, "steady") && at[1] && !strchr(at[1], '=');
	at += line->steady;
	if (!strcmp(*at, "sub") && at[1] && at[2] && !strchr(at[1], '=') && !strchr(at[2], '=')) {
		line->sub = at[2];
		line->name = at[1];
		at += 2;
	} else {
		line->name = *at;
	}
	while (*++at)
		keep_setting(line, *at);
}

/* Reads a device list. False where it is not there. */
static bool read_list(const char *name)
{
	char *rest, *row;
	int size;

	rest = text_of(name, &size);
	if (!rest)
		return false;
	while ((row = strsep(&rest, "\n")))
		if (*row != '#')
			read_line(row);
	make_table();
	forget_callbacks();
	return true;
}

#ifdef CONFIG_HUSH_MODERN_PARSER
static void choose_modern(void)
{
	gd->flags &= ~GD_FLG_HUSH_OLD_PARSER;
	gd->flags |= GD_FLG_HUSH_MODERN_PARSER;
	u_boot_hush_start_modern();
}

/* In the place of cli_readline, in the modern shell. What is typed at the prompt is a command with the status. */
int scripted_readline(const char *const prompt)
{
	static bool typed;

	if (typed)
		end_run("prompt", "");
	typed = true;
	strcpy(console_buffer, "scripted_prompt $?");
	return strlen(console_buffer);
}

static int do_prompt(struct cmd_tbl *cmdtp, int flag, int argc, char *const argv[])
{
	end_run("prompt ", argc > 1 ? argv[1] : "");
	return 0;
}

U_BOOT_CMD(scripted_prompt, 2, 0, do_prompt, "ends a run at the prompt", "STATUS");

/* In the place of panic and panic_str, in the modern shell. */
void scripted_panic(const char *format, ...)
{
	end_run("panic", "");
}

void scripted_panic_str(const char *why)
{
	end_run("panic", "");
}
#else
static void choose_modern(void)
{
	fail("this U-Boot has no modern shell");
}
#endif

#ifndef CONFIG_BLK
/* The sandbox's host device refers to these even if U-Boot has no block devices. No script comes to them. */
int blk_get_from_parent(void)
{
	return -1;
}

int blk_find_from_parent(void)
{
	return -1;
}

int blk_create_devicef(void)
{
	return -1;
}
#endif

/* A run that read or wrote where nothing is. */
static void end_broken_run(int number)
{
	end_run("broken", "");
}

/*
 * The variables of an image, as they stand in it. U-Boot's own import, where it is asked for, drops the
 * backslashes among other things.
 */
static void set_variables(const char *image, int size)
{
	bool imported = himport_r(&env_htab, image + 4, own_import ? size - 4 : 0, '\0', 0, 0, 0, NULL);
	struct env_entry wanted, *entry = NULL;
	const char *at = image + 4;
	char *name;

	while (imported && !own_import && *at) {
		name = strdup(at);
		wanted.data = strchr(name, '=') + 1;
		wanted.data[-1] = '\0';
		wanted.key = name;
		imported = hsearch_r(wanted, ENV_ENTER, &entry, &env_htab, 0) && entry;
		free(name);
		at += strlen(at) + 1;
	}
	if (!imported)
		fail("the image cannot be read");
}

static void run_word(const char *image, int size)
{
	char number[16], list[LARGEST_NAME];
	int status;

	set_variables(image, size);
	disable_ctrlc(1);
	signal(BAD_ADDRESS, end_broken_run);
	console_record_reset_enable();
	if (own_lists) {
		snprintf(list, sizeof(list), "%d.%s", image_number, own_lists);
		by_list = read_list(list);
	}
	if (by_list)
		gd->flags &= ~GD_FLG_RECORD;
	status = run_command_list(env_get("bootcmd"), -1, 0);
	if (gd->flags & GD_FLG_RECORD_OVF)
		fail("the text is too large");
	sprintf(number, "%d", status);
	end_run("end ", modern ? number : get_local_var("$?"));
}

/*
 * Runs the word in a process of its own, and leaves in outcomes the word that it used up. False where it
 * did not come to its end.
 */
static bool run_process(const char *image, int size)
{
	int ends[2], process, status, used;

	if (pipe(ends))
		fail("no pipe");
	process = fork();
	if (process < 0)
		fail("no process");
	if (!process) {
		report = ends[1];
		alarm(SECONDS);
		run_word(image, size);
	}
	os_close(ends[1]);
	used = os_read(ends[0], outcomes, LONGEST_WORD);
	os_close(ends[0]);
	if (waitpid(process, &status, 0) != process || status || used < 0)
		return false;
	outcomes[used] = '\0';
	return true;
}

/* The next word: false where none follows. */
static bool next_word(void)
{
	int size = strlen(outcomes);

	while (size && outcomes[size - 1] == '1')
		size--;
	outcomes[size] = '\0';
	if (!size)
		return false;
	outcomes[size - 1] = '1';
	return true;
}

/* The next word of a file's text, in the place of that: false where none follows. */
static bool take_word(char **words)
{
	char *word = strsep(words, "\n");

	if (!word || !*word)
		return false;
	snprintf(outcomes, sizeof(outcomes), "%s", strcmp(word, ".") ? word : "");
	return true;
}

/* Writes a line to both listings. */
static void write_line(const char *line)
{
	os_write(listing, line, strlen(line));
	os_write(plain, line, strlen(line));
}

static void list_runs(int number)
{
	char name[32], *words = NULL;
	bool has_words;
	void *image;
	int size, words_size;

	image_number = number;
	sprintf(name, "%d.theirs", number);
	listing = os_open(name, OS_O_WRONLY | OS_O_CREAT | OS_O_TRUNC);
	sprintf(name, "%d.echoed", number);
	plain = os_open(name, OS_O_WRONLY | OS_O_CREAT | OS_O_TRUNC);
	sprintf(name, "%d.imported", number);
	own_import = !os_read_file(name, &image, &size);
	sprintf(name, "%d.image", number);
	if (listing < 0 || plain < 0 || (!own_import && os_read_file(name, &image, &size)))
		fail(name);
	outcomes[0] = '\0';
	sprintf(name, "%d.words", number);
	words = text_of(name, &words_size);
	has_words = words;
	if (has_words && !take_word(&words))
		fail(name);
	do {
		if (!run_process(image, size)) {
			write_line("no end\n");
			break;
		}
	} while (has_words ? take_word(&words) : next_word());
	write_line("done\n");
	os_close(listing);
	os_close(plain);
	os_free(image);
}

static int do_scripted(struct cmd_tbl *cmdtp, int flag, int argc, char *const argv[])
{
	int number, count;

	if (argc != 4 && argc != 5)
		return CMD_RET_USAGE;
	count = dectoul(argv[1], NULL);
	bound = dectoul(argv[2], NULL);
	if (bound > LONGEST_WORD - 1)
		fail("more device commands than a word can hold");
	modern = !strcmp(argv[3], "modern");
	if (modern)
		choose_modern();
	by_list = argc == 5 && read_list(argv[4]);
	if (argc == 5 && !by_list)
		own_lists = argv[4];
	for (number = 1; number <= count; number++)
		list_runs(number);
	os_exit(0);
	return 0;
}

U_BOOT_CMD(load, CONFIG_SYS_MAXARGS, 1, do_device, "a scripted command", "WORDS");
U_BOOT_CMD(dhcp, CONFIG_SYS_MAXARGS, 1, do_device, "a scripted command", "WORDS");
U_BOOT_CMD(scripted, 5, 0, do_scripted, "runs of each bootcmd", "COUNT DEVICES SHELL [LIST]");
