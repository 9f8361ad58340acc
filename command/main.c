/* The command for people: subcommands over the library. */
#define _XOPEN_SOURCE 700

#include <errno.h>
#include <fcntl.h>
#include <signal.h>
#include <stdbool.h>
#include <stdio.h>
#include <unistd.h>

#include "about.h"
#include "messages.h"
#include "options.h"

/* A closed standard file never becomes one of ours: writing to it then fails and is told. */
static void hold_standard_files(void)
{
	int opened = 0;
	while (opened >= 0 && opened <= 2)
		opened = open("/dev/null", O_RDONLY);
	if (opened > 2)
		close(opened);
}

/* A closed pipe or file size limit gives an error to report, not a sudden end; true where a closed pipe ends
   whoever doesn't look, as it does unless who started us has set it otherwise. */
static bool set_signals(void)
{
	signal(SIGXFSZ, SIG_IGN);
	signal(SIGCHLD, SIG_DFL);
	return signal(SIGPIPE, SIG_IGN) != SIG_IGN;
}

/* The end that a closed pipe brings, in silence: whoever reads no further has seen enough. */
static void end_by_pipe(void)
{
	signal(SIGPIPE, SIG_DFL);
	(void)raise(SIGPIPE);
}

/* Standard output to its end; 0 or the error's number. After an early error nothing may be left to
   fail again: its number is still in errno, as nothing else is done after writing. */
static int close_output(void)
{
	const int early = ferror(stdout) == 0 ? 0 : errno != 0 ? errno : EIO;
	if (fclose(stdout) != 0)
		return errno;
	return early;
}

/* The exit status; unwritten standard output is an error, but for a reader that left. */
int main(int count, char **word)
{
	static char line[4096];
	hold_standard_files();
	keep_line(count, word);
	const bool ends = set_signals();
	setvbuf(stderr, line, _IOLBF, sizeof line);
	const enum status status = run_command(count - 1, word + 1);
	const int reason = close_output();
	if (reason == EPIPE && ends)
		end_by_pipe();
	return (int)(reason == 0 ? status : fail_at("standard output", reason));
}
