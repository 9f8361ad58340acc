/*
 * An image may be made so that the library takes hours over it: every answer is right, and nobody waits for it.
 * After so many seconds of the processor's time the command ends, before anything is written. It is the
 * processor's time, since who waits for a slow pipe or reads the output page by page is no image's fault.
 */
#define _XOPEN_SOURCE 700

#include "clock.h"

#include <inttypes.h>
#include <signal.h>
#include <stdio.h>
#include <string.h>
#include <sys/time.h>
#include <unistd.h>

#include "messages.h"
#include "numbers.h"

/* Where --seconds isn't given; and the most that is counted, some three years. */
#define USUAL_SECONDS 60
#define MOST_SECONDS 100000000

/* What is told at the end: made beforehand, as nothing can be made in a signal's handler. */
static char told[300];
static uint64_t seconds = USUAL_SECONDS;

/* The time is over. */
static void end_by_clock(int number)
{
	(void)number;
	if (write(STDERR_FILENO, told, strlen(told)) < 0)
		_exit(FAILED);
	_exit(FAILED);
}

static void set_timer(uint64_t of)
{
	const struct itimerval value = { .it_value = { .tv_sec = (time_t)of } };
	(void)setitimer(ITIMER_PROF, &value, NULL);
}

/* From here on so many seconds, of what is named; none with --seconds 0. */
void start_clock(const char *what)
{
	snprintf(told, sizeof told, "pajurenda: %s: no answer after %" PRIu64 " second%s of the processor's time: an ordinary "
		 "image takes less than one, so this is no ordinary image; nothing was written (--seconds N allows "
		 "more, 0 any)\n", what, seconds, seconds == 1 ? "" : "s");
	set_timer(seconds);
}

/* Everything has been judged: what is written now is written whole. */
void stop_clock(void)
{
	set_timer(0);
}

/* The seconds that are asked for, and the clock started; false after a message. */
bool set_clock(const char *command, const struct options *options)
{
	const struct sigaction action = { .sa_handler = end_by_clock };
	if (options->seconds != NULL && !take_number(command, "--seconds", options->seconds, &seconds))
		return false;
	seconds = seconds < MOST_SECONDS ? seconds : MOST_SECONDS;
	(void)sigaction(SIGPROF, &action, NULL);
	start_clock(command);
	return true;
}
