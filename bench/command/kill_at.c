/* Preloaded into the command: the process kills itself at the KILL_AT-th call that names, renames, removes or syncs a file. */
#define _GNU_SOURCE
#include <signal.h>
#include <stdlib.h>
#include <sys/syscall.h>
#include <unistd.h>

static void step(void)
{
	static int count;
	const char *at = getenv("KILL_AT");
	if (at != NULL && ++count == atoi(at))
		kill(getpid(), SIGKILL);
}

int link(const char *from, const char *to)
{
	step();
	return (int)syscall(SYS_link, from, to);
}

int rename(const char *from, const char *to)
{
	step();
	return (int)syscall(SYS_rename, from, to);
}

int unlink(const char *name)
{
	step();
	return (int)syscall(SYS_unlink, name);
}

int fsync(int file)
{
	step();
	return (int)syscall(SYS_fsync, file);
}
