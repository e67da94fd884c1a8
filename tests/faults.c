/* Faults in standard input and output, for tests/program.sh: it is loaded before the C library (LD_PRELOAD), and answers `read` of standard input and `write` to
 * standard output as FAULTS_READ and FAULTS_WRITE say, one character a call. `i`: a signal interrupts it. `e`: it fails. A digit: it moves so many bytes at most.
 * `I`: every call from here on is interrupted. Behind the last character, and on any other descriptor, calls go to the system as they are. */
#define _GNU_SOURCE
#include <errno.h>
#include <stdlib.h>
#include <sys/syscall.h>
#include <sys/types.h>
#include <unistd.h>

static size_t reads, writes;

/* What is to be done with a call: 0 to make it, of *count bytes at most; else the error's number. */
static int fault(const char *faults, size_t *calls, size_t *count)
{
	const char *names = getenv(faults);
	char name;

	if (!names || !(name = names[*calls]))
		return 0;
	if (name == 'I')
		return EINTR;
	++*calls;
	if (name == 'i')
		return EINTR;
	if (name == 'e')
		return EIO;
	if (*count > (size_t)(name - '0'))
		*count = (size_t)(name - '0');
	return 0;
}

ssize_t read(int fd, void *buffer, size_t count)
{
	int error = fd == STDIN_FILENO ? fault("FAULTS_READ", &reads, &count) : 0;

	if (error) {
		errno = error;
		return -1;
	}
	return syscall(SYS_read, fd, buffer, count);
}

ssize_t write(int fd, const void *buffer, size_t count)
{
	int error = fd == STDOUT_FILENO ? fault("FAULTS_WRITE", &writes, &count) : 0;

	if (error) {
		errno = error;
		return -1;
	}
	return syscall(SYS_write, fd, buffer, count);
}
