/* Reads and writes of at most MOST_READ and MOST_WRITE octets. The one of the number INTERRUPTED_READ or INTERRUPTED_WRITE is
   interrupted. */
#include <errno.h>
#include <stdlib.h>
#include <sys/syscall.h>
#include <unistd.h>
static unsigned long most[2], failing[2], calls[2];
static unsigned long number(const char *name, unsigned long other)
{
	return getenv(name) ? strtoul(getenv(name), NULL, 10) : other;
}
__attribute__((constructor)) static void begin(void)
{
	most[0] = number("MOST_READ", 4096);
	most[1] = number("MOST_WRITE", 4096);
	failing[0] = number("INTERRUPTED_READ", 0);
	failing[1] = number("INTERRUPTED_WRITE", 0);
}
static ssize_t call(int which, int file, const void *at, size_t size)
{
	if (file == which && ++calls[which] == failing[which]) {
		errno = EINTR;
		return -1;
	}
	return syscall(which ? SYS_write : SYS_read, file, at, file == which && size > most[which] ? most[which] : size);
}
ssize_t read(int file, void *at, size_t size) { return call(0, file, at, size); }
ssize_t write(int file, const void *at, size_t size) { return call(1, file, at, size); }
ssize_t __write(int file, const void *at, size_t size) { return call(1, file, at, size); }
