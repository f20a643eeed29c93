// Linked to a program by gcc: tells on standard error, when the program ends, how many more bytes of it lie in memory than when it began.
#include <fcntl.h>
#include <stdio.h>
#include <unistd.h>

static long at_start;

// The bytes of this process that lie in memory.
static long resident(void)
{
	char text[100];
	int file = open("/proc/self/statm", O_RDONLY);
	long length = file < 0 ? 0 : read(file, text, sizeof text - 1);
	long pages = 0;
	text[length < 0 ? 0 : length] = 0;
	close(file);
	sscanf(text, "%*d %ld", &pages);
	return pages * sysconf(_SC_PAGESIZE);
}

__attribute__((constructor)) static void begin(void)
{
	at_start = resident();
}

__attribute__((destructor)) static void end(void)
{
	fprintf(stderr, "resident %ld\n", resident() - at_start);
}
