// Linked to a program by gcc: tells at its end how many bytes glibc's malloc holds, in use or not.
#include <malloc.h>
#include <stdio.h>

__attribute__((destructor)) static void tell(void)
{
	struct mallinfo2 all = mallinfo2();
	fprintf(stderr, "held %zu\n", all.arena + all.hblkhd);
}
