/* What the programs that bench.py and bench_library.py time have in common. */
#ifndef BENCH_READING_H
#define BENCH_READING_H

/* Opens a property list and prints the values, integers and texts, that the paths lead to, a line each. 0 if it could.
   What was opened is left to the end of the process, so that letting it go is not timed. */
int read_values(const char *name, char **paths, int count);

#endif
