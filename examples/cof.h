/* A set from the agency's coefficient file, for ./wmm --cof FILE. */
#ifndef NJERUMOY_COF_H
#define NJERUMOY_COF_H

#include "njerumoy_set.h"

/* Reads the file into the set. 0 where it did; else the program's exit status, after it has said why:
 * 1 where the file is refused (on standard output), 2 where it cannot be read (on standard error). */
int read_cof_file(const char *path, struct njerumoy_owned_set *set);

/* Prints whose coefficient an entry of refusal 7 is, and how large it may be. */
void show_cap(const size_t entry[2]);

#endif
