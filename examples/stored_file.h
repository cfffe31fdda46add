/* Stored sets in files, for ./wmm --set FILE and --store FILE. */
#ifndef NJERUMOY_STORED_FILE_H
#define NJERUMOY_STORED_FILE_H

#include "njerumoy_set.h"

/* Both give 0 where all went well; else the program's exit status, after they have said why: 1 where
 * the set is refused (on standard output), 2 where the file cannot be read or written (on standard
 * error). */

/* Reads the file into the set. */
int read_stored_file(const char *path, struct njerumoy_owned_set *set);

/* Writes the set to the file, and says so. A refused set leaves the file as it was. */
int write_stored_file(const char *path, const struct njerumoy_owned_set *set);

#endif
