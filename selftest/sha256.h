/* SHA-256 of a file, as FIPS 180-4 has it. */
#ifndef SELFTEST_SHA256_H
#define SELFTEST_SHA256_H

/* Puts the 64 digits of the file's sum and a 0 into digits; returns 0, or -1 if the file cannot be read. */
int sha256_of_file(const char *path, char digits[65]);

#endif
