/*
 * Writes the bytes that its arguments name in hexadecimal: the tests' own way to make books and
 * keys.
 */
#include <stdio.h>

int main(int argc, char **argv)
{
    for (int i = 1; i < argc; i++)
        for (const char *at = argv[i]; *at != '\0'; at += 2) {
            unsigned byte;
            if (sscanf(at, "%2x", &byte) != 1)
                return 1;
            putchar((int)byte);
        }
    return fflush(stdout) == 0 ? 0 : 1;
}
