/* Files that are read: named, opened and closed again; and bits in them, each a
 * character 0 or 1, in lines of any length. */
#ifndef FILES_H
#define FILES_H

#include <stdio.h>
#include <stdlib.h>

/* The only argument, the name of a file; says what was expected and gives up where
 * there are more arguments or none. */
static inline const char *named(int argc, char **argv)
{
    if (argc != 2) {
        fprintf(stderr, "expected one argument, the name of a file, got %d\n",
                argc > 0 ? argc - 1 : 0);
        exit(2);
    }
    return argv[1];
}

/* Opens a file to read; says why and gives up where it cannot. */
static inline FILE *opened(const char *name)
{
    FILE *file = fopen(name, "r");
    if (file == NULL) {
        perror(name);
        exit(2);
    }
    return file;
}

/* Closes a file at its end; says why and gives up where it could not be read. */
static inline void close_read(const char *name, FILE *file)
{
    if (ferror(file)) {
        perror(name);
        exit(2);
    }
    fclose(file);
}

/* The next character that is not a newline, or EOF. */
static inline int next_character(FILE *file)
{
    int character = getc(file);
    while (character == '\n') {
        character = getc(file);
    }
    return character;
}

#endif
