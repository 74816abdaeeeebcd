/* Where an event of a recording is in the program, as the files beside the recording have it. */
#include <stdio.h>
#include <stdlib.h>
#include <string.h>

#include "writer.h"

static FILE *open_beside(const char *folder, const char *name) {
    char path[4200];
    snprintf(path, sizeof path, "%s/%s", folder, name);
    return fopen(path, "r");
}

/* The number of an event's place, or 0 where none is told. */
static unsigned long number_of_place(const char *folder, unsigned long window, unsigned thread, unsigned index) {
    char name[32], line[64];
    snprintf(name, sizeof name, "t%u.places", thread);
    FILE *file = open_beside(folder, name);
    unsigned long in = 1, number = 0;
    unsigned before = 0;
    while (file && in <= window && fgets(line, sizeof line, file)) {
        if (!strcmp(line, "mark\n")) in++;
        else if (in == window && before++ == index) number = strtoul(line, NULL, 10);
    }
    if (file) fclose(file);
    return number;
}

/* The word behind `file` of the file with a number, or `?`. */
static void print_file(const char *folder, unsigned long number) {
    FILE *file = open_beside(folder, "places");
    char line[4200], name[4200] = "?";
    while (file && number && fgets(line, sizeof line, file))
        if (sscanf(line, "file %4199s", name) == 1) number--;
    if (file) fclose(file);
    fputs(number ? "?" : name, stdout);
}

void print_spot(const char *folder, unsigned long window, unsigned thread, unsigned index) {
    unsigned long number = number_of_place(folder, window, thread, index), source = 0, at = 0;
    FILE *file = number ? open_beside(folder, "places") : NULL;
    char line[4200], function[4200];
    while (file && number && fgets(line, sizeof line, file))
        if (sscanf(line, "place %lu %lu %4199s", &source, &at, function) == 3) number--;
    if (!file) return;
    fclose(file);
    if (number) return;
    printf(" (");
    print_file(folder, source);
    printf(":%lu in %s)", at, function);
}
