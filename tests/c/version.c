/* version: the version of the header; version number: its number. */
#include "ethnl.h"

#include <stdio.h>

int main(int argc, char **argv)
{
    (void)argv;
    if (argc > 1)
        printf("%d\n", ETHNL_VERSION);
    else
        puts(ETHNL_VERSION_STRING);
    return 0;
}
