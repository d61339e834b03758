/* Reads a sheet from standard input with the scanner that flex makes of the house rules, as often as the argument says, and prints the rounds, the
   nanoseconds that they took, and the number of tokens. Keeps the kind and the length of each token. */
#include <stdio.h>
#include <stdlib.h>
#include <time.h>
#include "house.c"

struct token {
    int kind;
    int length;
};

static char sheet[65536 + 2];
static struct token tokens[65536];

static size_t read_sheet(int length)
{
    size_t count = 0;
    int left = length;
    YY_BUFFER_STATE buffer = yy_scan_buffer(sheet, (yy_size_t)length + 2);
    BEGIN(PLAIN);
    while (left > 0) {
        tokens[count].kind = yylex();
        tokens[count].length = (int)yyleng;
        left -= tokens[count++].length;
    }
    yy_delete_buffer(buffer);
    return count;
}

int main(int argc, char **argv)
{
    long rounds = argc > 1 ? atol(argv[1]) : 1;
    int length = (int)fread(sheet, 1, 65536, stdin);
    size_t count = 0;
    struct timespec began, ended;
    clock_gettime(CLOCK_MONOTONIC, &began);
    for (long round = 0; round < rounds; round++)
        count = read_sheet(length);
    clock_gettime(CLOCK_MONOTONIC, &ended);
    printf("time flex read %ld %lld\n%zu tokens\n", rounds,
           (ended.tv_sec - began.tv_sec) * 1000000000LL + (ended.tv_nsec - began.tv_nsec), count);
    return 0;
}
