/* Reads a file of sheets, each a line of hex ('-' for the empty one), and writes each sheet's line again and below it the tokens. */
#include <stdio.h>
#include <stdlib.h>
#include <string.h>
#include "house.c"

static int digit(int c) { return c <= '9' ? c - '0' : c - 'a' + 10; }

static int unhex(const char *line, char *sheet)
{
    int length = 0;
    if (line[0] == '-')
        return 0;
    while (line[0] && line[1]) {
        sheet[length++] = (char)(16 * digit(line[0]) + digit(line[1]));
        line += 2;
    }
    return length;
}

static void list(const char *sheet, int length)
{
    YY_BUFFER_STATE buffer = yy_scan_bytes(sheet, length);
    const char *before = "";
    int left = length;
    BEGIN(PLAIN);
    while (left > 0) {
        int kind = yylex();
        printf("%s%d:%d", before, kind, (int)yyleng);
        before = " ";
        left -= (int)yyleng;
    }
    puts(length ? "" : "-");
    yy_delete_buffer(buffer);
}

int main(void)
{
    static char line[1 << 17], sheet[1 << 16];
    while (fgets(line, sizeof line, stdin)) {
        line[strcspn(line, "\n")] = 0;
        puts(line);
        list(sheet, unhex(line, sheet));
    }
    return 0;
}
