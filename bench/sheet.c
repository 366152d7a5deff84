/* Prints the gate sheet of a netlist: reads the netlist from standard input and writes its sheet to standard output, or just the
 * number of the refusal and a line feed. An input of more than 65,536 bytes, notes among them, is refused with 11.
 *
 *     sheet <NETLIST                   exit status 0: a sheet; 1: a refusal; 2: bad usage; 3: a read or a write failed */
#define _XOPEN_SOURCE 700
#include <errno.h>
#include <inttypes.h>
#include <stdio.h>
#include <string.h>
#include <unistd.h>

#include "../include/pilgodur.h"
#include "report.h"
#include "save.h"

/* The most bytes of an input, and room for one more, by which a longer input is known. */
enum { MOST = 65536, ROOM = MOST + 1 };

const char program_name[] = "sheet";

/* Reads standard input to its end, or until the room is full; returns the length. */
static size_t read_netlist(uint8_t netlist[ROOM])
{
    size_t length = 0;
    ssize_t count = 1;
    while (length < ROOM && count != 0) {
        count = read(STDIN_FILENO, netlist + length, ROOM - length);
        if (count < 0 && errno != EINTR)
            fail(FAILED, "standard input: %s", strerror(errno));
        length += count < 0 ? 0 : (size_t)count;
    }
    return length;
}

int main(int argc, char **argv)
{
    static uint8_t netlist[ROOM];
    static char text[PILGODUR_SHEET_MAX];
    (void)argv;
    if (argc > 1) {
        fputs("usage: sheet <NETLIST\n", stderr);
        return MISUSED;
    }
    size_t length = read_netlist(netlist);
    pilgodur_built sheet = {PILGODUR_REFUSAL_NETLIST, 0};
    if (length <= MOST)
        sheet = pilgodur_sheet(netlist, length, (uint8_t *)text, sizeof text);
    length = sheet.length;
    if (sheet.refusal != 0)
        length = (size_t)snprintf(text, sizeof text, "%" PRIu32 "\n", sheet.refusal);
    save(NULL, text, length, NULL, 0);
    return sheet.refusal == 0 ? ANSWERED : SAID_NO;
}
