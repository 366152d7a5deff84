/* Writes a random netlist, which questions 11 and 12 accept, to standard output.
 *
 *     netlists SEED [CONTACTS GATES OUTPUTS [lamp]] */
#include <stdio.h>
#include <stdlib.h>

#include "damage.h"

static unsigned count(const char *text)
{
    return (unsigned)strtoul(text, NULL, 10);
}

int main(int argc, char **argv)
{
    static struct file netlist;
    struct dice dice = {argc > 1 ? strtoull(argv[1], NULL, 10) : 1};
    if (argc > 4)
        netlist_of_size(&dice, count(argv[2]), count(argv[3]), count(argv[4]), argc > 5, &netlist);
    else
        random_netlist(&dice, &netlist);
    return fwrite(netlist.bytes, 1, netlist.length, stdout) == netlist.length && fflush(stdout) == 0 ? 0 : 1;
}
