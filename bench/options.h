/* The command line. */
#ifndef OPTIONS_H
#define OPTIONS_H

#include "commands.h"

/* Sorts the words of the command line into a command, its operands and options, and returns the command. A command line that is wrong
 * ends the program; so do --help and --version once they are answered. */
command *read_options(int argc, char **argv, struct request *request);

#endif
