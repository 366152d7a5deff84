/* Runs a command whose standard error is a terminal, and prints what the terminal got, control characters as ^ and a letter. What the
 * command writes to standard output goes nowhere. With -t standard input and output are the terminal, too, and TEXT is typed on it, with
 * no echo. The command's exit status is passed on.
 *
 *     terminal [-t TEXT] COMMAND [ARGUMENT...] */
#define _XOPEN_SOURCE 700
#include <fcntl.h>
#include <stdbool.h>
#include <stdio.h>
#include <stdlib.h>
#include <string.h>
#include <sys/wait.h>
#include <termios.h>
#include <unistd.h>

static void give_up(const char *what)
{
    perror(what);
    exit(2);
}

/* Line ends stay as they are written, too. */
static void type_text(int master, int terminal, const char *text)
{
    struct termios mode;
    if (tcgetattr(terminal, &mode) != 0)
        give_up("tcgetattr");
    mode.c_lflag &= ~(tcflag_t)ECHO;
    mode.c_oflag &= ~(tcflag_t)OPOST;
    if (tcsetattr(terminal, TCSANOW, &mode) != 0 || write(master, text, strlen(text)) != (ssize_t)strlen(text))
        give_up("tcsetattr");
}

static void perform(int master, bool typed, char **command)
{
    int terminal = open(ptsname(master), O_RDWR | O_NOCTTY);
    int out = typed ? terminal : open("/dev/null", O_WRONLY);
    if (terminal < 0 || out < 0 || (typed && dup2(terminal, STDIN_FILENO) < 0) || dup2(out, STDOUT_FILENO) < 0 ||
        dup2(terminal, STDERR_FILENO) < 0)
        give_up("dup2");
    close(terminal);
    close(master);
    execvp(command[0], command);
    give_up(command[0]);
}

int main(int argc, char **argv)
{
    int master = posix_openpt(O_RDWR | O_NOCTTY);
    bool typed = argc > 3 && strcmp(argv[1], "-t") == 0;
    if (argc < 2 || master < 0 || grantpt(master) != 0 || unlockpt(master) != 0)
        give_up("terminal");
    int kept = open(ptsname(master), O_RDWR | O_NOCTTY); /* what was written is not lost when the command ends */
    if (kept >= 0 && typed)
        type_text(master, kept, argv[2]);
    pid_t child = fork();
    if (kept < 0 || child < 0)
        give_up("fork");
    if (child == 0)
        perform(master, typed, argv + (typed ? 3 : 1));
    int status;
    waitpid(child, &status, 0);
    char bytes[4096];
    fcntl(master, F_SETFL, O_NONBLOCK);
    for (ssize_t count; (count = read(master, bytes, sizeof bytes)) > 0;)
        for (ssize_t i = 0; i < count; i++)
            if (bytes[i] >= ' ')
                putchar(bytes[i]);
            else
                printf("^%c", bytes[i] + '@');
    putchar('\n');
    return WIFEXITED(status) ? WEXITSTATUS(status) : 1;
}
