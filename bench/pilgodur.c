/* The bench program: the ten services, and what can be made of them, on files. */
#define _XOPEN_SOURCE 700
#include <stdio.h>
#include <stdlib.h>

#include "commands.h"
#include "options.h"
#include "save.h"

const char program_name[] = "pilgodur";

const struct file *load_operand(struct request *request, int operand)
{
    struct file *file = &request->file[request->files++];
    load(request->operand[operand], file);
    return file;
}

void show_so_far(struct request *request, FILE *out)
{
    if (fflush(out) != 0)
        fail(FAILED, "out of memory");
    save(request->output, request->answer, request->answer_length, request->file, request->files);
    rewind(out);
}

/* An answer is collected first, so that a refusal half-way leaves nothing of it on standard output or in a file. */
int main(int argc, char **argv)
{
    struct request request;
    command *perform = read_options(argc, argv, &request);
    FILE *out = open_memstream(&request.answer, &request.answer_length);
    if (out == NULL)
        fail(FAILED, "out of memory");
    enum status status = perform(&request, out);
    if (fclose(out) != 0)
        fail(FAILED, "out of memory");
    save(request.output, request.answer, request.answer_length, request.file, request.files);
    free(request.answer);
    free(request.notes);
    for (int i = 0; i < request.files; i++)
        unload(&request.file[i]);
    return (int)status;
}
