/* The command that shows the notes of a file. */
#include "../include/pilgodur.h"
#include "commands.h"
#include "fields.h"
#include "text.h"

/* Printable ASCII as it is, but for the quotation mark and the backslash, which get a backslash before them; any other byte as \x and
 * two hex digits. */
static void show_byte(FILE *out, uint8_t byte)
{
    if (byte < ' ' || byte > '~')
        fprintf(out, "\\x%02x", byte);
    else
        fprintf(out, byte == '"' || byte == '\\' ? "\\%c" : "%c", byte);
}

static void show_note(FILE *out, unsigned number, size_t at, const struct field *note)
{
    fprintf(out, "note %u: byte %zu, tag %u, length %zu, \"", number, at, note->tag, note->length);
    for (size_t i = 0; i < note->length; i++)
        show_byte(out, note->value[i]);
    fprintf(out, "\"\n");
}

enum status notes(struct request *request, FILE *out)
{
    const struct file *file = load_operand(request, 0);
    struct field field;
    size_t at = 0;
    unsigned count = 0;
    if (is_text(file))
        fail(FAILED, "%s: it is text, which has no fields and so no notes", file->name);
    for (; field_at(file->at, file->length, at, &field); at += HEAD + field.length)
        if (is_note(&field))
            show_note(out, count++, at, &field);
    if (at < file->length)
        refuse(PILGODUR_REFUSAL_FIELDS, "%s", file->name);
    if (count == 0)
        fprintf(out, "no notes\n");
    return ANSWERED;
}
