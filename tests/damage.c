#include "damage.h"

#include <string.h>

#include "edits.h"

/* A byte where only 0 and 1 are good. */
static unsigned above_one(struct dice *dice)
{
    return chance(dice, 50) ? 2 : 2 + roll(dice, 254);
}

/* ---- Damage to a diagram: questions 5 to 7. ---- */

static void name_missing_node(struct dice *dice, struct diagram *d)
{
    unsigned excess = chance(dice, 70) ? 0 : roll(dice, 240);
    if (chance(dice, 25)) {
        d->output[roll(dice, d->outputs)] = (uint8_t)(d->width[0] + excess);
        return;
    }
    unsigned level = roll(dice, d->contacts);
    d->edge[level][roll(dice, d->width[level])][roll(dice, 2)] = (uint8_t)(d->width[level + 1] + excess);
}

static void make_twins(struct dice *dice, struct diagram *d)
{
    unsigned level = roll(dice, d->contacts);
    unsigned width = d->width[level];
    unsigned u = roll(dice, width);
    if (width == 8 || (width > 1 && chance(dice, 50)))
        memcpy(d->edge[level][(u + 1 + roll(dice, width - 1)) % width], d->edge[level][u], 2);
    else
        memcpy(d->edge[level][d->width[level]++], d->edge[level][u], 2);
}

static void swap_bytes(uint8_t *a, uint8_t *b, size_t count)
{
    for (size_t i = 0; i < count; i++) {
        uint8_t byte = a[i];
        a[i] = b[i];
        b[i] = byte;
    }
}

/* Two nodes of a level change numbers, and what mentions them follows. */
static void swap_numbers(struct dice *dice, struct diagram *d, unsigned level)
{
    unsigned u = roll(dice, d->width[level]);
    unsigned v = roll(dice, d->width[level]);
    uint8_t *mention = level == 0 ? d->output : &d->edge[level - 1][0][0];
    unsigned count = level == 0 ? d->outputs : 2u * d->width[level - 1];
    if (u == v)
        return;
    swap_bytes(d->edge[level][u], d->edge[level][v], 2);
    for (unsigned i = 0; i < count; i++)
        mention[i] = (uint8_t)(mention[i] == u ? v : mention[i] == v ? u : mention[i]);
}

static void add_unmentioned_node(struct dice *dice, struct diagram *d, unsigned level)
{
    if (d->width[level] == 8)
        return;
    uint8_t *edge = d->edge[level][d->width[level]++];
    edge[0] = (uint8_t)roll(dice, d->width[level + 1]);
    edge[1] = (uint8_t)roll(dice, d->width[level + 1]);
}

static void spoil_numbering(struct dice *dice, struct diagram *d)
{
    unsigned level = roll(dice, d->contacts);
    if (chance(dice, 60))
        swap_numbers(dice, d, level);
    else
        add_unmentioned_node(dice, d, level);
}

/* ---- Damage to a table's bytes: questions 1 to 4. ---- */

static void spoil_whole_fields(struct dice *dice, struct file *file)
{
    switch (roll(dice, 4)) {
    case 0:
        file->length -= file->length == 0 ? 0 : 1 + roll(dice, (uint32_t)file->length);
        break;
    case 1:
        insert(dice, file, file->length, 1 + roll(dice, 2));
        break;
    case 2:
        add_head(file, 3, 1 + roll(dice, 65535));
        break;
    default:
        if (file->length > 3)
            file->bytes[roll(dice, 2) == 0 ? 2 : 5]++;
        break;
    }
}

static void spoil_contacts(struct dice *dice, struct file *file)
{
    switch (roll(dice, 6)) {
    case 0:
        file->bytes[3] = 0;
        break;
    case 1:
        file->bytes[3] = (uint8_t)(chance(dice, 50) ? 13 : 13 + roll(dice, 243));
        break;
    case 2:
        set_tag(dice, file, 0);
        break;
    case 3:
        resize_field(dice, file, 0, chance(dice, 50) ? 0 : 2 + roll(dice, 3));
        break;
    case 4:
        erase_field(file, 0);
        break;
    default:
        file->length = 0;
        break;
    }
}

static void spoil_outputs(struct dice *dice, struct file *file)
{
    size_t at = field_place(file, 1);
    switch (roll(dice, 5)) {
    case 0:
        set_tag(dice, file, at);
        break;
    case 1:
        resize_field(dice, file, at, 0);
        break;
    case 2:
        resize_field(dice, file, at, 9 + (chance(dice, 50) ? 0 : roll(dice, 300)));
        break;
    case 3:
        erase_field(file, at);
        break;
    default:
        file->length = at;
        break;
    }
}

static void spoil_levels(struct dice *dice, struct file *file, unsigned contacts)
{
    size_t at = field_place(file, 2 + roll(dice, contacts));
    switch (roll(dice, 6)) {
    case 0:
        erase_field(file, at);
        break;
    case 1:
        add_field(dice, file, chance(dice, 50) ? at : file->length);
        break;
    case 2:
        set_tag(dice, file, at);
        break;
    case 3:
        resize_field(dice, file, at, 2 * (size_t)roll(dice, 9) + 1);
        break;
    case 4:
        resize_field(dice, file, at, chance(dice, 50) ? 0 : 18 + 2 * (size_t)(chance(dice, 50) ? 0 : roll(dice, 130)));
        break;
    default:
        insert(dice, file, at, 5);
        memcpy(file->bytes + at, "\3\0\2\0\1", 5);
        break;
    }
}

static void damage_at(struct dice *dice, unsigned question, struct diagram *d, struct file *file)
{
    switch (question) {
    case 7: spoil_numbering(dice, d); break;
    case 6: make_twins(dice, d); break;
    case 5: name_missing_node(dice, d); break;
    case 4: spoil_levels(dice, file, d->contacts); break;
    case 3: spoil_outputs(dice, file); break;
    case 2: spoil_contacts(dice, file); break;
    default: spoil_whole_fields(dice, file); break;
    }
}

void damaged_table(struct dice *dice, const struct diagram *good, struct file *file)
{
    struct diagram d = *good;
    unsigned aims = 1u << (1 + roll(dice, 7));
    if (chance(dice, 35))
        aims |= 1u << (1 + roll(dice, 7));
    if (chance(dice, 10))
        aims |= 1u << (1 + roll(dice, 7));
    for (unsigned question = 7; question > 4; question--)
        if (aims >> question & 1)
            damage_at(dice, question, &d, file);
    file->length = table_of(&d, file->bytes);
    for (unsigned question = 4; question > 0; question--)
        if (aims >> question & 1)
            damage_at(dice, question, &d, file);
}

/* ---- Bytes without plan. ---- */

void flip_bytes(struct dice *dice, struct file *file)
{
    for (unsigned i = 1 + roll(dice, 3); i > 0 && file->length > 0; i--)
        file->bytes[roll(dice, (uint32_t)file->length)] = (uint8_t)any_byte(dice);
}

void random_bytes(struct dice *dice, struct file *file)
{
    file->length = 0;
    insert(dice, file, 0, roll(dice, chance(dice, 50) ? 12 : 300));
}

void random_fields(struct dice *dice, struct file *file)
{
    file->length = 0;
    for (unsigned i = roll(dice, 16); i > 0; i--) {
        unsigned length = chance(dice, 30) ? 1 : roll(dice, 19);
        size_t at = file->length;
        insert(dice, file, at, 3 + (size_t)length);
        file->bytes[at] = (uint8_t)(chance(dice, 90) ? 1 + roll(dice, 9) : roll(dice, 256));
        set_two_bytes(file->bytes + at + 1, length);
    }
}

/* ---- Netlists. ---- */

unsigned contacts_of(const struct file *file)
{
    return file->bytes[field_place(file, 0) + 3];
}

unsigned gates_of(const struct file *netlist)
{
    return (unsigned)field_length(netlist, field_place(netlist, 1)) / 5;
}

unsigned lines_of(const struct file *netlist)
{
    return 2 + 2 * contacts_of(netlist) + gates_of(netlist);
}

unsigned outputs_of(const struct file *netlist)
{
    size_t at = field_place(netlist, 2);
    return at < netlist->length ? (unsigned)field_length(netlist, at) / 4 : 0;
}

static bool has_lamp(const struct file *netlist)
{
    return field_place(netlist, 3) < netlist->length;
}

unsigned pairs_of(const struct file *netlist)
{
    return outputs_of(netlist) + has_lamp(netlist);
}

static unsigned random_gate_count(struct dice *dice)
{
    unsigned kind = roll(dice, 100);
    if (kind < 30)
        return roll(dice, 8);
    if (kind < 90)
        return roll(dice, 150);
    if (kind < 98)
        return roll(dice, 1500);
    return kind < 99 ? MOST_GATES : roll(dice, MOST_GATES);
}

void random_netlist(struct dice *dice, struct file *file)
{
    unsigned contacts = 1 + roll(dice, 12);
    unsigned gates = random_gate_count(dice);
    unsigned outputs = 1 + roll(dice, 8);
    netlist_of_size(dice, contacts, gates, outputs, chance(dice, 50), file);
}

static void add_pairs(struct dice *dice, unsigned tag, unsigned pairs, unsigned lines, struct file *file)
{
    add_head(file, tag, 4 * pairs);
    for (unsigned i = 0; i < 2 * pairs; i++)
        add_two(file, chance(dice, 30) ? lines - 1 : roll(dice, lines));
}

void netlist_of_size(struct dice *dice, unsigned contacts, unsigned gates, unsigned outputs, bool lamp, struct file *file)
{
    bool chained = chance(dice, 30);
    unsigned line = 2 + 2 * contacts;
    file->length = 0;
    add_head(file, 1, 1);
    add_byte(file, contacts);
    add_head(file, 4, 5 * gates);
    for (; line < 2 + 2 * contacts + gates; line++) {
        add_byte(file, roll(dice, 2));
        add_two(file, chained ? line - 1 - roll(dice, 3) : roll(dice, line));
        add_two(file, roll(dice, line));
    }
    add_pairs(dice, 5, outputs, line, file);
    if (lamp)
        add_pairs(dice, 6, 1, line, file);
}

/* Question 11, while the netlist is still sound: tags, lengths and what stands around them. */
static void spoil_netlist_fields(struct dice *dice, struct file *file)
{
    size_t at = field_place(file, roll(dice, has_lamp(file) ? 4 : 3));
    switch (roll(dice, 7)) {
    case 0:
        set_tag(dice, file, at);
        break;
    case 1:
        erase_field(file, at);
        break;
    case 2:
        add_field(dice, file, chance(dice, 50) ? at : file->length);
        break;
    case 3:
        resize_field(dice, file, at, field_length(file, at) + 1 + roll(dice, 4));
        break;
    case 4:
        resize_field(dice, file, field_place(file, 2), chance(dice, 50) ? 0 : 4 * (9 + (size_t)roll(dice, 3)));
        break;
    case 5:
        resize_field(dice, file, 4, 5 * (MOST_GATES + 1 + (chance(dice, 50) ? 0 : (size_t)roll(dice, 100))));
        break;
    default:
        erase_field(file, at);
        add_field(dice, file, file->length);
        break;
    }
}

static void spoil_framing(struct dice *dice, struct file *file)
{
    if (chance(dice, 50))
        spoil_whole_fields(dice, file);
    else
        spoil_contacts(dice, file);
}

unsigned line_outside(struct dice *dice, unsigned lines)
{
    return lines + (chance(dice, 60) ? 0 : roll(dice, 65536 - lines));
}

void damage_lamp(struct dice *dice, enum lamp_damage kind, struct file *file)
{
    static const unsigned lengths[] = {[LAMP_OF_0] = 0, [LAMP_OF_3] = 3, [LAMP_OF_5] = 5, [LAMP_OF_8] = 8};
    size_t at = field_place(file, 3);
    if (kind == LAMP_TWICE) {
        memcpy(file->bytes + file->length, file->bytes + at, 7);
        file->length += 7;
    } else if (kind <= LAMP_OF_8) {
        resize_field(dice, file, at, lengths[kind]);
    } else if (kind == LAMP_CUT_SHORT) {
        file->length -= 1 + roll(dice, 6);
    } else if (kind == LAMP_BEFORE_OUTPUTS || kind == LAMP_BEFORE_GATES) {
        move_field(file, at, kind == LAMP_BEFORE_OUTPUTS ? 2 : 1);
    } else if (kind == LAMP_FOR_OUTPUTS) {
        erase_field(file, field_place(file, 2));
    } else if (kind == LAMP_OF_ANOTHER_TAG) {
        set_other_tag(dice, file, at);
    } else if (kind == FIELD_AFTER_LAMP) {
        add_field(dice, file, file->length);
    } else if (kind == BYTES_AFTER_LAMP) {
        insert(dice, file, file->length, 1 + roll(dice, 2));
    } else {
        set_two_bytes(file->bytes + at + (kind == LAMP_TRUE_LINE ? 3 : 5), line_outside(dice, lines_of(file)));
    }
}

/* Question 12: a kind, a source or an output line. */
static void spoil_gates(struct dice *dice, struct file *file)
{
    unsigned first = 2 + 2 * contacts_of(file);
    unsigned lines = lines_of(file);
    if (lines == first || chance(dice, 30)) {
        uint8_t *output = file->bytes + field_place(file, 2) + 3 + 2 * roll(dice, 2 * outputs_of(file));
        set_two_bytes(output, line_outside(dice, lines));
        return;
    }
    unsigned gate = roll(dice, lines - first);
    uint8_t *at = file->bytes + 7 + 5 * gate;
    if (chance(dice, 30))
        at[0] = (uint8_t)above_one(dice);
    else
        set_two_bytes(at + 1 + 2 * roll(dice, 2), first + gate + (chance(dice, 60) ? 0 : roll(dice, 54000)));
}

void damage_netlist(struct dice *dice, struct file *file)
{
    unsigned kind = roll(dice, 100);
    if (has_lamp(file) && chance(dice, 30)) {
        damage_lamp(dice, (enum lamp_damage)roll(dice, LAMP_DAMAGES), file);
        return;
    }
    if (kind < 50)
        spoil_gates(dice, file);
    if (kind >= 40 && kind < 80)
        spoil_netlist_fields(dice, file);
    if (kind >= 75)
        spoil_framing(dice, file);
}

/* ---- Rails. ---- */

void code_rails(unsigned contacts, uint32_t input, struct file *rails)
{
    rails->length = 0;
    for (unsigned i = 0; i < contacts; i++) {
        add_byte(rails, (input >> i) & 1);
        add_byte(rails, ~(input >> i) & 1);
    }
}

void random_rails(struct dice *dice, unsigned contacts, struct file *rails)
{
    code_rails(contacts, roll(dice, 1u << (contacts % 16)), rails);
    if (chance(dice, 50))
        for (size_t i = 0; i < rails->length; i++)
            rails->bytes[i] = (uint8_t)roll(dice, 2);
}

void damage_rails(struct dice *dice, struct file *rails)
{
    size_t at = roll(dice, (uint32_t)rails->length);
    switch (rails->length == 0 ? 2 : roll(dice, 4)) {
    case 0:
        rails->bytes[at] = (uint8_t)above_one(dice);
        break;
    case 1:
        erase(rails, at, 1 + (chance(dice, 50) ? 0 : roll(dice, (uint32_t)(rails->length - at))));
        break;
    case 2:
        add_byte(rails, roll(dice, 2));
        break;
    default:
        add_byte(rails, 1);
        add_byte(rails, 0);
        break;
    }
}

/* ---- Notes. ---- */

/* Bytes of a file from its start on, which look like fields, or any bytes. */
static void add_value(struct dice *dice, unsigned length, const struct file *like, struct file *file)
{
    for (unsigned i = 0; i < length; i++)
        add_byte(file, like != NULL && like->length > 0 ? like->bytes[i % like->length] : any_byte(dice));
}

static void add_note(struct dice *dice, unsigned tag, unsigned length, const struct file *like, struct file *file)
{
    add_head(file, tag, length);
    add_value(dice, length, like, file);
}

static unsigned note_tag(struct dice *dice)
{
    return NOTE_TAG + roll(dice, 256 - NOTE_TAG);
}

/* Adds notes of one kind; `like` is the file that they are put into. */
static void add_notes(struct dice *dice, enum note_kind kind, const struct file *like, struct file *file)
{
    unsigned count = kind == NOTES_IN_A_ROW ? 2 + roll(dice, 8) : kind == THOUSANDS_OF_NOTES ? 2000 + roll(dice, 3000) : 1;
    for (; count > 0; count--) {
        unsigned length = roll(dice, kind == NOTE_LIKE_FIELDS ? 300 : 20);
        if (kind == EMPTY_NOTE || kind == THOUSANDS_OF_NOTES)
            length = 0;
        else if (kind == LONGEST_NOTE)
            length = 65535;
        unsigned tag = kind == LOWEST_TAG ? NOTE_TAG : kind == HIGHEST_TAG ? 255 : note_tag(dice);
        add_note(dice, tag, length, kind == NOTE_LIKE_FIELDS ? like : NULL, file);
    }
}

static unsigned whole_fields(const struct file *file)
{
    unsigned count = 0;
    for (size_t at = 0; is_whole(file, at); at += 3 + field_length(file, at))
        count++;
    return count;
}

void put_notes(struct dice *dice, enum note_kind kind, unsigned place, const struct file *file, struct file *noted)
{
    unsigned fields = whole_fields(file);
    size_t at = 0;
    noted->length = 0;
    for (unsigned k = 0; k <= fields; k++) {
        bool here = k == place || (place == EVERYWHERE && chance(dice, 50)) || (k == fields && noted->length == at);
        size_t length = k < fields ? 3 + field_length(file, at) : file->length - at;
        if (here && noted->length + file->length < MOST_NOTED)
            add_notes(dice, kind, file, noted);
        memcpy(noted->bytes + noted->length, file->bytes + at, length);
        noted->length += length;
        at += length;
    }
}

void cut_note(struct dice *dice, enum cut_kind kind, struct file *file)
{
    size_t at = field_place(file, roll(dice, 4)), rest = file->length - at;
    unsigned length = kind == LONGEST_NOTE_CUT ? 65535 : 2 + roll(dice, 300);
    if (kind == NOTE_PAST_THE_END) {
        insert(dice, file, at, 3);
        file->bytes[at] = (uint8_t)note_tag(dice);
        set_two_bytes(file->bytes + at + 1, (unsigned)rest + 1 + (chance(dice, 50) ? 0 : roll(dice, 65535 - (uint32_t)rest)));
        return;
    }
    add_note(dice, note_tag(dice), length, NULL, file);
    if (kind == NOTE_OF_ONE_BYTE)
        file->length -= length + 2;
    else if (kind == NOTE_OF_TWO_BYTES)
        file->length -= length + 1;
    else if (kind == NOTE_WITHOUT_VALUE)
        file->length -= length;
    else
        file->length -= 1 + (kind == NOTE_CUT_WITHIN ? roll(dice, length - 1) : 0);
}

void damage_note(struct dice *dice, struct file *file)
{
    size_t at = 0, notes[64];
    unsigned count = 0;
    for (; is_whole(file, at) && count < 64; at += 3 + field_length(file, at))
        if (file->bytes[at] >= NOTE_TAG)
            notes[count++] = at;
    if (count == 0)
        return;
    at = notes[roll(dice, count)];
    size_t length = 3 + field_length(file, at), within = roll(dice, (uint32_t)length);
    switch (roll(dice, 6)) {
    case 0:
        file->bytes[at] = (uint8_t)any_byte(dice);
        break;
    case 1:
        set_two_bytes(file->bytes + at + 1, (unsigned)length - 3 + (chance(dice, 50) ? 1 : 65535));
        break;
    case 2:
        file->bytes[at + within] = (uint8_t)any_byte(dice);
        break;
    case 3:
        file->length = at + within;
        break;
    case 4:
        erase(file, at + within, 1);
        break;
    default:
        insert(dice, file, at + within, 1 + roll(dice, 3));
        break;
    }
}
