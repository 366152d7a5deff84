#!/bin/bash
# Wrong versions of the bench program and of the program sheet: each is made by an edit of one file, and some test must fail on it.
#
#     tests/mutants.sh COMPILE FAILING LIBRARY
#
# COMPILE is the compiler with its flags, FAILING the flags that link a program so that calls can be made to fail. Everything goes to
# build/mutants. A wrong version could harm files of the system, so for root it runs as a user without rights. The right version must
# pass first. If the variable ONLY is set just the wrong versions are tried whose description has it. Exit status 0: every one was
# found out.
set -u

if [ $# -ne 3 ]; then
    echo "usage: tests/mutants.sh COMPILE FAILING LIBRARY" >&2
    exit 2
fi
read -ra compile <<<"$1"
read -ra failing <<<"$2"
root=$(cd "$(dirname "$0")/.." && pwd) && library=$(realpath "$3") && cd "$root" || exit 2
folder=$root/build/mutants
rm -rf "$folder" && mkdir -p "$folder/bench" && cp -r include "$folder" && cp bench/*.c bench/*.h "$folder/bench" || exit 2

harmless=()
if [ "$(id -u)" -eq 0 ]; then
    harmless=(chroot --userspec=65534:65534 --skip-chdir /)
    chown -R 65534:65534 "$folder"
    if ! "${harmless[@]}" test -r "$folder/bench/save.c"; then
        echo "another user than root must be able to read this folder, or run this as another user" >&2
        exit 2
    fi
fi

count=0
survivors=0

limited() {
    STOP=1 timeout 60 "${harmless[@]}" "$@"
}

# tested PROGRAM FAILING: the tests of the bench, the quickest to fail first. A test that does not end has failed.
tested() {
    limited tests/bench_test.sh "$1" "$folder/bench_test" &&
        limited tests/save_test.sh "$1" "$2" "$folder/save_test" &&
        limited tests/draw_test.sh "$1" build/sketches "$folder/draw_test" &&
        limited tests/rules_test.sh "$1" build/rulings "$folder/rules_test" &&
        limited tests/terminal_test.sh build/terminal "$1" &&
        limited tests/docs_test.sh "$1" build/questions "$folder/docs_test" &&
        limited tests/exports_test.sh "$1" build/readback build/netlists "$folder/exports"
}

tested_sheet() {
    limited tests/sheet_test.sh "$1" "$2" build/netlists "$folder/sheet_test"
}

# edited FILE WHAT EDIT: makes the file edited by sed, if this version is asked for and the edit changes something.
edited() {
    [[ $2 == *"${ONLY-}"* ]] || return
    count=$((count + 1))
    sed "$3" "bench/$1.c" >"$folder/bench/$1.c"
    if cmp -s "bench/$1.c" "$folder/bench/$1.c"; then
        echo "NOT MADE: $2 ($1.c)"
        survivors=$((survivors + 1))
        return 1
    fi
}

# linked PROGRAM PARTS...: the program, and failing, from these parts.
linked() {
    "${compile[@]}" -w "${@:2}" "$library" -o "$folder/$1" &&
        "${compile[@]}" -w "${failing[@]}" "${@:2}" tests/failing.c "$library" -o "$folder/failing"
}

# judge FILE WHAT TESTS PROGRAM PARTS...: the version does not survive if it can be made and fails the tests.
judge() {
    if ! linked "${@:4}" 2>"$folder/log"; then
        echo "NOT COMPILED: $2 ($1.c)"
        cat "$folder/log"
        survivors=$((survivors + 1))
    elif "$3" "$folder/$4" "$folder/failing" >"$folder/log" 2>&1; then
        echo "SURVIVED: $2 ($1.c)"
        survivors=$((survivors + 1))
    fi
}

# wrong FILE WHAT EDIT: the bench with one file edited.
wrong() {
    local objects=()
    edited "$@" || return
    for object in build/program/*.o; do
        [ "$object" = "build/program/$1.o" ] || objects+=("$object")
    done
    judge "$1" "$2" tested pilgodur "$folder/bench/$1.c" "${objects[@]}"
}

# wrong_sheet WHAT EDIT: the program sheet edited.
wrong_sheet() {
    edited sheet "$@" || return
    judge sheet "$1" tested_sheet sheet "$folder/bench/sheet.c" build/program/save.o build/program/report.o
}

if ! tested "$root/build/pilgodur" "$root/build/pilgodur-failing" >"$folder/log" 2>&1 ||
    ! tested_sheet "$root/build/sheet" "$root/build/sheet-failing" >"$folder/log" 2>&1; then
    cat "$folder/log"
    echo "the right version fails, so nothing is known of the wrong ones"
    exit 1
fi

wrong load "reading stops after the first 4,096 bytes" 's/while ((count = fread/if ((count = fread/'
wrong load "reading never stops" 's/file->length > MOST/false/'
wrong load "read errors are ignored" 's/ferror(stream) || //'
wrong load "hex: text is not recognised in a file" 's/if (is_marked(file->at, file->length))/if (is_marked(operand, strlen(operand)))/'
wrong load "white space within hex: text is refused" 's/" .t.r.n"/"~"/'
wrong load "half a byte of hex: text is dropped" 's/if (digits % 2 != 0)/if (false)/'
wrong load "a sign that is no hex digit counts as 0" 's/if (digit < 0)/if (false)/'
wrong load "capital hex digits are lower ones plus 6" 's/ - 6;/;/'
wrong load "@ stands for itself" "s/operand\[0\] == '@'/false/"
wrong load "a missing file is wrong usage" 's/fail(FAILED, "%s: %s%s"/fail(MISUSED, "%s: %s%s"/'
wrong save "write errors with -o are ignored" 's/&& write_all(out, bytes, length) &&/\&\& (write_all(out, bytes, length), true) \&\&/'
wrong save "close errors with -o are ignored" 's/if (close(out) != 0 && written)/if (close(out) != 0 \&\& false)/'
wrong save "the file is not flushed to the disk" 's/ && fsync(out) == 0//'
wrong save "rename errors are ignored" 's/&& rename(temporary, path) == 0/\&\& (rename(temporary, path), true)/'
wrong save "the temporary file stays after an error" 's/    unlink(temporary);//'
wrong save "permissions are those of the temporary file" 's/fchmod(out, mode) == 0/fchmod(out, 0600) == 0/'
wrong save "permissions of the old file are lost" 's/mode & 0777/0666/'
wrong save "the mask is ignored" 's/0666 & ~mask/0666/'
wrong save "a link is replaced" 's/realpath(path, NULL)/strdup(path)/'
wrong save "an input is overwritten" 's/read\[i\].inode == target->st_ino/false/'
wrong save "an input on standard output is overwritten" 's/refuse_if_read(&target, "standard output"/if (false) &/'
wrong save "a device is replaced" 's/if (S_ISREG(target.st_mode))/if (true)/'
wrong save "write errors on a device are ignored" 's/|| !write_all(out, bytes, length) || close/|| (write_all(out, bytes, length), false) || close/'
wrong save "close errors on a device are ignored" 's/|| close(out) != 0)/|| (close(out), false))/'
wrong save "write errors on standard output are ignored" 's/if (!write_all(STDOUT_FILENO, bytes, length))/if (write_all(STDOUT_FILENO, bytes, length), false)/'
wrong save "an interrupted write fails" 's/count < 0 && errno != EINTR/count < 0/'
wrong save "a write that takes some bytes is not taken up again" 's/while (length > 0) {/for (int once = 0; once < 1; once++) {/'
wrong save "a signal ends a write half-way" 's/sigprocmask(SIG_BLOCK, &signals, &before)/sigemptyset(\&before)/'
wrong save "a file that grows too large ends the program" 's/signal(SIGXFSZ, SIG_IGN);//'
wrong save "a file that may not be written is replaced" 's/|| access(real, W_OK) != 0//'
wrong report "refusals on standard output" 's/fprintf(stderr, ": refused/fprintf(stdout, ": refused/'
wrong report "messages on standard output" 's/stderr/stdout/'
wrong report "a refusal is wrong usage" 's/exit(SAID_NO)/exit(MISUSED)/'
wrong report "a refusal is an answer" 's/exit(SAID_NO)/exit(ANSWERED)/'
wrong report "the question of the number before" 's/questions\[refusal\]/questions[refusal - 1]/'
wrong operands "hold line 65,536 is line 0" 's/take_number(&at, UINT16_MAX, &line)/take_number(\&at, UINT32_MAX, \&line)/'
wrong operands "hold value 256 is 0" 's/take_number(&at, UINT8_MAX, &value)/take_number(\&at, UINT32_MAX, \&value)/; s/(value > 1)/((uint8_t)value > 1)/'
wrong operands "numbers wrap" 's/            sum = most;/            sum %= (uint64_t)most + 1;/'
wrong operands "an input out of range is cut off" 's/if (input->number >> contacts != 0)/if (false)/'
wrong operands "the last contact first in what is read" 's/\[MARK + i\] == .1./[MARK + input.signs - 1 - i] == 0x31/'
wrong operands "the last contact first in what is shown" 's/shown.text\[MARK + i\]/shown.text[MARK + contacts - 1 - i]/'
wrong operands "signs are not counted" 's/input->signs != 0 && input->signs != contacts/false/'
wrong operands "signs are not looked at" "s/input.signs == 0 || text\[MARK + input.signs\] != '.0'/false/"
wrong operands "both rails alike" 's/= !rails\[2 \* i\]/= rails[2 * i]/'
wrong operands "text after a hold is ignored" "s/ || \*at != '.0')/)/"
wrong operands "a line's value 2 is its first pin's 0" 's/else if (value > 1)/else if (false)/'
wrong operands "the second pin is the first" 's/put_hold(hold, line, pin, value)/put_hold(hold, line, pin != 0, value)/'
wrong operands "the pins are exchanged" 's/put_hold(hold, line, pin, value)/put_hold(hold, line, pin == 0 ? 0 : 3 - pin, value)/'
wrong operands "a pin is its gate's line" 's/put_hold(hold, line, pin, value)/put_hold(hold, line, 0, value)/'
wrong operands "pin 0 is the line" 's/of_pin && pin != 1 && pin != 2/of_pin \&\& pin > 2/'
wrong operands "pin 128 is the line" 's/of_pin && pin != 1 && pin != 2/of_pin \&\& pin == 0/'
wrong operands "a pin needs no number" 's/formed = take_number(&at, UINT8_MAX, &pin) && formed/take_number(\&at, UINT8_MAX, \&pin)/'
wrong operands "a pin needs no line" 's/formed = take_number(&at, UINT8_MAX, &pin) && formed/formed = take_number(\&at, UINT8_MAX, \&pin)/'
wrong operands "the value byte of a pin is one too large" 's/(uint8_t)(2 \* site + value)/(uint8_t)(2 * site + value + (site > 0))/'
wrong operands "a pin's value is its byte" 's/return hold\[2\] % 2;/return hold[2];/'
wrong operands "a pin has its line's name" '/^struct held_text held_name/,/^}/s/held_site(hold) == 0/true/'
wrong operands "nothing is said of a value that there is not" 's/hold\[2\] == NO_VALUE/false/'
wrong operands "nothing is said of a pin that there is not" 's/hold\[2\] == NO_PIN/false/'
wrong netlist "a 12-contact netlist is refused" 's/<= MOST_CONTACTS/< MOST_CONTACTS/'
wrong netlist "netlists are taken for tables" 's/second_tag(file) == GATES/false/'
wrong netlist "notes before the first field are its contacts" 's/field_at(file->at, file->length, past_notes(file->at, file->length, 0), &field)/field_at(file->at, file->length, 0, \&field)/'
wrong netlist "a note before the first field is the first" 's/size_t at = past_notes(file->at, file->length, 0);/size_t at = 0;/'
wrong netlist "a note behind the first field is the second" 's/at = past_notes(file->at, file->length, at + HEAD + first.length);/at += HEAD + first.length;/'
wrong netlist "a netlist whose gates are cut short is taken for a table" 's/return at < file->length ? file->at\[at\] : 0;/return field_at(file->at, file->length, at, \&first) ? first.tag : 0;/'
wrong netlist "no questions are asked of a netlist" 's/if (refusal != 0)/if (false)/'
wrong netlist "AND and OR exchanged" 's/at\[0\] == 0/at[0] == 1/'
wrong fields "two bytes are taken low byte first" 's/256u \* at\[0\] + at\[1\]/256u * at[1] + at[0]/'
wrong fields "tag 128 is no note's" 's/>= PILGODUR_NOTE_TAG/> PILGODUR_NOTE_TAG/'
wrong fields "tag 127 is a note's" 's/>= PILGODUR_NOTE_TAG/>= PILGODUR_NOTE_TAG - 1/'
wrong fields "tag 255 is no note's" 's/return field->tag >= PILGODUR_NOTE_TAG/& \&\& field->tag < 255/'
wrong fields "an empty note is none" 's/return field->tag >= PILGODUR_NOTE_TAG/& \&\& field->length > 0/'
wrong fields "notes are not passed over" 's/ && is_note(&field))$/ \&\& false)/'
wrong fields "every field is passed over" 's/ && is_note(&field))$/)/'
wrong fields "one note is passed over" 's/    while (field_at(bytes, length, at, &field) && is_note/    if (field_at(bytes, length, at, \&field) \&\& is_note/'
wrong fields "a field whose value is cut short is whole" 's/ || two_bytes(head + 1) > left - HEAD//'
wrong fields "a field that lacks its last byte is whole" 's/two_bytes(head + 1) > left - HEAD/two_bytes(head + 1) > left - HEAD + 1/'
wrong fields "a field that ends the file is cut short" 's/two_bytes(head + 1) > left - HEAD/two_bytes(head + 1) >= left - HEAD/'
wrong fields "a field of three bytes is cut short" 's/left < HEAD/left <= HEAD/'
wrong fields "lengths are written low byte first" 's/at\[1\] = (uint8_t)(length \/ 256);/at[1] = (uint8_t)length;/; s/at\[2\] = (uint8_t)length;/at[2] = (uint8_t)(length \/ 256);/'
wrong notes "notes are counted from 1" 's/show_note(out, count++, at/show_note(out, ++count, at/'
wrong notes "every note has the number 0" 's/show_note(out, count++, at/show_note(out, 0 * count++, at/'
wrong notes "the byte is that of the value" 's/number, at, note->tag/number, at + HEAD, note->tag/'
wrong notes "tag and length exchanged" 's/note->tag, note->length/(unsigned)note->length, (size_t)note->tag/'
wrong notes "a note ends at its first byte 0" 's/i < note->length; i++/i < note->length \&\& note->value[i] != 0; i++/'
wrong notes "the last byte of a note is lost" 's/i < note->length; i++/i + 1 < note->length; i++/'
wrong notes "bytes below a blank reach the terminal" "s/byte < ' ' || //"
wrong notes "bytes above ~ reach the terminal" "s/ || byte > '~'//"
wrong notes "the byte 127 reaches the terminal" "s/byte > '~'/byte > 127/"
wrong notes "a blank is escaped" "s/byte < ' '/byte <= ' '/"
wrong notes "~ is escaped" "s/byte > '~'/byte >= '~'/"
wrong notes "a backslash stands alone" "s/ || byte == '..' ?/ ?/"
wrong notes "a quotation mark stands alone" "s/byte == '\"' || //"
wrong notes "one hex digit is enough" 's/x%02x/x%x/'
wrong notes "other fields are notes too" 's/if (is_note(&field))/if (true)/'
wrong notes "a file that is not whole is not refused" 's/if (at < file->length)/if (false)/'
wrong notes "a file that is not whole is refused by 11" 's/PILGODUR_REFUSAL_FIELDS/PILGODUR_REFUSAL_NETLIST/'
wrong notes "nothing is said where there are no notes" 's/if (count == 0)/if (false)/'
wrong notes "no notes is said after the notes" 's/if (count == 0)/if (true)/'
wrong notes "text is searched for notes" 's/if (is_text(file))/if (false)/'
wrong netlist "a message does not name the file" 's/refuse(built.refusal, "%s", table->name)/refuse(built.refusal, "table")/'
wrong netlist "second sources are not read" 's/gate.first == line || gate.second == line/gate.first == line/'
wrong netlist "true lines of outputs are not read" 's/pair.yes == line || //'
wrong netlist "false lines of outputs are not read" 's/ || pair.no == line//'
wrong show "the mark of a held line is lost after the first" 's/bool held = h < first_pin/bool held = h == 0 \&\& h < first_pin/'
wrong show "the mark of a held pin is lost" 's/p < holds_length && two_bytes/false \&\& two_bytes/'
wrong show "a line is held where its pin is" 's/bool held = h < first_pin/bool held = h < holds_length/'
wrong show "the first held pin of a gate alone" 's/for (; p < holds_length \(.*\))$/for (size_t from = p; p < holds_length \1)\n            if (p == from)/'
wrong show "a held pin shows the other value" 's/held_value(holds + p)/!held_value(holds + p)/'
wrong show "pairs false rail first" 's/"output %u: %u%u %s.n", output, yes, no/"output %u: %u%u %s\\n", output, no, yes/'
wrong on_table "line values from one line further on" 's/room + netlist,/room + netlist + 1,/'
wrong on_table "spare contacts are left out" 's/^    show_spare_contacts(out, &netlist);//'
wrong on_table "a used contact is named as spare" 's/!is_read(netlist, 2 + 2 \* i) && !is_read(netlist, 3 + 2 \* i)/is_read(netlist, 2 + 2 * i)/'
wrong on_table "the first spare contact alone" 's/i < netlist->contacts; i++/i < netlist->contacts \&\& spare == 0; i++/'
wrong on_table "spare contacts are counted from 1" 's/: ", ", i);/: ", ", i + 1);/'
wrong on_table "an empty line where no contact is spare" 's/if (spare > 0)/if (true)/'
wrong on_table "the hold of a line that nothing reads is not named" 's/ || probed.refusal == PILGODUR_REFUSAL_UNREAD)/)/'
wrong on_table "a hidden pin shows at input 0" 's/is hidden: no input shows it/shows at input 0/'
wrong on_table "a hidden pin is a no" '/^enum status probe/,/^}/s/return ANSWERED;/return probed.way == PILGODUR_WAY_HIDDEN ? SAID_NO : ANSWERED;/'
wrong on_table "a hidden pin has no line values" 's/if (request->lines) {/if (request->lines \&\& probed.way != PILGODUR_WAY_HIDDEN) {/'
wrong on_table "the input of a hidden pin's line values is left out" 's/} else if (lines) {/} else if (false) {/'
wrong on_table "a pin is called a line" 's/held_site(hold) == 0 ? "line" : "pin"/"line"/'
wrong on_table "build has no lamp" 's/request->lamp/false/'
wrong on_table "build has no notes" 's/netlist.length + request->notes_length, request->output/netlist.length, request->output/'
wrong on_table "notes stand before the netlist" 's/memcpy(file, netlist.bytes, netlist.length);/memcpy(file + request->notes_length, netlist.bytes, netlist.length);/; s/memcpy(file + netlist.length, request->notes/memcpy(file, request->notes/'
wrong on_table "build with -o writes text" 's/request->output == NULL/true/'
wrong on_table "output 0 has the largest weight" 's/reading.word >> j/reading.word >> (checked.outputs - 1 - j)/'
wrong draw "draw with -o writes text" 's/request->output == NULL/true/'
wrong draw "draw without -o writes bytes" 's/request->output == NULL/false/'
wrong draw "room for a table is too short" 's/table\[PILGODUR_TABLE_MAX\]/table[60]/'
wrong draw "the fault is left out" 's/made.refusal == PILGODUR_REFUSAL_DRAWING/false/'
wrong draw "the width is left out" 's/made.refusal == PILGODUR_REFUSAL_FUNCTIONS/false/'
wrong width "one contact fewer is fixed" 's/contacts 0 to %u leaves more than eight functions", fixed - 1/contacts 0 to %u leaves more than eight functions", fixed - 2/'
wrong width "two contacts are fixed at least" 's/unsigned fixed = 1;/unsigned fixed = 2;/'
wrong width "eight functions are too many" 's/if (k == 8)/if (k == 7)/'
wrong width "functions are compared in half" 's/way \* size, size) != 0)/way * size, size \/ 2) != 0)/'
wrong draw "text is handed over as it is" 's/pilgodur_from_drawing(drawing.bytes, drawing.length/pilgodur_from_drawing(request->file[0].at, request->file[0].length/'
wrong draw "a refused drawing is an answer" 's/if (made.refusal != 0)/if (false)/'
wrong draw "nodes are named by their place" 's/if (d->is_text)/if (false)/'
wrong draw "the name of the node after" 's/d->node\[number - 2\].name.at)/d->node[number - 1].name.at)/'
wrong draw "a line is not named" 's/if (f->drawing->is_text)/if (false)/'
wrong draw "only 0-edges are looked at" 's/ || edge_fault(f, number, line, node\[2\], fault)//'
wrong draw "an edge within its level is no fault" 's/3 \* (edge - 2)\] <= contact)/3 * (edge - 2)] < contact)/'
wrong draw "a contact too high is no fault" 's/if (node\[0\] >= contacts)/if (false)/'
wrong draw "the count of outputs is that of the bytes" 's/d->is_text ? d->outputs : length/length/'
wrong draw "the count of nodes is that of the bytes" 's/d->is_text ? d->nodes : length/length/'
wrong draw "bytes after the last field are no fault" 's/return at < length \&\&/return false \&\&/'
wrong draw "a cut field is none" 's/if (at == length)/if (at == length || !field_at(bytes, length, at, \&field))/'
wrong draw "a note between the fields is one of them" 's/^        at = past_notes(bytes, length, at);//'
wrong draw "a note behind the fields is some bytes" 's/^    at = past_notes(bytes, length, at);//'
wrong fault "a cut note is a field" 's/if (bytes\[at\] < PILGODUR_NOTE_TAG)/if (true)/'
wrong fault "a cut field is a note" 's/if (bytes\[at\] < PILGODUR_NOTE_TAG)/if (false)/'
wrong draw "a cut note at the end is some bytes" 's/if (at < length && bytes\[at\] >= PILGODUR_NOTE_TAG)/if (false)/'
wrong fault "a byte order mark is not named" 's/marked ? .*)/"")/'
wrong fault "every cut note is a byte order mark" 's/bool marked = .*/bool marked = true;/'
wrong fault "a byte order mark may stand anywhere" 's/marked = at == 0 && length >= size && memcmp(bytes,/marked = length >= at + size \&\& memcmp(bytes + at,/'
wrong text "text is taken for bytes" "s/(' ' <= first && first < PILGODUR_NOTE_TAG) || //"
wrong text "text that begins with an empty line is taken for bytes" 's/ || memchr(".t.r.n", first, 3) != NULL//'
wrong text "bytes are taken for text" 's/    return (. . <= first.*/    return file->length > 0;/'
wrong text "bytes that begin with a note are taken for text" 's/ && first < PILGODUR_NOTE_TAG//'
wrong text "no bytes are text" "s/file->at\[0\] : 0/file->at[0] : 9/"
wrong text "comments are words" "s/memchr(text->at, '#', /memchr(text->at, 1, /"
wrong text "a tab is no blank" "s/ || c == '.t'//"
wrong text "CRLF is no line end" "s/ || c == '.r'//"
wrong text "lines are counted from 0" 's/{.file = file->name}/{.file = file->name, .number = -1u}/'
wrong text "a last line without a line feed is lost" 's/while (text->at < text->end) {/while (text->at < text->end \&\& memchr(text->at, 10, (size_t)(text->end - text->at))) {/'
wrong drawing "any sign may be in a word" 's/if (!is_of_a_word(\*line->at))/if (false)/'
wrong drawing "no dot in a name" "s/ || c == '.';/;/"
wrong drawing "numbers wrap" 's/if (number > UINT8_MAX)/if (false)/'
wrong drawing "a word that is no number is one" "s/if (word->at\[i\] < '0' || word->at\[i\] > '9')/if (false)/"
wrong drawing "a name twice is the first one's" 's/if (first != node)/if (false)/'
wrong drawing "a name that is missing is the constant 0" 's/    if (node == NULL)/    if (node == NULL)\n        return 0;\n    if (false)/'
wrong drawing "names that begin alike are one" 's/order != 0 ? order : (a->length > b->length) - (a->length < b->length)/order/'
wrong drawing "names are not sorted" 's/^    qsort(.*//'
wrong drawing "the first node has the number 1" 's/size_t number = 2 + /size_t number = 1 + /'
wrong drawing "the constants are exchanged" "s/name->at\[0\] == '1'/name->at[0] == '0'/"
wrong drawing "open and closed are exchanged" 's/\*put++ = zero;/*put++ = one; one = zero;/'
wrong drawing "a node may be called 1" 's/ || is(&node->name, "1"))/)/'
wrong drawing "a third word after contacts is ignored" 's/ || !next_word(line, &number) || next_word(line, &more)/ || !next_word(line, \&number)/'
wrong drawing "a fifth word is ignored" 's/!next_word(line, &node->edge\[1\]) || next_word(line, &more)/!next_word(line, \&node->edge[1])/'
wrong drawing "the count of contacts may be missing" 's/ || !next_word(line, &number)/ || (next_word(line, \&number), false)/'
wrong drawing "outputs need not be named so" 's/ || !is(&word, "outputs"))/)/'
wrong drawing "outputs past the ninth are written" 's/if (drawing->outputs <= DRAWING_OUTPUTS)/if (true)/'
wrong drawing "the ninth output is left out" 's/smaller(drawing->outputs, DRAWING_OUTPUTS + 1)/smaller(drawing->outputs, DRAWING_OUTPUTS)/'
wrong drawing "node 201 is left out" 's/smaller(drawing->nodes, DRAWING_NODES + 1)/smaller(drawing->nodes, DRAWING_NODES)/'
wrong drawing "nodes past 201 are written" 's/if (i < count)/if (true)/'
wrong drawing "nodes past the first 64 overwrite others" 's/room == 0 ? FIRST_ROOM : 2 \* room/FIRST_ROOM + 0 * room/'
wrong drawing "a missing output is on the line before" 's/^    read_nodes(&text, drawing);/    outputs.number--;\n&/'
wrong text "a text of another form is a refusal" 's/fail(FAILED, "%s: line %u: %s"/fail(SAID_NO, "%s: line %u: %s"/'
wrong fault "a first field of two bytes is no fault" 's/if (field->length != 1)/if (false)/'
wrong fault "thirteen contacts are no fault" 's/ || field->value\[0\] > 12)/)/'
wrong fault "no contacts are no fault" 's/field->value\[0\] < 1 || //'
wrong rule_sheet "the last contact first" 's/rule->sign\[rule->contacts\] =/rule->sign[rule->contacts % 2 == 0 ? rule->contacts + 1 : rule->contacts - 1] =/'
wrong rule_sheet "the last output first" "s/((\*at == '1') << rule->permits)/((*at == '1') << (7 - rule->permits))/"
wrong rule_sheet "- is open" "s/\*at == '-' ? 2 :/*at == '-' ? 0 :/"
wrong rule_sheet "open and closed are exchanged" "s/? 2 : \*at == '1';/? 2 : *at == '0';/"
wrong rule_sheet "yes and no are exchanged" "s/((\*at == '1') << rule->permits)/((*at == '0') << rule->permits)/"
wrong rule_sheet "any sign may stand before the colon" "s/if (\*at != '0' && \*at != '1' && \*at != '-')/if (false)/"
wrong rule_sheet "any sign may stand behind the colon" "s/if (\*at != '0' && \*at != '1')/if (false)/"
wrong rule_sheet "2 stands for either, too" "s/ && \*at != '-')/ \&\& *at != '-' \&\& *at != '2')/"
wrong rule_sheet "no blanks before the colon" '/^static void read_contacts/,/^}/s/if (is_blank(\*at))/if (false)/'
wrong rule_sheet "no blanks behind the colon" '/^static void read_permits/,/^}/s/if (is_blank(\*at))/if (false)/'
wrong rule_sheet "without a colon there are no permits" 's/if (colon == NULL)/if (colon == NULL)\n        colon = line->end;\n    if (false)/'
wrong rule_sheet "other counts of contacts are no fault" 's/if (rule->contacts != sheet->contacts)/if (false)/'
wrong rule_sheet "other counts of permits are no fault" 's/if (rule->permits != sheet->outputs)/if (false)/'
wrong rule_sheet "fewer permits are no fault" 's/if (rule->permits != sheet->outputs)/if (rule->permits > sheet->outputs)/'
wrong rule_sheet "the counts are those of the line before" 's/if (sheet->rules == 0) {/if (true) {/'
wrong rule_sheet "the line of another rule is named" 's/rule->contacts, sheet->line\[0\]/rule->contacts, sheet->line[1]/'
wrong rule_sheet "the thirteenth contact is left out" 's/RULES_CONTACTS + 1)/RULES_CONTACTS)/'
wrong rule_sheet "the ninth permit is left out" 's/RULES_OUTPUTS + 1)/RULES_OUTPUTS)/'
wrong rule_sheet "rule 65 is left out" 's/if (sheet->rules <= RULES_MOST)/if (sheet->rules < RULES_MOST)/'
wrong rule_sheet "rules past 65 are written" 's/if (sheet->rules <= RULES_MOST)/if (true)/'
wrong rule_sheet "contacts past the thirteenth are written" 's/if (rule->contacts <= RULES_CONTACTS)/if (true)/'
wrong rule_sheet "a rule keeps the word of the one before" 's/\*rule = (struct rule){0};/rule->contacts = rule->permits = 0;/'
wrong rule_sheet "text without a rule is a rule sheet" 's/if (sheet->rules == 0)$/if (false)/'
wrong rule_sheet "a rule is on the line after" 's/= text.line.number;/= text.line.number + 1;/'
wrong rule_sheet "the outputs have tag 2" 's/put_byte_field(put, 8,/put_byte_field(put, 2,/'
wrong rules "rules with -o writes text" 's/request->output == NULL/true/'
wrong rules "rules without -o writes bytes" 's/request->output == NULL/false/'
wrong rules "room for a table is too short" 's/table\[PILGODUR_TABLE_MAX\]/table[60]/'
wrong rules "text is handed over as it is" 's/pilgodur_from_rules(sheet.bytes, sheet.length/pilgodur_from_rules(request->file[0].at, request->file[0].length/'
wrong rules "a refused rule sheet is an answer" 's/if (made.refusal != 0)/if (false)/'
wrong rules "nothing is said of a fault" 's/^        find_fault(&sheet, made.refusal, &fault);//'
wrong rules "of a text nothing more is said" 's/(sheet->is_text && text_fault(sheet, fault)) || //'
wrong rules "the line of the last rule that may be is named" 's/sheet->line\[RULES_MOST\], RULES_MOST/sheet->line[RULES_MOST - 1], RULES_MOST/'
wrong rules "the count of contacts is that of the bytes" 's/sheet->line\[0\], sheet->contacts, RULES_CONTACTS/sheet->line[0], (size_t)sheet->bytes[3], RULES_CONTACTS/'
wrong rules "the count of outputs is that of the bytes" 's/sheet->line\[0\], sheet->outputs, RULES_OUTPUTS/sheet->line[0], (size_t)sheet->bytes[7], RULES_OUTPUTS/'
wrong rules "a second field of two bytes is no fault" 's/if (field->length != 1)/if (false)/'
wrong rules "nine outputs are no fault" 's/ || field->value\[0\] > RULES_OUTPUTS)/)/'
wrong rules "65 rules are no fault" 's/if (r->count == RULES_MOST)/if (r->count == RULES_MOST + 1)/'
wrong rules "a rule of another length is no fault" 's/if (field->length != r->contacts + 1)/if (false)/'
wrong rules "3 is a sign" 's/if (field->value\[i\] > EITHER)/if (field->value[i] > EITHER + 1)/'
wrong rules "the last contact is not looked at" '/^static bool rule_fault/,/^}/s/i < r->contacts; i++/i + 1 < r->contacts; i++/'
wrong rules "a word too large is no fault" 's/if (field->value\[r->contacts\] >> r->outputs != 0)/if (false)/'
wrong rules "rules are counted from 1 in a fault" 's/k - FIRST_RULE)/k - FIRST_RULE + 1)/'
wrong rules "rules are counted from 1 where they share an input" 's/fits the rules %u and %u", input, contacts.text, first, second)/fits the rules %u and %u", input, contacts.text, first + 1, second + 1)/'
wrong rules "a cut field is none" 's/if (at == length)/if (at == length || !field_at(bytes, length, at, \&field))/'
wrong rules "a sheet without rules is no fault" 's/k <= FIRST_RULE || at < length/k < FIRST_RULE || at < length/'
wrong rules "what is behind the first rule is not looked at" 's/k <= FIRST_RULE || at < length/k <= FIRST_RULE/'
wrong rules "every field of a rule has a good tag" 's/if (field.tag != tag)/if (k < FIRST_RULE \&\& field.tag != tag)/'
wrong rules "a note before the fields is one of them" 's/at = past_notes(bytes, length, 0);/at = 0;/'
wrong rules "a note behind a field is one of them" 's/at = past_notes(bytes, length, at + HEAD + field.length);/at += HEAD + field.length;/'
wrong rules "the last contact has the least weight" 's/(input >> i & 1)))/(input >> (r->contacts - 1 - i) \& 1)))/'
wrong rules "either is closed" 's/r->rule\[k\]\[i\] == EITHER || /(r->rule[k][i] == EITHER \&\& (input >> i \& 1)) || /'
wrong rules "rules are named by their numbers in text" 's/if (r->sheet->is_text)/if (false)/'
wrong rules "the first rule is named twice" 's/r->sheet->line\[second\]/r->sheet->line[first]/'
wrong rules "the last shared input is named" '/^static void find_shared/,/^}/s/^        return;//'
wrong rules "a shared input 0 is not seen" '/^static void find_shared/,/^}/s/input = 0;/input = 1;/'
wrong rules "a shared last input is not seen" '/^static void find_shared/,/^}/s/input < 1u << r->contacts/input + 1 < 1u << r->contacts/'
wrong rules "the last input without a rule is named" '/^static void find_unruled/,/^}/s/^            return;//'
wrong rules "an input 0 without a rule is not seen" '/^static void find_unruled/,/^}/s/input = 0;/input = 1;/'
wrong rules "a last input without a rule is not seen" '/^static void find_unruled/,/^}/s/input < 1u << r->contacts/input + 1 < 1u << r->contacts/'
wrong rules "the width is that of the contacts from the last on" 's/place >> (r->contacts - 1 - i) & 1/place >> i \& 1/'
wrong rules "the width is that of the first output" 's/v.outputs = r->outputs;/v.outputs = 1;/'
wrong rules "the width is left out" 's/refusal == PILGODUR_REFUSAL_FUNCTIONS/false/'
wrong rules "the shared input is left out" 's/refusal == PILGODUR_REFUSAL_SHARED/false/'
wrong rules "the input without a rule is left out" 's/refusal == PILGODUR_REFUSAL_UNRULED/false/'
wrong options "rules takes no -o" 's/rules, 1, 1, TAKES_OUTPUT/rules, 1, 1, 0/'
wrong options "rules takes two operands" 's/rules, 1, 1, TAKES_OUTPUT/rules, 1, 2, TAKES_OUTPUT/'
wrong options "rules are drawn" 's/{"rules", rules,/{"rules", draw,/'
wrong on_netlist "the sheet without its heading" 's/fwrite(text, 1, sheet.length, out)/fwrite(text + 22, 1, sheet.length - 22, out)/'
wrong on_netlist "the sheet without its last row" 's/fwrite(text, 1, sheet.length, out)/fwrite(text, 1, sheet.length - 22, out)/'
wrong on_netlist "the sheet without its last line feed" 's/fwrite(text, 1, sheet.length, out)/fwrite(text, 1, sheet.length - 1, out)/'
wrong on_netlist "the sheet with the rest of its room" 's/fwrite(text, 1, sheet.length, out)/fwrite(text, 1, sizeof text, out)/'
wrong on_netlist "room for a sheet is a byte short" 's/text\[PILGODUR_SHEET_MAX\]/text[PILGODUR_SHEET_MAX - 1]/'
wrong on_netlist "the sheet with a line feed more" 's/fwrite(text, 1, sheet.length, out)/fprintf(out, "%s\\n", (char *)text)/'
wrong on_netlist "the sheet is asked of the file and not of the netlist" 's/pilgodur_sheet(netlist.bytes, netlist.length/pilgodur_sheet(request->file[0].at, request->file[0].length/'
wrong on_netlist "sheets on standard error" 's/fwrite(text, 1, sheet.length, out)/fwrite(text, 1, sheet.length, stderr)/'
wrong on_netlist "room for a sheet without lamp" 's/text\[PILGODUR_SHEET_MAX\]/text[237160]/'
wrong on_netlist "sheets of tables without the lamp" 's/request->lamp/false/'
wrong show "a run does not show the lamp" 's/if (netlist->lamp != NULL)/if (false)/'
wrong show "a run shows a lamp that is not there" 's/if (netlist->lamp != NULL)/if (true)/'
wrong show "the lamp shows the last output" 's/pairs\[2 \* netlist->outputs\], pairs\[2 \* netlist->outputs + 1\]/pairs[2 * netlist->outputs - 2], pairs[2 * netlist->outputs - 1]/'
wrong show "the lamp's rails are exchanged" 's/pairs\[2 \* netlist->outputs\], pairs\[2 \* netlist->outputs + 1\]/pairs[2 * netlist->outputs + 1], pairs[2 * netlist->outputs]/'
wrong on_netlist "only the first hold is used" 's/holds->at, 3 \* holds->count, lines,/holds->at, holds->count > 0 ? 3 : 0, lines,/'
wrong on_netlist "the netlist is not asked about before the input" 's/struct netlist netlist = netlist_in(load_operand(request, 0));/uint8_t room[PILGODUR_FILE_MAX]; struct netlist netlist = netlist_in_or_of(load_operand(request, 0), false, room);/'
wrong drive "the first hold is named for any" 's/return count - 1;/return 0;/'
wrong on_netlist "the fault of the first hold is named for any" 's/holds->at + 3 \* i)/holds->at)/'
wrong drive "an input is taken for a file of rails" 's/= looks_like_input(request->operand\[1\])/= false/'
wrong drive "an input is not shown" 's/    show_input(out, number, netlist->contacts);//'
wrong drive "the file of rails is overwritten" 's/request->files++/request->files/'
wrong operands "all is no count" 's/strcmp(text, "all") == 0 || //'
wrong operands "text after a count is ignored" "s/(take_number(&text, UINT32_MAX, count) \&\& \*text == '.0')/take_number(\&text, UINT32_MAX, count)/"
wrong operands "a count above 3 is 3" 's/take_number(&text, UINT32_MAX, count)/take_number(\&text, 3, count)/'
wrong show "holds of earlier lines keep the mark of a line away" 's/h = holds_from(holds, 0, first_pin, from)/h = 0/'
wrong show "holds of earlier gates keep the mark of a pin away" 's/p = holds_from(holds, first_pin, holds_length, from)/p = first_pin/'
wrong show "lines are shown from 0 on" 's/for (unsigned line = from; line < to; line++)/for (unsigned line = 0; line < to; line++)/'
wrong pilgodur "answers are shown again" 's/    rewind(out);//'
wrong pilgodur "answers so far are lost" '/^void show_so_far/,/^}/s/    save(.*//'
wrong pilgodur "answers so far are not all there" 's/if (fflush(out) != 0)/if (false)/'
wrong options "step takes any number of operands" 's/step, 2, 3, 0/step, 2, INT_MAX, 0/'
wrong options "step needs a file of calls" 's/step, 2, 3, 0/step, 3, 3, 0/'
wrong options "step takes --lines" 's/step, 2, 3, 0/step, 2, 3, TAKES_LINES/'
wrong report "what is told ends the program" '/^void tell(/,/^}/s/    fputc(.*/&\n    exit(FAILED);/'
wrong report "a refusal that is told ends the program" '/^void tell_refusal(/,/^}/s/    say_refused(.*/&\n    exit(SAID_NO);/'
wrong step "a terminal is not asked" 's/ && isatty(STDIN_FILENO) == 1/ \&\& false/'
wrong step "a pipe is asked, too" 's/ && isatty(STDIN_FILENO) == 1//'
wrong step "a terminal is asked though there is a file" 's/strcmp(operand, "-") == 0 && isatty/isatty/'
wrong step "the third operand is not read" 's/request->operands > 2 ? request->operand\[2\] : "-"/"-"/'
wrong step "the file of calls is overwritten" 's/request->files++/request->files/'
wrong step "a prompt on standard output" 's/fprintf(stderr, "place/fprintf(stdout, "place/'
wrong step "a prompt without the place" 's/"place %" PRIu32 ", lines left %u: ", s->place, /"lines left %u: ", /'
wrong step "a prompt with a line too many" 's/- s->place;/- s->place + 1;/'
wrong step "a blank line is a call" 's/while (!next_line(&calls->text))/while (next_line(\&calls->text), false)/'
wrong step "no line end after the last prompt" "s/            fputc('.n', stderr);//"
wrong step "answers are shown in the end alone" 's/    show_so_far(request, out);//'
wrong step "calls are asked for after the last line" 's/lines_left(s) > 0 && ask_for_line/ask_for_line/'
wrong step "a wrong line ends the program on a terminal" '/^static void tell_fault/,/^}/s/if (!calls->asks)/if (true)/'
wrong step "a wrong line in a file is passed over" '/^static void tell_fault/,/^}/s/if (!calls->asks)/if (false)/'
wrong step "text that is no call is a refusal" 's/exit(refusal != 0 ? SAID_NO : FAILED)/exit(SAID_NO)/'
wrong step "a refusal is text that is no call" 's/exit(refusal != 0 ? SAID_NO : FAILED)/exit(FAILED)/'
wrong step "text that is no call is wrong usage" 's/SAID_NO : FAILED/SAID_NO : MISUSED/'
wrong step "lines are counted from 0" 's/line->file, line->number,/line->file, line->number - 1,/'
wrong step "only the first hold of a call is read" 's/i < holds->count; i++/i < holds->count \&\& i < 1; i++/'
wrong step "text that is no hold is passed over" 's/if (!is_hold(holds->text\[i\], holds->at + 3 \* i))/if (is_hold(holds->text[i], holds->at + 3 * i), false)/'
wrong step "any sign may stand in a call" 's/if (!is_of_a_call(\*at))/if (false)/'
wrong step "capital letters are no signs of a call" "s/ || ('A' <= c && c <= 'Z')//"
wrong step "a call needs no count" 's/if (!is_count(call->word\[0\], &call->count))/if (is_count(call->word[0], \&call->count), false)/'
wrong step "a long word is shown in full" 's/%\.40s/%s/'
wrong step "every call works out one line" 's/call->count, s->lines/1, s->lines/'
wrong step "every call begins at line 2" 's/3 \* call->holds.count, s->place/3 * call->holds.count, 2/'
wrong step "the place stays where it is" 's/        s->place = stepped.place;/        ;/'
wrong step "holds are left out" 's/3 \* call->holds.count, s->place/0, s->place/'
wrong step "the last hold of a call is left out" 's/3 \* call->holds.count, s->place/3 * (call->holds.count - (call->holds.count > 0)), s->place/'
wrong step "the last byte of the lines is not lent" 's/sizeof s->lines/lines_of(netlist) - 1/'
wrong step "the first hold of a call is named for any" 's/size_t i = refused_hold(.*/size_t i = 0;/'
wrong step "nothing is said of what is wrong with a hold" 's/hold_fault(holds->at + 3 \* i)/""/'
wrong step "a run begins at line 3" 's/s->place = 2;/s->place = 3;/'
wrong step "rails are asked about after the first line" 's/    begin(&s);/    s.place = 2;/'
wrong step "a hold that comes too late is not told" 's/if (line < from || line >= s->place)/if (line >= s->place)/'
wrong step "a hold that comes too early is not told" 's/if (line < from || line >= s->place)/if (line < from)/'
wrong step "a hold of the next line is not told" 's/line >= s->place)/line > s->place)/'
wrong step "a hold of the first line worked out has no effect" 's/if (line < from ||/if (line <= from ||/'
wrong step "too early is too late" 's/line < from ? "was worked out before"/line >= from ? "was worked out before"/'
wrong step "a pin without effect has its line's name" 's/held_name(hold).text, held_value(hold), line/held_name((uint8_t[]){hold[0], hold[1], 0}).text, held_value(hold), line/'
wrong step "every line so far is shown" 's/show_lines(out, s->lines, from,/show_lines(out, s->lines, 2,/'
wrong step "a heading for no lines" 's/if (s->place > from)/if (true)/'
wrong step "the pairs after every call" 's/if (lines_left(s) == 0)/if (true)/'
wrong step "no pairs in the end" 's/if (lines_left(s) == 0)/if (false)/'
wrong step "calls are not counted" 's/        s->calls++;//'
wrong step "a wrong line is counted as a call" '/^static void make_call/,/^}/s/        tell_fault(.*/&\n        s->calls++;/'
wrong step "netlist and calls from one standard input" 's/strcmp(request->operand\[0\], "-") == 0 || //'
wrong step "rails and calls from one standard input" 's/ || strcmp(request->operand\[1\], "-") == 0//'
wrong step "standard input serves nothing but calls" 's/request->operands == 2 && //'
wrong step "nothing is said where the calls end too early" 's/if (lines_left(&s) > 0)/if (false)/'
wrong step "the calls end too early always" 's/if (lines_left(&s) > 0)/if (true)/'
wrong compare "kinds are not compared" 's/"%-4s %6u  %6u", g.kind/"%-4s %6u  %6u", "OR"/'
wrong compare "second sources are not compared" 's/g.first, g.second/g.first, 0/'
wrong compare "outputs are not compared" 's/count_differing(side, &lists.outputs) == 0 && //'
wrong compare "only the gates that both have are compared" 's/return a > b ? a : b;/return a < b ? a : b;/'
wrong compare "different lists are an answer" 's/return alike ? ANSWERED : SAID_NO;/return ANSWERED;/'
wrong compare "the permits of output 0 alone" 's/same_values(out, side, 0, outputs)/same_values(out, side, 0, 1)/'
wrong compare "a difference in the false rail alone is no difference" 's/x\[0\] == y\[0\] && x\[1\] == y\[1\]/x[0] == y[0]/'
wrong compare "lamps are not compared" 's/ && count_differing(side, &lists.lamps) == 0;/;/'
wrong compare "a lamp that is missing is no difference" 's/side\[A\].lamp != NULL || side\[B\].lamp != NULL, 0/side[A].lamp != NULL \&\& side[B].lamp != NULL, 0/'
wrong compare "lamps are not counted" '/show_count(out, "lamps"/d'
wrong compare "the lamps' rows are not shown" 's/if (lists->lamps.count > 0)/if (false)/'
wrong compare "rows of lamps where there are none" 's/if (lists->lamps.count > 0)/if (true)/'
wrong compare "lamps are not run" 's/same_values(out, side, outputs, outputs + 1))/false)/'
wrong compare "a lamp is run that is not there" 's/side\[A\].lamp != NULL && side\[B\].lamp != NULL && same/same/'
wrong compare "the lamps are run as a permit" 's/same_values(out, side, 0, outputs)/same_values(out, side, 0, pairs_of(side))/'
wrong compare "a lamp's code is a permit" 's/lamp ? lamp_meaning : pair_meaning/pair_meaning/'
wrong compare "the first line says nothing of a lamp" 's/side\[i\].lamp != NULL ? ", with lamp" : ""/""/'
wrong compare "tables are compared without the lamp" 's/request->lamp/false/'
wrong compare "the first table alone gets a lamp" 's/request->lamp, room\[i\]/request->lamp \&\& i == 0, room[i]/'
wrong dictionary "rails are left out" 's/add_rows(out, &board, 2, 0, 0)/add_rows(out, \&board, first_gate, 0, 0)/'
wrong dictionary "lines held at 0 alone" 's/value < 2; value++/value < 1; value++/'
wrong dictionary "lines that nothing reads are left out" 's/^    fprintf(out, "%s,%u,", held/    if (unread)\n        return;\n&/'
wrong dictionary "a line that nothing reads ends it" 's/probed.refusal == PILGODUR_REFUSAL_UNREAD/false/'
wrong dictionary "a line that nothing reads shows at input 0" 's/if (unread || /if (/'
wrong dictionary "the row of a line that nothing reads is a field short" 's/",,,%s/",,%s/'
wrong dictionary "pins without --pins" 's/if (request->pins)/if (true)/'
wrong dictionary "second pins are left out" 's/first_gate, 1, 2)/first_gate, 1, 1)/'
wrong dictionary "first pins are left out" 's/first_gate, 1, 2)/first_gate, 2, 2)/'
wrong dictionary "pins stand before lines" 's/^    add_rows(out, &board, 2, 0, 0);/    if (request->pins)\n        add_rows(out, \&board, first_gate, 1, 2);\n&/; s/^    if (request->pins)$/    if (false)/'
wrong dictionary "hidden pins are left out" 's/^    fprintf(out, "%s,%u,", held/    if (probed.way == PILGODUR_WAY_HIDDEN)\n        return;\n&/'
wrong dictionary "a hidden pin is unread" 's/unread ? "unread" : "hidden"/"unread"/'
wrong dictionary "a hidden pin shows at input 0" 's/ || probed.way == PILGODUR_WAY_HIDDEN//; s/ways\[probed.way\]/ways[probed.way % 2]/'
wrong dictionary "the progress of pins is that of lines" 's/first_site == 0 ? "line" : "pins of line"/"line"/'
wrong dictionary "something is left of the progress of pins" 's/(int)strlen(what) + 20/24/'
wrong dictionary "something is left of progress that ends at line 100" 's/line >= 100 /line > 100 /'
wrong dictionary "progress where there is no terminal" 's/isatty(STDERR_FILENO) == 1/true/'
wrong dictionary "no progress on a terminal" 's/isatty(STDERR_FILENO) == 1/false/'
wrong export "true and false exchanged" 's/rail == 0 ? lines.yes : lines.no/rail == 1 ? lines.yes : lines.no/'
wrong export "AND and OR exchanged in BLIF" 's/is_or(gate) ? "1-/!is_or(gate) ? "1-/'
wrong export "AND and OR exchanged in Verilog" 's/is_or(&gate) ? "or"/!is_or(\&gate) ? "or"/'
wrong export "sources exchanged in Verilog" 's/line, line, gate.first, gate.second/line, line, gate.second, gate.first/'
wrong export "constants are left out" 's/if (is_read(netlist, line))/if (false)/'
wrong export "the constant 1 is 0 in BLIF" 's/".names l1.n1.n"/".names l1\\n"/'
wrong export "gates are numbered from 0 in DOT" 's/unsigned line = first_gate(netlist) + g;/unsigned line = g;/'
wrong export "the lamp is left out" 's/pairs_of(netlist)/netlist->outputs/'
wrong export "the lamp is called an output" 's/!is_lamp(netlist, pair)/true/'
wrong export "the lamp's true and false exchanged" 's/rail == 0 ? lines.yes/rail == is_lamp(netlist, pair) ? lines.yes/'
wrong export "no comma before the lamp in Verilog" 's/j + 1 < pairs_of(netlist) ? ","/j + 1 < netlist->outputs ? ","/'
wrong export "the title says nothing of the lamp" 's/netlist->lamp != NULL ? ", with lamp" : ""/""/'
wrong export "tables are exported without the lamp" 's/request->lamp/false/'
wrong netlist "a lamp is not seen" 's/netlist.lamp = field.value;//'
wrong netlist "the lamp has other lines" 's/? netlist->lamp :/? netlist->output :/'
wrong netlist "what the lamp alone reads is not read" 's/j < pairs_of(netlist); j++/j < netlist->outputs; j++/'
wrong netlist "tables are built without the lamp" 's/(lamp ? pilgodur_build_with_lamp : pilgodur_build)/pilgodur_build/'
wrong netlist "tables are built with the lamp" 's/(lamp ? pilgodur_build_with_lamp : pilgodur_build)/pilgodur_build_with_lamp/'
wrong show "the lamp says yes and no" 's/yes != no ? "code" : //'
wrong show "the lamp is a code always" 's/yes != no ? "code" : .*/"code";/'
wrong options "any command takes --lamp" 's/return TAKES_LAMP;/return 0;/'
wrong options "--lamp is not heeded" 's/request->lamp = true;//'
wrong options "--lamp has another name in messages" 's/"--lamp"$/"--all"/'
wrong options "list takes no --lamp" 's/list, 1, 1, TAKES_LAMP/list, 1, 1, 0/'
wrong options "compare takes no --lamp" 's/TAKES_ALL | TAKES_LAMP/TAKES_ALL/'
wrong options "export takes no --lamp" 's/TAKES_FORMAT | TAKES_LAMP/TAKES_FORMAT/'
wrong options "any command takes --pins" 's/return TAKES_PINS;/return 0;/'
wrong options "--pins is not heeded" 's/request->pins = true;//'
wrong options "--pins has another name in messages" 's/"--pins"$/"--all"/'
wrong options "dictionary takes no --pins" 's/TAKES_OUTPUT | TAKES_PINS/TAKES_OUTPUT/'
wrong options "any command takes --note" 's/return TAKES_NOTE;/return 0;/'
wrong options "--note has another name in messages" 's/"--note"$/"--all"/'
wrong options "--note is not heeded" 's/^        add_note(request);//'
wrong options "the last --note counts" 's/before = request->notes_length;/before = 0; request->notes_length = 0;/'
wrong options "the last --note stands first" 's/memcpy(put_head(request->notes + before,/memmove(request->notes + HEAD + length, request->notes, before);\n    memcpy(put_head(request->notes,/'
wrong options "a note has another tag" 's/put_head(request->notes + before, PILGODUR_NOTE_TAG/put_head(request->notes + before, 255/'
wrong options "a note has its text's byte 0" 's/size_t length = strlen(optarg), /size_t length = strlen(optarg) + 1, /'
wrong options "a note of 65,536 bytes has none" 's/if (length > LONGEST)/if (false)/'
wrong options "a note of 65,535 bytes is too long" 's/if (length > LONGEST)/if (length >= LONGEST)/'
wrong options "a note that is too long is no wrong usage" 's/fail(MISUSED, "--note: its/fail(FAILED, "--note: its/'
wrong options "a file must follow --note" 's/optopt == NOTE ? "text" : "file"/"file"/'
wrong options "a text must follow -o" 's/optopt == NOTE ? "text" : "file"/"text"/'
wrong options "unknown options are operands" 's/        refuse_option(found, word);/        request->operand[request->operands++] = (char *)word; return 0;/'
wrong options "options must stand first" 's/"-:o:hV"/"+:o:hV"/'
wrong options "any option for any command" 's/if ((taken & ~commands\[i\].takes) != 0)/if (false)/'
wrong options "operands too many are ignored" 's/if (request->operands > most)/if (false)/'
wrong options "standard input is read twice" 's/if (standard_inputs > 1)/if (false)/'
wrong options "the last -o counts" 's/if (request->output != NULL)/if (false)/'
wrong pilgodur "an answer is not written" 's/    save(request.output/    if (status != ANSWERED) &/'

wrong_sheet "reading stops after the first piece" 's/while (length < ROOM && count != 0)/if (length < ROOM \&\& count != 0)/'
wrong_sheet "each piece is read over the one before" 's/netlist + length, ROOM - length/netlist, ROOM - length/'
wrong_sheet "an interrupted read fails" 's/count < 0 && errno != EINTR/count < 0/'
wrong_sheet "an interrupted read is the end" 's/length < ROOM && count != 0/length < ROOM \&\& count > 0/'
wrong_sheet "a read that fails is the end" 's/fail(FAILED, "standard input.*/break;/'
wrong_sheet "a read that fails is wrong usage" 's/fail(FAILED, "standard input/fail(MISUSED, "standard input/'
wrong_sheet "an input with a byte too many is cut off" 's/ROOM = MOST + 1/ROOM = MOST/'
wrong_sheet "the longest netlist without notes is cut off" 's/ROOM = MOST + 1/ROOM = PILGODUR_FILE_MAX - 1/'
wrong_sheet "the longest netlist without notes is the longest" 's/MOST = 65536/MOST = PILGODUR_FILE_MAX/'
wrong_sheet "65,536 bytes are too many" 's/MOST = 65536/MOST = 65535/'
wrong_sheet "65,537 bytes are not too many" 's/MOST = 65536/MOST = 65537/'
wrong_sheet "a long input is asked about all the same" 's/if (length <= MOST)/if (true)/'
wrong_sheet "every input is too long" 's/if (length <= MOST)/if (false)/'
wrong_sheet "a long input is refused by 12" 's/sheet = {PILGODUR_REFUSAL_NETLIST, 0}/sheet = {PILGODUR_REFUSAL_WIRING, 0}/'
wrong_sheet "a long input is refused by 1" 's/sheet = {PILGODUR_REFUSAL_NETLIST, 0}/sheet = {PILGODUR_REFUSAL_FIELDS, 0}/'
wrong_sheet "the longest sheet without lamp is the longest" 's/text\[PILGODUR_SHEET_MAX\]/text[237160]/'
wrong_sheet "the longest sheet is refused" 's/(uint8_t \*)text, sizeof text)/(uint8_t *)text, sizeof text - 1)/'
wrong_sheet "arguments are ignored" 's/if (argc > 1)/if (false)/'
wrong_sheet "wrong usage is a refusal" 's/return MISUSED;/return SAID_NO;/'
wrong_sheet "usage on standard output" 's/NETLIST.n", stderr)/NETLIST\\n", stdout)/'
wrong_sheet "a refusal is an answer" 's/sheet.refusal == 0 ? ANSWERED : SAID_NO/ANSWERED/'
wrong_sheet "a refusal prints nothing" 's/    save(NULL, text/    if (sheet.refusal == 0)\n    &/'
wrong_sheet "a refusal without a line feed" 's/PRIu32 ".n"/PRIu32/'
wrong_sheet "a refusal with words" 's/"%" PRIu32 ".n"/"refused: %" PRIu32 "\\n"/'
wrong_sheet "a refusal on standard error" 's/length = (size_t)snprintf(text, sizeof text,/length = 0 * (size_t)fprintf(stderr,/'
wrong_sheet "a refusal with a byte 0 at its end" 's/length = (size_t)snprintf/length = 1 + (size_t)snprintf/'
wrong_sheet "the sheet without its last row" 's/length = sheet.length;/length = sheet.length - 22;/'
wrong_sheet "a sheet of at most 65,535 bytes" 's/length = sheet.length;/length = (uint16_t)sheet.length;/'
wrong_sheet "messages in the name of the bench" 's/program_name\[\] = "sheet"/program_name[] = "pilgodur"/'

echo "wrong versions of the programs: $count, not found out: $survivors"
[ "$survivors" -eq 0 ]
