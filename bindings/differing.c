/* In what a call that was refused isn't as the journal has it. The proved calls read and compare the commands; here the two are found, and what the
   line of a frame has of a field. */
#include "handles.h"

#include <inttypes.h>
#include <stdio.h>
#include <stdlib.h>
#include <string.h>

enum { HEAD = 10, SHOWN = 120, TEXT = SHOWN + 8 };

static const char *const IDS[] = {"invocation_id_notification_idx", "result_completion_id"};

static bool is_command(uint64_t type)
{
    return type < MESSAGE_TYPES && MESSAGE_COMMANDS[type].is_command;
}

/* ---- The commands of a stream */

static uint64_t number_of(const uint8_t *at, size_t len)
{
    uint64_t number = 0;
    for (size_t i = 0; i < len; i++)
        number = number << 8 | at[i];
    return number;
}

static uint32_t type_of(palqytun_bytes frame)
{
    return (uint32_t)number_of(frame.at, 2);
}

static uint32_t command_of(palqytun_bytes frame)
{
    return MESSAGE_COMMANDS[type_of(frame)].command;
}

/* Takes the next command off the front of a stream of frames, which may end within one. */
static bool next_command(palqytun_bytes *stream, palqytun_bytes *command)
{
    while (stream->len >= HEAD) {
        uint64_t len = number_of(stream->at + 2, 8);
        if (len > stream->len - HEAD)
            return false;
        *command = (palqytun_bytes){stream->at, HEAD + (size_t)len};
        stream->at += command->len;
        stream->len -= command->len;
        if (is_command(type_of(*command)))
            return true;
    }
    return false;
}

/* The completion ids of a command, in the order of IDS; 0 is none. */
static uint32_t ids_of(palqytun_bytes command, uint32_t ids[2])
{
    palqytun_frame_row row = palqytun_frame_read(command.at, command.len);
    bool has_ids = row.status == PALQYTUN_DONE && row.type != PALQYTUN_MESSAGE_SEND_SIGNAL_COMMAND;
    ids[0] = has_ids ? row.second : 0;
    ids[1] = has_ids ? row.id : 0;
    return row.status;
}

/* Raises the last id to those of a command. */
static uint32_t raise_last(uint32_t *last, palqytun_bytes command)
{
    uint32_t ids[2];
    uint32_t status = ids_of(command, ids);
    for (int i = 0; i < 2; i++)
        *last = ids[i] > *last ? ids[i] : *last;
    return status;
}

/* ---- The two commands */

typedef struct {
    /* Without a command at is NULL. */
    palqytun_bytes recorded, asked;
    /* By how much ids are greater in the journal than where the call was made again. */
    uint32_t later;
} both;

static palqytun_bytes recorded_at(palqytun_bytes fed, uint32_t index)
{
    palqytun_bytes command = {NULL, 0};
    for (uint64_t at = 0; at <= index; at++)
        if (!next_command(&fed, &command))
            return (palqytun_bytes){NULL, 0};
    return command;
}

/* Finds the recorded command of this index, and among those that the call made the first one of the same type. */
static uint32_t find(palqytun_bytes fed, uint32_t index, palqytun_bytes asked, both *it)
{
    uint32_t status = PALQYTUN_DONE, before = 0, asked_before = 0;
    palqytun_bytes command;
    it->recorded = recorded_at(fed, index);
    for (uint32_t at = 0; status == PALQYTUN_DONE && at < index && next_command(&fed, &command); at++)
        status = raise_last(&before, command);
    while (status == PALQYTUN_DONE && it->asked.at == NULL && next_command(&asked, &command)) {
        if (command_of(command) == command_of(it->recorded))
            it->asked = command;
        else
            status = raise_last(&asked_before, command);
    }
    it->later = before - asked_before;
    return status;
}

/* ---- What is shown */

typedef struct {
    uint8_t at[TEXT];
    size_t len;
} text;

/* Keeps the first characters of a value. Without bytes it stays empty. */
static void keep(text *to, palqytun_bytes value)
{
    size_t len = value.len > SHOWN ? SHOWN : value.len;
    if (len == 0)
        return;
    memcpy(to->at, value.at, len);
    to->len = len;
    if (value.len > SHOWN) {
        memcpy(to->at + len, "..", 2);
        to->len += 2;
    }
}

static void keep_name(text *to, const char *name)
{
    keep(to, (palqytun_bytes){(const uint8_t *)name, strlen(name)});
}

static void keep_number(text *to, uint32_t number)
{
    char digits[16];
    snprintf(digits, sizeof digits, "%" PRIu32, number);
    keep_name(to, digits);
}

/* The value of a field on a line: what stands after its name and `=`, up to the next blank that is in no quotes, brackets or parentheses. */
static palqytun_bytes value_on(palqytun_bytes line, const text *field)
{
    size_t begin = 0, depth = 0;
    bool is_quoted = false;
    for (size_t at = 0; at <= line.len; at++) {
        uint8_t it = at < line.len ? line.at[at] : ' ';
        is_quoted ^= it == '"';
        if (!is_quoted && (it == '(' || it == '['))
            depth++;
        else if (!is_quoted && (it == ')' || it == ']') && depth > 0)
            depth--;
        if (it != ' ' || is_quoted || depth > 0)
            continue;
        const uint8_t *word = line.at + begin;
        size_t len = at - begin, head = field->len + 1;
        if (len >= head && memcmp(word, field->at, field->len) == 0 && word[field->len] == '=')
            return (palqytun_bytes){word + head, len - head};
        begin = at + 1;
    }
    return (palqytun_bytes){NULL, 0};
}

/* Shows the value that a field has on the line of a frame. */
static uint32_t show(palqytun_bytes frame, const text *field, text *value)
{
    palqytun_told told = palqytun_frame_line(frame.at, frame.len, NULL, 0);
    if (told.status != PALQYTUN_NO_ROOM)
        return told.status;
    uint8_t *line = malloc(told.len);
    if (line == NULL)
        return PALQYTUN_NO_MEMORY;
    told = palqytun_frame_line(frame.at, frame.len, line, told.len);
    if (told.status == PALQYTUN_DONE)
        keep(value, value_on((palqytun_bytes){line, told.len}, field));
    free(line);
    return told.status;
}

/* ---- In what they differ: the field, its recorded value, and that of the call */

static void differ_in_type(bool is_recorded, uint32_t recorded, bool is_asked, uint32_t asked, text parts[3])
{
    keep_name(&parts[0], "type");
    if (is_recorded)
        keep_name(&parts[1], COMMAND_NAMES[recorded]);
    if (is_asked)
        keep_name(&parts[2], COMMAND_NAMES[asked]);
}

/* The same of their ids, of which each of the call is greater by `later` in the journal. */
static uint32_t differ_in_ids(const both *it, text parts[3])
{
    uint32_t recorded[2], asked[2];
    uint32_t status = ids_of(it->recorded, recorded);
    if (status == PALQYTUN_DONE)
        status = ids_of(it->asked, asked);
    for (int i = 0; status == PALQYTUN_DONE && i < 2; i++)
        if (asked[i] != 0 && recorded[i] != asked[i] + it->later) {
            keep_name(&parts[0], IDS[i]);
            keep_number(&parts[1], recorded[i]);
            keep_number(&parts[2], asked[i] + it->later);
            break;
        }
    return status;
}

static bool is(const text *field, const char *name)
{
    return field->len == strlen(name) && memcmp(field->at, name, field->len) == 0;
}

static uint32_t differ_in_field(const both *it, bool ignore_payloads, text parts[3])
{
    text *field = &parts[0];
    uint32_t command = command_of(it->recorded);
    bool is_read = command == PALQYTUN_COMMAND_GET_STATE || command == PALQYTUN_COMMAND_GET_STATE_KEYS;
    palqytun_told told = palqytun_difference(
        it->recorded.at, it->recorded.len, it->asked.at, it->asked.len, ignore_payloads || is_read, field->at, sizeof field->at);
    field->len = told.status == PALQYTUN_DONE ? told.len : 0;
    if (told.status == PALQYTUN_NO_PART || is(field, IDS[0]) || is(field, IDS[1])) {
        field->len = 0;
        return differ_in_ids(it, parts);
    }
    if (told.status != PALQYTUN_DONE)
        return told.status;
    if (is(field, "type")) {
        field->len = 0; /* it was made again over another state than in the journal */
        return PALQYTUN_DONE;
    }
    uint32_t status = show(it->recorded, field, &parts[1]);
    return status == PALQYTUN_DONE ? show(it->asked, field, &parts[2]) : status;
}

/* ---- The calls */

palqytun_compared palqytun_mismatch(const uint8_t *fed, size_t fed_len, uint32_t index, uint32_t type)
{
    palqytun_compared it = {.status = PALQYTUN_DONE};
    fed = lend_items(&it.status, fed, fed_len, 1);
    if (it.status == PALQYTUN_DONE && type != 0 && !is_command(type))
        it.status = PALQYTUN_BAD_NUMBER;
    if (it.status != PALQYTUN_DONE)
        return it;
    palqytun_bytes recorded = recorded_at((palqytun_bytes){fed, fed_len}, index);
    if (recorded.at != NULL) {
        it.is_recorded = true;
        it.recorded = command_of(recorded);
        it.is_lazy = type_of(recorded) == PALQYTUN_MESSAGE_GET_LAZY_STATE_COMMAND || type_of(recorded) == PALQYTUN_MESSAGE_GET_LAZY_STATE_KEYS_COMMAND;
    }
    if (type != 0) {
        it.is_asked = true;
        it.asked = MESSAGE_COMMANDS[type].command;
    }
    if (!it.is_recorded && !it.is_asked)
        it.status = PALQYTUN_NO_PART;
    return it;
}

palqytun_told palqytun_mismatch_part(const uint8_t *fed, size_t fed_len, uint32_t index, uint32_t type, const uint8_t *asked, size_t asked_len,
    bool ignore_payloads, size_t at, uint8_t *out, size_t out_len)
{
    text parts[3] = {{.len = 0}, {.len = 0}, {.len = 0}};
    palqytun_compared types = palqytun_mismatch(fed, fed_len, index, type);
    palqytun_told told = {.status = types.status};
    asked = lend_items(&told.status, asked, asked_len, 1);
    out = lend_room(&told.status, out, out_len);
    if (told.status != PALQYTUN_DONE)
        return told;
    if (types.is_recorded != types.is_asked || types.recorded != types.asked)
        differ_in_type(types.is_recorded, types.recorded, types.is_asked, types.asked, parts);
    else {
        both it = {.later = 0};
        told.status = find((palqytun_bytes){fed, fed_len}, index, (palqytun_bytes){asked, asked_len}, &it);
        if (told.status == PALQYTUN_DONE && it.asked.at != NULL)
            told.status = differ_in_field(&it, ignore_payloads, parts);
        if (told.status != PALQYTUN_DONE)
            return told;
    }
    if (at > 2 || parts[at].len == 0)
        return (palqytun_told){.status = PALQYTUN_NO_PART};
    told.len = parts[at].len;
    if (told.len > out_len)
        told.status = PALQYTUN_NO_ROOM;
    else
        memcpy(out, parts[at].at, told.len);
    return told;
}
