/* Frames: each as its line and back, a result that is put into a notification, whether a suspension is awake by it, in which field two commands
   differ, and in what a call isn't as recorded; and what a frame says without text. */
#include "palqytun.h"

#include <inttypes.h>
#include <stdio.h>
#include <string.h>

static const char *const lines[] = {
    "Input headers=[(\"a\" \"b\")] value=\"Till\"",
    "Sleep wake_up_time=1000 result_completion_id=1",
    "Output result=failure(code=409 message=\"cancelled\")",
    "Notification id=name(\"go\") result=value(\"\\x00\\xff\")",
    "Sleep soundly",
};

/* Bytes that the library wrote. */
typedef struct {
    uint8_t bytes[256];
    size_t len;
} written;

/* Says how a call ended. Exit status 1: no memory was found. */
static int failed(uint32_t status)
{
    fprintf(stderr, status == PALQYTUN_NO_MEMORY ? "no memory\n" : "status %" PRIu32 "\n", status);
    return status == PALQYTUN_NO_MEMORY ? 1 : 2;
}

/* The frame that a line shows. */
static uint32_t frame_of(const char *line, written *frame)
{
    palqytun_told told = palqytun_line_frame((const uint8_t *)line, strlen(line), frame->bytes, sizeof frame->bytes);
    frame->len = told.len;
    return told.status;
}

/* Prints the line of a frame. 0, or the exit status. */
static int show(const written *frame)
{
    uint8_t line[256];
    palqytun_told told = palqytun_frame_line(frame->bytes, frame->len, line, sizeof line);
    if (told.status != PALQYTUN_DONE)
        return failed(told.status);
    printf("%zu bytes: %.*s\n", frame->len, (int)told.len, (const char *)line);
    return 0;
}

/* Puts the result of an output into the notification of completion 3, and asks whether a suspension is awake by it. */
static int wake(void)
{
    written output, notification, suspension;
    uint32_t status = frame_of("Output result=value(\"Till\")", &output);
    if (status == PALQYTUN_DONE)
        status = frame_of("Suspension future=(kind=AllCompleted completions=[3])", &suspension);
    if (status != PALQYTUN_DONE)
        return failed(status);
    palqytun_told told = palqytun_notification(
        PALQYTUN_COMPLETION, 3, output.bytes, 0, output.bytes, output.len, notification.bytes, sizeof notification.bytes);
    if (told.status != PALQYTUN_DONE)
        return failed(told.status);
    notification.len = told.len;
    int bad = show(&notification);
    for (size_t len = 0; !bad && len <= notification.len; len += notification.len) {
        palqytun_judged judged = palqytun_is_awake(suspension.bytes, suspension.len, notification.bytes, len);
        if (judged.status != PALQYTUN_DONE)
            return failed(judged.status);
        printf("awake by %zu bytes: %d\n", len, judged.is_awake);
    }
    return bad;
}

/* Reads a failure that has arrived, by its numbers and its first part. */
static int read_parts(void)
{
    written frame;
    uint32_t status = frame_of("Notification id=signal(17) result=failure(code=409 message=\"cancelled\")", &frame);
    if (status != PALQYTUN_DONE)
        return failed(status);
    palqytun_frame_row row = palqytun_frame_read(frame.bytes, frame.len);
    if (row.status != PALQYTUN_DONE)
        return failed(row.status);
    uint8_t text[64];
    palqytun_told told = palqytun_frame_part(frame.bytes, frame.len, 8, text, sizeof text);
    if (told.status != PALQYTUN_DONE)
        return failed(told.status);
    printf("type %" PRIu32 " kind %" PRIu32 " id %" PRIu32 " result %" PRIu32 " code %" PRIu32 ": %.*s\n", row.type, row.kind, row.id, row.result,
        row.second, (int)told.len, (const char *)text);
    return 0;
}

/* Makes a result and an input that hold a value as it is. */
static int hold(const uint8_t *value, size_t len)
{
    written result, head, input;
    palqytun_told told = palqytun_value_frame(value, len, result.bytes, sizeof result.bytes);
    if (told.status != PALQYTUN_DONE)
        return failed(told.status);
    result.len = told.len;
    uint32_t status = frame_of("Input headers=[(\"a\" \"b\")]", &head);
    if (status != PALQYTUN_DONE)
        return failed(status);
    told = palqytun_input_frame(head.bytes, head.len, value, len, input.bytes, sizeof input.bytes);
    if (told.status != PALQYTUN_DONE)
        return failed(told.status);
    input.len = told.len;
    int bad = show(&result);
    return bad ? bad : show(&input);
}

/* Names the first field in which a call isn't as the recorded one, with payloads and without them. */
static int differ(void)
{
    static const char *const both[] = {
        "Call service_name=\"Greeter\" handler_name=\"greet\" parameter=\"Ada\" invocation_id_notification_idx=1 result_completion_id=2",
        "Call service_name=\"Greeter\" handler_name=\"greet\" parameter=\"Bob\" invocation_id_notification_idx=1 result_completion_id=2",
    };
    written recorded, asked;
    uint32_t status = frame_of(both[0], &recorded);
    if (status == PALQYTUN_DONE)
        status = frame_of(both[1], &asked);
    if (status != PALQYTUN_DONE)
        return failed(status);
    for (int ignores_payloads = 0; ignores_payloads < 2; ignores_payloads++) {
        uint8_t field[64];
        palqytun_told told =
            palqytun_difference(recorded.bytes, recorded.len, asked.bytes, asked.len, ignores_payloads, field, sizeof field);
        if (told.status == PALQYTUN_NO_MEMORY)
            return failed(told.status);
        printf("status %" PRIu32 ": %.*s\n", told.status, (int)told.len, (const char *)field);
    }
    return 0;
}

/* Says in what a call isn't as the journal has it, by what a VM was fed and what the call wrote where nothing is recorded. */
static int mismatch(void)
{
    static const char *const both[] = {
        "Call service_name=\"Greeter\" handler_name=\"greet\" parameter=\"Ada\" invocation_id_notification_idx=1 result_completion_id=2",
        "Call service_name=\"Greeter\" handler_name=\"greet\" parameter=\"Bob\" invocation_id_notification_idx=1 result_completion_id=2",
    };
    written fed, recorded, asked;
    uint32_t status = frame_of("Input", &fed);
    if (status == PALQYTUN_DONE)
        status = frame_of(both[0], &recorded);
    if (status == PALQYTUN_DONE)
        status = frame_of(both[1], &asked);
    if (status != PALQYTUN_DONE)
        return failed(status);
    memcpy(fed.bytes + fed.len, recorded.bytes, recorded.len);
    fed.len += recorded.len;
    palqytun_compared types = palqytun_mismatch(fed.bytes, fed.len, 1, PALQYTUN_MESSAGE_CALL_COMMAND);
    written parts[3];
    for (size_t at = 0; at < 3; at++) {
        palqytun_told told = palqytun_mismatch_part(fed.bytes, fed.len, 1, PALQYTUN_MESSAGE_CALL_COMMAND, asked.bytes, asked.len, false, at,
            parts[at].bytes, sizeof parts[at].bytes);
        if (told.status != PALQYTUN_DONE)
            return failed(told.status);
        parts[at].len = told.len;
    }
    printf("command %" PRIu32 ", and the call makes %" PRIu32 ":", types.recorded, types.asked);
    for (size_t at = 0; at < 3; at++)
        printf(" %.*s", (int)parts[at].len, (const char *)parts[at].bytes);
    printf("\n");
    return 0;
}

int main(void)
{
    for (size_t at = 0; at < sizeof lines / sizeof *lines; at++) {
        written frame;
        uint32_t status = frame_of(lines[at], &frame);
        if (status == PALQYTUN_NO_MEMORY)
            return failed(status);
        if (status != PALQYTUN_DONE) {
            printf("status %" PRIu32 ": %s\n", status, lines[at]);
            continue;
        }
        int bad = show(&frame);
        if (bad)
            return bad;
    }
    int bad = wake();
    if (!bad)
        bad = read_parts();
    if (!bad)
        bad = hold((const uint8_t *)"Till", 4);
    if (!bad)
        bad = differ();
    return bad ? bad : mismatch();
}
