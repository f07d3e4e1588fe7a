/* A stored journal: it is loaded, an attempt's run and its result are stored, and what may not arrive is refused. */
#include "palqytun.h"

#include <inttypes.h>
#include <stdio.h>

/* Input value="Till" */
static const uint8_t input[] = {
    0x00, 0x0a, 0x00, 0x00, 0x00, 0x00, 0x00, 0x00, 0x00, 0x14, 0x00, 0x00, 0x00, 0x00, 0x00, 0x00, 0x00, 0x00, 0x00, 0x00,
    0x00, 0x00, 0x00, 0x00, 0x00, 0x04, 0x54, 0x69, 0x6c, 0x6c,
};
/* Sleep wake_up_time=1000 result_completion_id=1 */
static const uint8_t sleep[] = {
    0x00, 0x12, 0x00, 0x00, 0x00, 0x00, 0x00, 0x00, 0x00, 0x14, 0x00, 0x00, 0x00, 0x00, 0x00, 0x00, 0x03, 0xe8, 0x00, 0x00,
    0x00, 0x01, 0x00, 0x00, 0x00, 0x00, 0x00, 0x00, 0x00, 0x00,
};
/* Notification id=completion(1) result=void */
static const uint8_t slept[] = {
    0x00, 0x1e, 0x00, 0x00, 0x00, 0x00, 0x00, 0x00, 0x00, 0x06, 0x00, 0x00, 0x00, 0x00, 0x01, 0x00,
};
/* What an attempt wrote: Run name="a" result_completion_id=2, ProposeRunCompletion id=2 value="x", and
   Sleep wake_up_time=2000 result_completion_id=3 */
static const uint8_t output[] = {
    0x00, 0x1a, 0x00, 0x00, 0x00, 0x00, 0x00, 0x00, 0x00, 0x0d, 0x00, 0x00, 0x00, 0x00, 0x00, 0x00, 0x00, 0x01, 0x61, 0x00,
    0x00, 0x00, 0x02, 0x00, 0x05, 0x00, 0x00, 0x00, 0x00, 0x00, 0x00, 0x00, 0x0e, 0x00, 0x00, 0x00, 0x02, 0x00, 0x00, 0x00,
    0x00, 0x00, 0x00, 0x00, 0x00, 0x01, 0x78, 0x00, 0x12, 0x00, 0x00, 0x00, 0x00, 0x00, 0x00, 0x00, 0x14, 0x00, 0x00, 0x00,
    0x00, 0x00, 0x00, 0x07, 0xd0, 0x00, 0x00, 0x00, 0x03, 0x00, 0x00, 0x00, 0x00, 0x00, 0x00, 0x00, 0x00,
};

/* Says how a call ended. Exit status 1: no memory was found. */
static int failed(uint32_t status)
{
    fprintf(stderr, status == PALQYTUN_NO_MEMORY ? "no memory\n" : "status %" PRIu32 "\n", status);
    return status == PALQYTUN_NO_MEMORY ? 1 : 2;
}

static void show_bytes(const uint8_t *bytes, size_t len)
{
    for (size_t at = 0; at < len; at++)
        printf("%02x", bytes[at]);
    puts("");
}

/* Loads the entries that are stored. 0, or the exit status. */
static int load(palqytun_journal *journal)
{
    palqytun_row row = palqytun_journal_entry(journal, input, sizeof input);
    if (row.status == PALQYTUN_DONE)
        row = palqytun_journal_entry(journal, sleep, sizeof sleep);
    if (row.status != PALQYTUN_DONE)
        return failed(row.status);
    uint32_t status = palqytun_journal_keep(journal);
    if (status != PALQYTUN_DONE)
        return failed(status);
    printf("loaded %zu\n", palqytun_journal_entries(journal).len);
    return 0;
}

/* Prints what a row asks for, which the transaction that writes the row would do. 0, or the exit status. */
static int show_effect(palqytun_journal *journal, size_t at)
{
    palqytun_effect asked = palqytun_journal_effect(journal, at);
    if (asked.status != PALQYTUN_DONE)
        return failed(asked.status);
    if (asked.kind == PALQYTUN_EFFECT_WAIT)
        printf("wait until %" PRIu64 " for %" PRIu32 "\n", asked.time, asked.completes);
    else if (asked.kind != PALQYTUN_EFFECT_NOTHING)
        return 2;
    return 0;
}

/* Stores what the attempt wrote, and prints the rows that a transaction would write, what they ask for, and what the attempt is fed after it. */
static int store(palqytun_journal *journal)
{
    palqytun_stored stored = palqytun_journal_store(journal, 7, output, sizeof output);
    if (stored.status != PALQYTUN_DONE)
        return failed(stored.status);
    uint8_t out[64];
    for (size_t at = 0; at < stored.rows; at++) {
        palqytun_row row = palqytun_journal_row(journal, at);
        palqytun_told told = palqytun_journal_frame(journal, at, out, sizeof out);
        if (row.status != PALQYTUN_DONE || told.status != PALQYTUN_DONE)
            return failed(row.status != PALQYTUN_DONE ? row.status : told.status);
        printf("row type %" PRIu32 " completes %d %" PRIu32 " ", row.type, row.is_completion, row.completes);
        show_bytes(out, told.len);
        int bad = show_effect(journal, at);
        if (bad)
            return bad;
    }
    palqytun_told told = palqytun_journal_answer(journal, out, sizeof out);
    if (told.status != PALQYTUN_DONE || told.len != stored.feed || palqytun_journal_row(journal, stored.rows).status != PALQYTUN_NO_ROW)
        return failed(told.status);
    printf("feed ");
    show_bytes(out, told.len);
    return 0;
}

/* Lets the sleep end. A first transaction isn't committed, a second one is, and a third would complete it once more. */
static int arrive(palqytun_journal *journal)
{
    for (int time = 1; time <= 3; time++) {
        palqytun_row row = palqytun_journal_arrive(journal, slept, sizeof slept);
        if (row.status == PALQYTUN_NO_MEMORY)
            return failed(row.status);
        uint32_t status = time == 1 ? palqytun_journal_undo(journal) : palqytun_journal_keep(journal);
        if (status != PALQYTUN_DONE)
            return failed(status);
        printf("arrival %d: status %" PRIu32 " completes %" PRIu32 ", entries %zu\n", time, row.status, row.completes,
            palqytun_journal_entries(journal).len);
    }
    return 0;
}

int main(void)
{
    palqytun_journal *journal;
    if (palqytun_journal_keep(NULL) != PALQYTUN_NO_JOURNAL)
        return 2;
    uint32_t status = palqytun_journal_open(&journal);
    if (status != PALQYTUN_DONE)
        return failed(status);
    int bad = load(journal);
    if (!bad)
        bad = store(journal);
    if (!bad && (status = palqytun_journal_keep(journal)) != PALQYTUN_DONE)
        bad = failed(status);
    if (!bad)
        bad = arrive(journal);
    if (palqytun_journal_close(journal) != PALQYTUN_DONE || palqytun_journal_close(journal) != PALQYTUN_NO_JOURNAL)
        return 2;
    return bad;
}
