/* A program that was built against the installed library: the answer to each
 * exchange of a small capture, and the data of the replies. */
#include <moortinker.h>

#include <stdio.h>

static const uint8_t capture[] = {
    0xAA, 0xAA, /* idle time */
    0x10, 0x08, 0xB5, 0x11, 0x01, 0x01, 0x89, 0x00, 0x01, 0x2A, 0xB1, 0x00, 0xAA,
    0x10, 0x08, 0xB5, 0x11, 0x01, 0x01, 0x89, 0x55, 0x01, 0x2A, 0xB1, 0x00, 0xAA,
    0x31, 0xAA, /* 31 gave way */
    0x10, 0xFE, 0xB5, 0x11, 0x01, 0x01, 0x10, 0xAA,
};

static void judge(moor_stretch e)
{
    uint8_t command[MOOR_COMMAND_ROOM];
    uint8_t replies[2][MOOR_REPLY_ROOM];
    moor_judged judged = moor_judge(capture + e.start, e.end - e.start,
                                    command, sizeof command,
                                    replies[0], sizeof replies[0],
                                    replies[1], sizeof replies[1]);
    printf("%zu: %s", e.start, moor_text(judged.number));
    if (judged.number != MOOR_ACCEPTED) {
        printf(" at %zu\n", judged.place);
        return;
    }
    moor_part data = moor_reply_data(replies[0], sizeof replies[0],
                                     replies[1], sizeof replies[1],
                                     judged.reply_attempts);
    for (size_t i = 0; i < data.length; i++)
        printf(" %02X", replies[data.attempt - 1][data.start + i]);
    printf("\n");
}

int main(void)
{
    moor_stretch e = moor_next_exchange(capture, sizeof capture, 0);
    while (e.start < e.end) {
        judge(e);
        e = moor_next_exchange(capture, sizeof capture, e.end);
    }
    return 0;
}
