/*
 * libmodbus_check.c - the Modbus check as libmodbus puts it on a serial line
 * and as it judges it there. libmodbus keeps its check routine to itself, so
 * this program gives it one end of a pseudo terminal and holds the other.
 *
 *   libmodbus_check send     a line is a frame without check, 2 to 254 bytes;
 *                            the answer is the check that libmodbus sent
 *   libmodbus_check receive  a line is a request frame with check; the answer
 *                            is 1 where libmodbus takes it, else 0
 *
 * Lines are in hex, one answer for each line of standard input.
 */
#include <errno.h>
#include <pty.h>
#include <stdbool.h>
#include <stdio.h>
#include <stdlib.h>
#include <string.h>
#include <termios.h>
#include <unistd.h>

#include <modbus/modbus.h>

#define MOST_BYTES 256

static void stop(const char *what)
{
    fprintf(stderr, "libmodbus_check: %s: %s\n", what, modbus_strerror(errno));
    exit(1);
}

/* Opens a pseudo terminal; libmodbus gets its far end, `near` is ours. */
static modbus_t *open_line(int *near)
{
    char name[256];
    struct termios raw;
    int far;
    modbus_t *bus;

    if (openpty(near, &far, name, NULL, NULL) != 0)
        stop("openpty");
    if (tcgetattr(far, &raw) != 0)
        stop("tcgetattr");
    cfmakeraw(&raw);
    if (tcsetattr(far, TCSANOW, &raw) != 0)
        stop("tcsetattr");
    bus = modbus_new_rtu(name, 115200, 'N', 8, 1);
    if (bus == NULL || modbus_connect(bus) != 0)
        stop("modbus_connect");
    close(far);
    return bus;
}

/* The bytes that a line of hex says; -1 where it says none or too many. */
static int read_hex(const char *line, uint8_t *bytes)
{
    int count = 0;
    unsigned value;

    for (; sscanf(line, "%2x", &value) == 1; line += 2) {
        if (count == MOST_BYTES)
            return -1;
        bytes[count++] = (uint8_t)value;
    }
    return count == 0 ? -1 : count;
}

static void read_all(int near, uint8_t *bytes, int count)
{
    for (int done = 0; done < count;) {
        ssize_t got = read(near, bytes + done, count - done);

        if (got <= 0)
            stop("read");
        done += (int)got;
    }
}

/* Lets libmodbus send the frame and gives the check found behind it. */
static unsigned sent_check(modbus_t *bus, int near, uint8_t *frame, int count)
{
    uint8_t wire[MOST_BYTES + 2];

    if (modbus_send_raw_request(bus, frame, count) != count + 2)
        stop("modbus_send_raw_request");
    read_all(near, wire, count + 2);
    if (memcmp(wire, frame, count) != 0)
        stop("libmodbus sent other bytes than it was given");
    return wire[count] | (unsigned)wire[count + 1] << 8;
}

/* Whether libmodbus takes the frame as a request to the device it names. */
static unsigned taken(modbus_t *bus, int near, const uint8_t *frame, int count)
{
    uint8_t request[MODBUS_RTU_MAX_ADU_LENGTH];
    int got;

    if (modbus_set_slave(bus, frame[0]) != 0)
        stop("modbus_set_slave");
    if (write(near, frame, count) != count)
        stop("write");
    got = modbus_receive(bus, request);
    if (got == count)
        return 1;
    if (got == -1 && errno == EMBBADCRC)
        return 0;
    stop("modbus_receive");
    return 0;
}

int main(int argc, char **argv)
{
    char line[2 * MOST_BYTES + 2];
    uint8_t frame[MOST_BYTES];
    int near;
    bool send = argc == 2 && strcmp(argv[1], "send") == 0;
    modbus_t *bus = open_line(&near);

    while (fgets(line, sizeof line, stdin) != NULL) {
        int count = read_hex(line, frame);

        if (count < 0)
            stop("a line could not be read");
        printf("%X\n", send ? sent_check(bus, near, frame, count)
                            : taken(bus, near, frame, count));
    }
    modbus_close(bus);
    modbus_free(bus);
    return 0;
}
