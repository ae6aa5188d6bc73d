/* A serprog server: flashrom speaks to the flash chip of port.h as it would to
 * a programmer on a desk. The protocol is published with flashrom, as
 * serprog-protocol.txt.
 *
 * usage: serprog [-m MODE] [-e DEPTH] [-w] [-i FILE] [-l] [-p FILE]
 *
 * -m MODE   the SPI mode, 0 if none is named; the chip speaks 0 and 3
 * -e DEPTH  enhanced operation with buffers of 4, 8 or 16 words, else standard
 * -w        a word is one call, not one call an edge
 * -i FILE   what the chip holds at first, else every byte is FF
 * -l        each operation is printed: the bytes sent, '>', the bytes received
 * -p FILE   the levels of the pins are written there as a VCD
 *
 * It listens at this machine's own address 127.0.0.1 alone, at a port that the
 * system chooses, and prints what flashrom wants to hear as -p. It serves one
 * client after the other; the chip keeps its bytes between them. */
#define _POSIX_C_SOURCE 200809L

#include "port.h"

#include <arpa/inet.h>
#include <netinet/in.h>
#include <netinet/tcp.h>
#include <signal.h>
#include <stdlib.h>
#include <string.h>
#include <sys/socket.h>
#include <unistd.h>

enum { ACK = 0x06, NAK = 0x15 };

enum {
    NOP = 0x00,
    ASK_VERSION = 0x01,
    ASK_COMMANDS = 0x02,
    ASK_NAME = 0x03,
    ASK_SERIAL_BUFFER = 0x04,
    ASK_BUSES = 0x05,
    ASK_MOST_SENT = 0x08,
    SYNCHRONIZE = 0x10,
    ASK_MOST_RECEIVED = 0x11,
    SET_BUS = 0x12,
    OPERATION = 0x13,
    SET_RATE = 0x14
};

static const uint8_t known[] = {
    NOP,           ASK_VERSION,       ASK_COMMANDS,
    ASK_NAME,      ASK_SERIAL_BUFFER, ASK_BUSES,
    ASK_MOST_SENT, SYNCHRONIZE,       ASK_MOST_RECEIVED,
    SET_BUS,       OPERATION,         SET_RATE};

enum { BUS_SPI = 8 };
enum { MOST = 0x8000 }; /* bytes sent, and bytes received, in an operation */

static struct port port;
static bool printed; /* are operations printed? */
static FILE *from, *to;

/* ---- bytes of the connection -------------------------------------------- */

/* A number of so many bytes, the lowest first. */
static void put(uint32_t number, int bytes)
{
    for (; bytes > 0; bytes--, number >>= 8)
        putc((int)(number & 0xFF), to);
}

static uint32_t get(int bytes)
{
    uint32_t number = 0;

    for (int i = 0; i < bytes; i++)
        number |= (uint32_t)(getc(from) & 0xFF) << 8 * i;
    return number;
}

/* ---- commands ----------------------------------------------------------- */

static void put_commands(void)
{
    uint8_t map[32] = {0};

    for (size_t i = 0; i < sizeof known; i++)
        map[known[i] / 8] |= (uint8_t)(1u << known[i] % 8);
    put(ACK, 1);
    fwrite(map, 1, sizeof map, to);
}

static void put_name(void)
{
    char name[16] = "Thurafeqa";

    put(ACK, 1);
    fwrite(name, 1, sizeof name, to);
}

static void print_bytes(const uint8_t *bytes, size_t count)
{
    for (size_t i = 0; i < count; i++)
        printf("%02X ", bytes[i]);
}

/* Bytes go out, then zeros while as many bytes come in as are wanted. */
static void operation(void)
{
    static uint8_t out[2 * MOST], in[2 * MOST];
    uint32_t sent = get(3), wanted = get(3);

    if (sent > MOST || wanted > MOST) {
        while (sent-- > 0 && getc(from) != EOF)
            ;
        put(NAK, 1);
        return;
    }
    if (fread(out, 1, sent, from) != sent)
        return;
    memset(out + sent, 0, wanted);
    port_operation(&port, out, in, sent + wanted);
    if (printed) {
        print_bytes(out, sent);
        printf("> ");
        print_bytes(in + sent, wanted);
        printf("\n");
    }
    put(ACK, 1);
    fwrite(in + sent, 1, wanted, to);
}

static void set_rate(void)
{
    uint32_t hertz = get(4);

    if (hertz == 0) {
        put(NAK, 1);
        return;
    }
    put(ACK, 1);
    put(port_rate(&port, hertz), 4);
}

static void command(int number)
{
    switch (number) {
    case NOP:
        put(ACK, 1);
        break;
    case ASK_VERSION:
        put(ACK, 1);
        put(1, 2);
        break;
    case ASK_COMMANDS:
        put_commands();
        break;
    case ASK_NAME:
        put_name();
        break;
    case ASK_SERIAL_BUFFER: /* the connection has flow control */
        put(ACK, 1);
        put(0xFFFF, 2);
        break;
    case ASK_BUSES:
        put(ACK, 1);
        put(BUS_SPI, 1);
        break;
    case ASK_MOST_SENT:
    case ASK_MOST_RECEIVED:
        put(ACK, 1);
        put(MOST, 3);
        break;
    case SYNCHRONIZE:
        put(NAK, 1);
        put(ACK, 1);
        break;
    case SET_BUS:
        put(get(1) & BUS_SPI ? ACK : NAK, 1);
        break;
    case OPERATION:
        operation();
        break;
    case SET_RATE:
        set_rate();
        break;
    default:
        put(NAK, 1);
    }
}

/* ---- clients ------------------------------------------------------------ */

static void fail(const char *what)
{
    perror(what);
    exit(2);
}

/* One client, until it closes the connection. */
static void serve(int connection)
{
    int one = 1, number;

    port.operations = port.words = port.edges = port.most = 0;
    setsockopt(connection, IPPROTO_TCP, TCP_NODELAY, &one, sizeof one);
    from = fdopen(connection, "rb");
    to = fdopen(dup(connection), "wb");
    if (!from || !to)
        fail("serprog: connection");
    while ((number = getc(from)) != EOF) {
        command(number);
        if (fflush(to) != 0)
            break;
    }
    fclose(from);
    fclose(to);
    port_rest(&port);
    printf("client: %lu operations, %lu words, %lu edges, %u words at once\n",
           port.operations, port.words, port.edges, port.most);
    fflush(stdout);
}

/* A socket of this machine's own address at some port, which is printed. */
static int listener(void)
{
    struct sockaddr_in address = {.sin_family = AF_INET};
    socklen_t length = sizeof address;
    int s = socket(AF_INET, SOCK_STREAM, 0);

    address.sin_addr.s_addr = htonl(INADDR_LOOPBACK);
    if (s < 0 || bind(s, (struct sockaddr *)&address, sizeof address) != 0 ||
        listen(s, 1) != 0 ||
        getsockname(s, (struct sockaddr *)&address, &length) != 0)
        fail("serprog: socket");
    printf("serprog:ip=127.0.0.1:%u\n", (unsigned)ntohs(address.sin_port));
    fflush(stdout);
    return s;
}

static FILE *opened(const char *name, const char *how)
{
    FILE *f = fopen(name, how);

    if (!f)
        fail(name);
    return f;
}

/* A number of one or two digits; 99 for anything else. */
static unsigned number_in(const char *text)
{
    size_t length = strlen(text);

    if (length < 1 || length > 2 || strspn(text, "0123456789") != length)
        return 99;
    return (unsigned)atoi(text);
}

int main(int argc, char **argv)
{
    unsigned mode = 0, depth = 0;
    bool whole = false;
    FILE *pins = NULL, *image = NULL;
    int option, s;

    while ((option = getopt(argc, argv, "m:e:wi:lp:")) != -1) {
        if (option == 'm')
            mode = number_in(optarg);
        else if (option == 'e')
            depth = number_in(optarg);
        else if (option == 'w')
            whole = true;
        else if (option == 'i')
            image = opened(optarg, "rb");
        else if (option == 'l')
            printed = true;
        else if (option == 'p')
            pins = opened(optarg, "w");
        else
            mode = 99;
    }
    if (mode > 3 || optind != argc) {
        fprintf(stderr, "usage: serprog [-m MODE] [-e DEPTH] [-w] [-i FILE] "
                        "[-l] [-p FILE]\n");
        return 2;
    }
    signal(SIGPIPE, SIG_IGN);
    port_power_up(&port, mode, depth, whole, pins);
    if (image && fread(port.chip.bytes, 1, FLASH_SIZE, image) < FLASH_SIZE &&
        ferror(image))
        fail("serprog: image");
    s = listener();
    for (;;) {
        int connection = accept(s, NULL, NULL);

        if (connection < 0)
            fail("serprog: accept");
        serve(connection);
    }
}
