/* Two TI modules on one wire: the data transfer that source document 002 shows
 * in its figure of five bits a character, and then a character that nobody
 * reads in time. */
#include "thurafeqa.h"

#include <stdio.h>

struct wire {
    thurafeqa_ti master, slave;
};

static uint32_t level(const thurafeqa_ti *m)
{
    return thurafeqa_ti_levels(m) & THURAFEQA_TI_SDO;
}

static uint32_t clock_of(const thurafeqa_ti *m)
{
    return thurafeqa_ti_levels(m) & THURAFEQA_TI_SCK;
}

static void start(thurafeqa_ti *m, uint32_t master)
{
    thurafeqa_ti_power_up(m);
    thurafeqa_ti_set_length(m, 5);
    thurafeqa_ti_set_mode(m, master, 1, 0, 1);
    thurafeqa_ti_leave_reset(m);
}

/* The master clocks until it has nothing left to send. Each end sees the level
 * that the other one drives. */
static unsigned run(struct wire *w)
{
    unsigned edges = 0;
    uint32_t sdi;

    thurafeqa_ti_pins(&w->slave, clock_of(&w->master), level(&w->master), 0);
    for (;;) {
        sdi = level(&w->slave);
        if (thurafeqa_ti_tick(&w->master, sdi) != 1)
            return edges;
        edges++;
        thurafeqa_ti_pins(&w->slave, clock_of(&w->master), level(&w->master),
                          0);
    }
}

static void tell(const char *who, thurafeqa_ti *m)
{
    uint32_t status = thurafeqa_ti_status(m);
    uint32_t answer = thurafeqa_ti_read(m);

    if (thurafeqa_refusal(answer) == 0)
        printf("%s reads %02X", who, thurafeqa_value(answer));
    else
        printf("%s is refused with %d", who, thurafeqa_refusal(answer));
    puts(status & THURAFEQA_TI_OVERRUN ? ", overrun" : "");
}

int main(void)
{
    struct wire w;
    double rate;

    start(&w.master, 1);
    start(&w.slave, 0);

    thurafeqa_ti_write(&w.slave, 0xD000);
    thurafeqa_ti_write(&w.master, 0x5800);
    printf("%u edges\n", run(&w));
    tell("slave", &w.slave);
    tell("master", &w.master);

    thurafeqa_ti_write(&w.slave, 0x4C00);
    thurafeqa_ti_write(&w.master, 0x6C00);
    printf("%u edges\n", run(&w));
    tell("slave", &w.slave);
    tell("master", &w.master);

    /* two characters without a read between them */
    thurafeqa_ti_write(&w.master, 0x0800);
    thurafeqa_ti_write(&w.master, 0x1000);
    printf("%u edges\n", run(&w));
    tell("slave", &w.slave);
    tell("slave", &w.slave);
    thurafeqa_ti_clear_overrun(&w.slave);
    tell("slave", &w.slave);

    thurafeqa_ti_rate(6, 40000000, &rate);
    printf("%.1f bits a second\n", rate);
    return 0;
}
