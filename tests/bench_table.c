/* The bench table of document 01, P1 to P12, and the case that is run only. Each closed group is compared whole, handed
   to a reader, and its rows and the state it leaves are compared; handed in a second time it is a repeat. L = 64, from fresh,
   number 1, in buffers of zeros. */

#include "groups.h"

typedef struct { const char *name; desk w, r; uint32_t size; } run;

static run fresh(const char *name, uint32_t size)
{
    run b;
    b.name = name;
    b.size = size;
    b.w = writer(size, 0, 9, 9, 9, 9, 9, 9);
    b.r = reader(size, 0, 9, 9);
    writer_starts(&b.w, size, 1);
    finished(&b.w, name);
    reader_starts(&b.r, size, 1);
    finished(&b.r, name);
    memset(b.w.of[GROUP].at, 0, size);
    return b;
}

static void done(run *b, uint32_t next)
{
    writer_is(&b->w, b->name, b->size, next, 0, 0, 0, 0, 0, 0);
    if (next == 1) reader_is_fresh(&b->r, b->name, b->size, 1); else reader_is(&b->r, b->name, b->size, next, 0, 0);
    leave(&b->w);
    leave(&b->r);
}

/* the group just closed: its number, its bytes, and the phase, sum and rows a reader makes of it */
static void takes(run *b, uint32_t number, uint32_t taken, const char *group, uint32_t phase, uint32_t sum, uint32_t n,
                  const uint32_t *rows)
{
    uint32_t entries = n / 3, i;
    closed(&b->w, b->name, number, entries, taken);
    slice_is(&b->w, GROUP, b->name, group);
    memcpy(b->r.of[GROUP].at, b->w.of[GROUP].at, b->size);
    memset(b->w.of[GROUP].at, 0, b->size);
    relend(&b->r.of[ROWS], 4 * (size_t)n);
    reads(&b->r, number, entries);
    finished(&b->r, b->name);
    reader_is(&b->r, b->name, b->size, number + 1, phase, sum);
    for (i = 0; i < n; i++) check(get(b->r.of[ROWS].at + 4 * i) == rows[i], b->name, "row");
    reads(&b->r, number, entries);
    repeated(&b->r, b->name);
}

static void ends_run(run *b, int closes)
{
    ends(&b->w, 0);
    if (!closes) refused(&b->w, b->name, 0, 0);
}

static void offers(run *b, size_t n)
{
    offer(&b->w, n);
    records(&b->w, 0);
}

/* what is left after a close that took `taken` */
static void offers_again(run *b, size_t taken)
{
    slice was = b->w.of[DATA];
    b->w.of[DATA] = lend(was.len - taken);
    memcpy(b->w.of[DATA].at, was.at + taken, was.len - taken);
    give_back(&was);
    records(&b->w, 0);
}

static void p1(void)
{
    run b = fresh("P1", 64);
    set(&b.w.of[DATA], "41*20");
    records(&b.w, 0);
    finished(&b.w, "P1");
    separates(&b.w, 0, 0);
    finished(&b.w, "P1");
    ends_run(&b, 1);
    takes(&b, 1, 0, "41*20 80 00 00 2C 07 00 00 00 63 00 00 14 00*32", 0, 0, LIST(6, 0, 20, 2, 20, 0, 7, 20, 44));
    done(&b, 2);
}

static void p2(void)
{
    run b = fresh("P2", 64);
    offers(&b, 24);
    finished(&b.w, "P2");
    ends_run(&b, 1);
    takes(&b, 1, 0, "01-18 80 00 00 28 63 00 00 18 00*32", 0, 0, LIST(6, 0, 24, 7, 24, 40));
    done(&b, 2);
}

static void p3(void)
{
    run b = fresh("P3", 64);
    offers(&b, 25);
    takes(&b, 1, 24, "01-18 80 00 00 28 42 00 00 18 00*32", 1, 24, LIST(4, 0, 24, 7, 24, 40));
    offers_again(&b, 24);
    finished(&b.w, "P3");
    ends_run(&b, 1);
    takes(&b, 2, 0, "19 00*19 80 00 00 3F 01 00 00 19 60 00 00 01 00*32", 0, 0, LIST(5, 0, 1, 1, 1, 25, 7, 1, 63));
    done(&b, 3);
}

static void p4(void)
{
    run b = fresh("P4", 64);
    offers(&b, 44);
    takes(&b, 1, 24, "01-18 80 00 00 28 42 00 00 18 00*32", 1, 24, LIST(4, 0, 24, 7, 24, 40));
    offers_again(&b, 24);
    finished(&b.w, "P4");
    ends_run(&b, 1);
    takes(&b, 2, 0, "19-2C 80 00 00 2C 01 00 00 2C 60 00 00 14 00*32", 0, 0, LIST(5, 0, 20, 1, 20, 44, 7, 20, 44));
    done(&b, 3);
}

static void p5(void)
{
    run b = fresh("P5", 64);
    offers(&b, 45);
    takes(&b, 1, 24, "01-18 80 00 00 28 42 00 00 18 00*32", 1, 24, LIST(4, 0, 24, 7, 24, 40));
    offers_again(&b, 24);
    takes(&b, 2, 21, "19-2D 00*3 80 00 00 2B 60 00 00 15 00*32", 2, 45, LIST(5, 0, 21, 7, 21, 43));
    ends_run(&b, 1);
    takes(&b, 3, 0, "00*24 80 00 00 40 01 00 00 2D 00*32", 0, 0, LIST(1, 0, 45, 7, 0, 64));
    done(&b, 4);
}

static void p6(void)
{
    run b = fresh("P6", 64);
    offers(&b, 49);
    takes(&b, 1, 24, "01-18 80 00 00 28 42 00 00 18 00*32", 1, 24, LIST(4, 0, 24, 7, 24, 40));
    offers_again(&b, 24);
    takes(&b, 2, 24, "19-30 80 00 00 28 40 00 00 18 00*32", 1, 48, LIST(3, 0, 24, 7, 24, 40));
    offers_again(&b, 24);
    finished(&b.w, "P6");
    ends_run(&b, 1);
    takes(&b, 3, 0, "31 00*19 80 00 00 3F 01 00 00 31 60 00 00 01 00*32", 0, 0, LIST(5, 0, 1, 1, 1, 49, 7, 1, 63));
    done(&b, 4);
}

static void p7(void)
{
    run b = fresh("P7", 64);
    offers(&b, 21);
    finished(&b.w, "P7");
    memset(b.w.of[GROUP].at + 21, LENT, 3); /* the gap's zeros are the close's own */
    separates(&b.w, 0, 0);
    takes(&b, 1, 0, "01-15 00*3 80 00 00 2B 63 00 00 15 00*32", 0, 0, LIST(6, 0, 21, 7, 21, 43));
    ends_run(&b, 0);
    done(&b, 2);
}

static void p8(void)
{
    run b = fresh("P8", 64);
    int i;
    for (i = 0; i < 7; i++) {
        separates(&b.w, i % 2, 0);
        finished(&b.w, "P8");
    }
    separates(&b.w, 1, 0);
    takes(&b, 1, 0, "80 00 00 40 07 00 00 00 07 00 00 01 07 00 00 00 07 00 00 01 07 00 00 00 07 00 00 01 07 00 00 00 00*32",
          0, 0, LIST(2, 0, 0, 2, 0, 1, 2, 0, 0, 2, 0, 1, 2, 0, 0, 2, 0, 1, 2, 0, 0, 7, 0, 64));
    ends_run(&b, 0);
    done(&b, 2);
}

static void p9(void)
{
    run b = fresh("P9", 64);
    ends_run(&b, 0);
    slice_is(&b.w, GROUP, "P9", "00*64");
    done(&b, 1);
}

static void p10_to_p12(void)
{
    desk s = reader(64, 1, 0, 0);
    set(&s.of[GROUP], "41*20 80 00 00 2C 07 00 00 00 43 00 00 14 00*32");
    relend(&s.of[ROWS], 36);
    reads(&s, 1, 3);
    refused(&s, "P10", 8, 1);
    leave(&s);
    s = reader(64, 2, 1, 24);
    set(&s.of[GROUP], "00*28 80 00 00 40 00*32");
    relend(&s.of[ROWS], 12);
    reads(&s, 2, 1);
    refused(&s, "P11", 10, 1);
    leave(&s);
    s = reader(64, 2, 1, 24);
    set(&s.of[GROUP], "19 00*19 80 00 00 3F 01 00 00 18 60 00 00 01 00*32");
    relend(&s.of[ROWS], 36);
    reads(&s, 2, 3);
    refused(&s, "P12", 22, 2);
    leave(&s);
}

/* 126,592 bytes fit whole at the standard size, 126,593 don't */
static void run_only(void)
{
    run b = fresh("run only, 126,592", 126632);
    offers(&b, 126592);
    finished(&b.w, b.name);
    writer_is(&b.w, b.name, 126632, 1, 0, 0, 126592, 1, 0, 0);
    ends_run(&b, 1);
    takes(&b, 1, 0, "01+126592 80 00 00 28 63 01 EE 80 00*32", 0, 0, LIST(6, 0, 126592, 7, 126592, 40));
    done(&b, 2);
    b = fresh("run only, 126,593", 126632);
    offers(&b, 126593);
    takes(&b, 1, 126592, "01+126592 80 00 00 28 42 01 EE 80 00*32", 1, 126592, LIST(4, 0, 126592, 7, 126592, 40));
    offers_again(&b, 126592);
    finished(&b.w, b.name);
    ends_run(&b, 1);
    takes(&b, 2, 0, "81 00*126587 80 01 EE A7 01 01 EE 81 60 00 00 01 00*32", 0, 0,
          LIST(5, 0, 1, 1, 1, 126593, 7, 1, 126631));
    done(&b, 3);
}

int main(void)
{
    p1();
    p2();
    p3();
    p4();
    p5();
    p6();
    p7();
    p8();
    p9();
    p10_to_p12();
    run_only();
    return finish("bench_table");
}
