/*
 * Makes calls of the panel's library for a program of another machine: the
 * library is for x86-64 alone, this program runs there or under an emulator,
 * and `compare` talks to it through its standard input and output.
 *
 * A batch is a length of 32 bits and so many bytes, which hold calls one after
 * the other; its reply is the same, with their answers. Numbers are
 * little-endian. Bytes are their length, a number of runs, and for each run
 * where it begins, its length and its bytes; what no run covers is zero.
 */
#include <stdio.h>
#include <stdlib.h>
#include <string.h>

#include "../../include/ulgenzhir.h"

/* A full stack in its plain form, and more. */
#define ROOM ((1u << 21) + (1u << 16))

static uint8_t given[ROOM], lent[ROOM];
static const uint8_t *next;
static uint8_t *reply;
static size_t reply_len, reply_room;

static void fail(const char *why)
{
    fprintf(stderr, "bridge: %s\n", why);
    exit(1);
}

static uint32_t take(void)
{
    uint32_t value;
    memcpy(&value, next, sizeof value);
    next += sizeof value;
    return value;
}

/* Each run copied into the room, or made zero again. */
static void each_run(uint8_t *room, int copied)
{
    for (uint32_t runs = take(); runs > 0; runs--) {
        uint32_t from = take(), count = take();
        if (copied)
            memcpy(room + from, next, count);
        else
            memset(room + from, 0, count);
        next += count;
    }
}

/* The room is all zero before, so that a large stack with few runs is quick. */
static uint32_t take_bytes(uint8_t *room)
{
    uint32_t len = take();
    if (len > ROOM)
        fail("too many bytes");
    each_run(room, 1);
    return len;
}

static void clear(uint8_t *room, const uint8_t *sent)
{
    const uint8_t *after = next;
    next = sent + sizeof(uint32_t);
    each_run(room, 0);
    next = after;
}

static void put_bytes(const void *bytes, size_t len)
{
    if (reply_room - reply_len < len) {
        reply_room = 2 * (reply_len + len);
        reply = realloc(reply, reply_room);
        if (reply == NULL)
            fail("no memory");
    }
    memcpy(reply + reply_len, bytes, len);
    reply_len += len;
}

static void put(uint32_t value)
{
    put_bytes(&value, sizeof value);
}

static void put_long(uint64_t value)
{
    put_bytes(&value, sizeof value);
}

static void put_point(ulgenzhir_point point)
{
    put((uint32_t)point.x);
    put((uint32_t)point.y);
    put((uint32_t)point.z);
}

static void put_pick(ulgenzhir_pick answer)
{
    put(answer.number);
    put_point(answer.place);
    put(answer.steps);
    put(answer.looks);
    put_point(answer.normal);
    put_point(answer.m0);
    put_point(answer.m1);
    put_point(answer.m2);
    put_point(answer.apex);
}

/* The mark, then all else as a pick's. */
static void put_touch(ulgenzhir_touch answer)
{
    ulgenzhir_pick rest = {
        answer.number, answer.place, answer.steps, answer.looks, answer.normal,
        answer.m0, answer.m1, answer.m2, answer.apex
    };
    put(answer.guess);
    put_pick(rest);
}

static void put_ready(ulgenzhir_ready ready)
{
    put_point(ready.start);
    put_point(ready.apex);
    put(ready.level);
    put(ready.looks);
}

static void put_check(ulgenzhir_check answer)
{
    put(answer.number);
    put_point(answer.place);
    put(answer.looks);
    put_ready(answer.ready);
}

static void put_lean(ulgenzhir_lean answer)
{
    put(answer.number);
    put_long(answer.part);
    put_long(answer.whole);
}

static void put_firm(ulgenzhir_firm answer)
{
    put(answer.number);
    put_point(answer.place);
    put(answer.power);
    put(answer.looks);
    put_long(answer.part);
    put_long(answer.whole);
}

static void take_ints(int32_t *ints, int count)
{
    for (int i = 0; i < count; i++)
        ints[i] = (int32_t)take();
}

/* A check's refusal as the two calls in a row give it: no walk, so no step. */
static ulgenzhir_pick refused(ulgenzhir_check check)
{
    ulgenzhir_pick answer = { .number = check.number, .place = check.place, .looks = check.looks };
    return answer;
}

static ulgenzhir_point take_point(void)
{
    int32_t n[3];
    take_ints(n, 3);
    return (ulgenzhir_point){ n[0], n[1], n[2] };
}

/* As put_pick puts it. */
static ulgenzhir_pick take_pick(void)
{
    ulgenzhir_pick pick = { .number = take() };
    pick.place = take_point();
    pick.steps = take();
    pick.looks = take();
    pick.normal = take_point();
    pick.m0 = take_point();
    pick.m1 = take_point();
    pick.m2 = take_point();
    pick.apex = take_point();
    return pick;
}

/* The start is among the numbers that came before. */
static ulgenzhir_ready take_ready(const int32_t *start)
{
    ulgenzhir_ready ready = { .start = { start[0], start[1], start[2] } };
    ready.apex = take_point();
    ready.level = take();
    ready.looks = take();
    return ready;
}

/* The walk from what the check itself handed back. */
static void wedge_in_a_row(const int32_t *n)
{
    ulgenzhir_check check =
        ulgenzhir_check_wedge(n[0], n[1], n[2], n[3], n[4], n[5], n[6], n[7], n[8]);
    put_check(check);
    put_pick(check.number != 0 ? refused(check) : ulgenzhir_walk_wedge(
        n[0], n[1], n[2], n[3], check.ready, n[7], n[8]));
}

static void stack_in_a_row(const int32_t *n, uint32_t len)
{
    ulgenzhir_check check =
        ulgenzhir_check_stack(n[0], n[1], n[2], given, len, n[3], n[4], n[5], n[6], n[7]);
    put_check(check);
    put_pick(check.number != 0 ? refused(check) : ulgenzhir_walk_stack(
        n[0], n[1], n[2], given, len, check.ready, n[6], n[7]));
}

/* A pick, a touch, a check with its walk, a walk from a ready start, or an answer's firm footing. */
static void on_wedge(void)
{
    int32_t n[9];
    take_ints(n, 9);
    switch (take()) {
    case 'p':
        put_pick(ulgenzhir_pick_wedge(n[0], n[1], n[2], n[3], n[4], n[5], n[6], n[7], n[8]));
        return;
    case 't':
        put_touch(ulgenzhir_touch_wedge(n[0], n[1], n[2], n[3], n[4], n[5], n[6], n[7], n[8]));
        return;
    case 'c':
        wedge_in_a_row(n);
        return;
    case 'f':
        put_pick(ulgenzhir_walk_wedge(n[0], n[1], n[2], n[3], take_ready(n + 4), n[7], n[8]));
        return;
    case 'u':
        put_firm(ulgenzhir_firm_wedge(n[0], n[1], n[2], n[3], take_pick(), n[7], n[8]));
        return;
    }
    fail("no such walk");
}

static void on_stack(void)
{
    int32_t n[8];
    take_ints(n, 8);
    uint32_t walk = take();
    ulgenzhir_ready ready = { 0 };
    ulgenzhir_pick handed = { 0 };
    if (walk == 'f')
        ready = take_ready(n + 3);
    if (walk == 'u')
        handed = take_pick();
    const uint8_t *sent = next;
    uint32_t len = take_bytes(given);
    switch (walk) {
    case 'p':
        put_pick(ulgenzhir_pick_stack(
            n[0], n[1], n[2], given, len, n[3], n[4], n[5], n[6], n[7]));
        break;
    case 't':
        put_touch(ulgenzhir_touch_stack(
            n[0], n[1], n[2], given, len, n[3], n[4], n[5], n[6], n[7]));
        break;
    case 'c':
        stack_in_a_row(n, len);
        break;
    case 'f':
        put_pick(ulgenzhir_walk_stack(n[0], n[1], n[2], given, len, ready, n[6], n[7]));
        break;
    case 'u':
        put_firm(ulgenzhir_firm_stack(n[0], n[1], n[2], given, len, handed, n[6], n[7]));
        break;
    default:
        fail("no such walk");
    }
    clear(given, sent);
}

/* The lent part begins at `from` of the bytes that come back whole. */
static void read_p4(void)
{
    uint32_t len = take(), from = take(), part = take();
    const uint8_t *sent = next;
    take_bytes(given);
    uint32_t whole = take_bytes(lent);
    ulgenzhir_read answer = ulgenzhir_read_p4(given, len, lent + from, part);
    put(answer.number);
    put_long(answer.value);
    put(answer.width);
    put(answer.height);
    put(answer.depth);
    put_bytes(lent, whole);
    clear(given, sent);
    memset(lent, 0, whole);
}

static void write_p4(void)
{
    int32_t n[3];
    take_ints(n, 3);
    uint32_t from = take(), part = take();
    const uint8_t *sent = next;
    uint32_t len = take_bytes(given);
    uint32_t whole = take_bytes(lent);
    ulgenzhir_written answer =
        ulgenzhir_write_p4(n[0], n[1], n[2], given, len, lent + from, part);
    put(answer.number);
    put_long(answer.value);
    put_bytes(lent, whole);
    clear(given, sent);
    memset(lent, 0, whole);
}

static void display(void)
{
    int32_t n[3];
    take_ints(n, 3);
    ulgenzhir_lit answer = ulgenzhir_display(n[0], n[1], n[2]);
    put(answer.number);
    put_bytes(&answer.x, 4);
    put_bytes(&answer.y, 4);
    put_bytes(&answer.z, 4);
}

static void known_lean(void)
{
    int32_t reach = (int32_t)take();
    put_lean(ulgenzhir_known_lean(take_pick(), reach));
}

static void call(void)
{
    switch (take()) {
    case 'w': on_wedge(); return;
    case 's': on_stack(); return;
    case 'r': read_p4(); return;
    case 'o': write_p4(); return;
    case 'd': display(); return;
    case 'l': known_lean(); return;
    }
    fail("no such call");
}

int main(void)
{
    uint8_t *batch = NULL;
    uint32_t len;
    while (fread(&len, sizeof len, 1, stdin) == 1) {
        batch = realloc(batch, len);
        if (batch == NULL || fread(batch, 1, len, stdin) != len)
            fail("a batch is cut short");
        reply_len = 0;
        for (next = batch; next < batch + len;)
            call();
        len = (uint32_t)reply_len;
        fwrite(&len, sizeof len, 1, stdout);
        fwrite(reply, 1, reply_len, stdout);
        fflush(stdout);
    }
    return 0;
}
