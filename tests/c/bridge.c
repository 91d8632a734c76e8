/*
 * A build of the library behind two pipes, for tests on a processor that cannot
 * run its code: this program is linked with it and run by an emulator.
 *
 * A request is numbers of eight bytes, low byte first: how many pieces, and the
 * length of each; then the pieces: the name of an entry, what it only reads, and
 * its room (of no length for an entry without one; for one that finds a card the
 * part, as three such numbers; for odds both rows; for mending the deck's room, the
 * list's, and the length of the list as such a number; for tidying and adding the
 * deck, which is read too). A card number is a piece of two bytes, low byte first;
 * odds take the steps and the first row's length as such numbers, between them a
 * byte for the aim, and mending the length of the deck's room. The answer is the
 * entry's number and value and then the whole room. Before and behind each piece
 * stand bytes that the library must not write: the number is SPOILT if one of them,
 * or of what is only read, is not what it was.
 */
#include <stdlib.h>
#include <string.h>
#include <unistd.h>

#include "open_panel.h"

enum { NUMBER = 8, MOST_PIECES = 16, GUARD = 64, SPOILT = 256 };

typedef struct {
    uint8_t *at;
    size_t length;
} piece;

static uint16_t card_number(const piece *p) {
    return (uint16_t)(p->at[0] | p->at[1] << 8);
}

static void put_number(uint8_t *bytes, size_t value);
static size_t number_of(const uint8_t *bytes);

/* Rows of numbers, with bytes around each that the library must not write. */
enum { ROW_NUMBER = 4, AROUND = 16 };
static int lent_spoilt;

static uint32_t *row_of(const uint8_t *bytes, size_t length) {
    uint32_t *row = malloc((length + 2 * AROUND) * ROW_NUMBER);
    if (row == NULL) {
        exit(1);
    }
    memset(row, 0xa5, (length + 2 * AROUND) * ROW_NUMBER);
    if (length > 0) {
        memcpy(row + AROUND, bytes, length * ROW_NUMBER);
    }
    return row;
}

static void put_row(uint8_t *bytes, uint32_t *row, size_t length) {
    size_t i;
    for (i = 0; i < AROUND; i++) {
        lent_spoilt |= row[i] != 0xa5a5a5a5 || row[AROUND + length + i] != 0xa5a5a5a5;
    }
    if (length > 0) {
        memcpy(bytes, row + AROUND, length * ROW_NUMBER);
    }
    free(row);
}

static open_panel_answer odds(const piece *p) {
    const size_t first = number_of(p[5].at), second = p[6].length / ROW_NUMBER - first;
    uint8_t *behind = second == 0 ? NULL : p[6].at + first * ROW_NUMBER;
    uint32_t *a = row_of(p[6].at, first), *b = row_of(behind, second);
    open_panel_answer answer = open_panel_odds(p[0].at, p[0].length, p[1].at, p[1].length, p[2].at, p[2].length,
                                               number_of(p[3].at), p[4].at[0], a + AROUND, first, b + AROUND, second);
    put_row(p[6].at, a, first);
    put_row(behind, b, second);
    return answer;
}

/* A room for each of two that are lent as one, with bytes around each that the library must not write. */
static uint8_t *room_of(const uint8_t *bytes, size_t length) {
    uint8_t *room = malloc(length + 2 * GUARD);
    if (room == NULL) {
        exit(1);
    }
    memset(room, 0xa5, length + 2 * GUARD);
    if (length > 0) {
        memcpy(room + GUARD, bytes, length);
    }
    return room;
}

static void put_room(uint8_t *bytes, uint8_t *room, size_t length) {
    size_t i;
    for (i = 0; i < GUARD; i++) {
        lent_spoilt |= room[i] != 0xa5 || room[GUARD + length + i] != 0xa5;
    }
    if (length > 0) {
        memcpy(bytes, room + GUARD, length);
    }
    free(room);
}

static open_panel_answer mend(const piece *p) {
    const size_t length = number_of(p[1].at), list_length = p[2].length - NUMBER - length;
    uint8_t *behind = p[2].at + length, *told = behind + list_length;
    uint8_t *room = room_of(p[2].at, length), *list = room_of(behind, list_length);
    size_t listed = number_of(told);
    open_panel_answer answer = open_panel_mend(p[0].at, p[0].length, length == 0 ? NULL : room + GUARD, length,
                                               list_length == 0 ? NULL : list + GUARD, list_length, &listed);
    put_room(p[2].at, room, length);
    put_room(behind, list, list_length);
    put_number(told, listed);
    return answer;
}

/* Into its room; the library fills in every number. */
static void put_part(const piece *room, const open_panel_part *part) {
    put_number(room->at, part->in_expansion);
    put_number(room->at + NUMBER, part->offset);
    put_number(room->at + 2 * NUMBER, part->length);
}

/* An entry is added here. Returns 0 for a name that none has. */
static int enter(const char *name, const piece *p, open_panel_answer *answer) {
    if (strcmp(name, "open_panel_judge") == 0) {
        *answer = open_panel_judge(p[0].at, p[0].length);
    } else if (strcmp(name, "open_panel_write") == 0) {
        *answer = open_panel_write(p[0].at, p[0].length, p[1].at, p[1].length);
    } else if (strcmp(name, "open_panel_reduce") == 0) {
        *answer = open_panel_reduce(p[0].at, p[0].length, p[1].at, p[1].length);
    } else if (strcmp(name, "open_panel_show") == 0) {
        *answer = open_panel_show(p[0].at, p[0].length, p[1].at, p[1].length, p[2].at, p[2].length);
    } else if (strcmp(name, "open_panel_watch") == 0) {
        *answer = open_panel_watch(p[0].at, p[0].length, p[1].at, p[1].length, p[2].at, p[2].length, p[3].at, p[3].length);
    } else if (strcmp(name, "open_panel_ask") == 0) {
        *answer = open_panel_ask(p[0].at, p[0].length, p[1].at, p[1].length, p[2].at, p[2].length);
    } else if (strcmp(name, "open_panel_first_move") == 0) {
        *answer = open_panel_first_move(p[0].at, p[0].length, p[1].at, p[1].length);
    } else if (strcmp(name, "open_panel_odds") == 0) {
        *answer = odds(p);
    } else if (strcmp(name, "open_panel_box_judge") == 0) {
        *answer = open_panel_box_judge(p[0].at, p[0].length);
    } else if (strcmp(name, "open_panel_box_find") == 0) {
        open_panel_part part = {SIZE_MAX, SIZE_MAX, SIZE_MAX};
        *answer = open_panel_box_find(p[0].at, p[0].length, card_number(p + 1), &part);
        put_part(p + 2, &part);
    } else if (strcmp(name, "open_panel_box_find_with") == 0) {
        open_panel_part part = {SIZE_MAX, SIZE_MAX, SIZE_MAX};
        *answer = open_panel_box_find_with(p[0].at, p[0].length, p[1].at, p[1].length, card_number(p + 2), &part);
        put_part(p + 3, &part);
    } else if (strcmp(name, "open_panel_box_write") == 0) {
        *answer = open_panel_box_write(p[0].at, p[0].length, p[1].at, p[1].length, p[2].at, p[2].length);
    } else if (strcmp(name, "open_panel_mend") == 0) {
        *answer = mend(p);
    } else if (strcmp(name, "open_panel_convert") == 0) {
        *answer = open_panel_convert(p[0].at, p[0].length, p[1].at, p[1].length);
    } else if (strcmp(name, "open_panel_tidy") == 0) {
        *answer = open_panel_tidy(p[0].at, p[0].length);
    } else if (strcmp(name, "open_panel_add") == 0) {
        *answer = open_panel_add(p[2].at, p[2].length, card_number(p), p[1].at, p[1].length);
    } else {
        return 0;
    }
    return 1;
}

/* Reads all of so many bytes; 0 at the end of the input. */
static int take(uint8_t *into, size_t length) {
    static uint8_t waiting[65536];
    static size_t from, to;
    while (length > 0) {
        size_t part;
        if (from == to) {
            ssize_t got = read(0, waiting, sizeof waiting);
            if (got <= 0) {
                return 0;
            }
            from = 0;
            to = (size_t)got;
        }
        part = to - from < length ? to - from : length;
        memcpy(into, waiting + from, part);
        from += part;
        into += part;
        length -= part;
    }
    return 1;
}

static void give(const uint8_t *from, size_t length) {
    size_t done = 0;
    while (done < length) {
        ssize_t got = write(1, from + done, length - done);
        if (got <= 0) {
            exit(1);
        }
        done += (size_t)got;
    }
}

static size_t number_of(const uint8_t *bytes) {
    size_t value = 0;
    int i;
    for (i = NUMBER; i > 0; i--) {
        value = value << 8 | bytes[i - 1];
    }
    return value;
}

static size_t take_number(void) {
    uint8_t bytes[NUMBER];
    if (!take(bytes, NUMBER)) {
        exit(0);
    }
    return number_of(bytes);
}

static void put_number(uint8_t *bytes, size_t value) {
    int i;
    for (i = 0; i < NUMBER; i++) {
        bytes[i] = (uint8_t)(value & 255);
        value >>= 8;
    }
}

int main(void) {
    uint8_t *store = NULL, *before = NULL;
    size_t held = 0;
    uint8_t guard = 0;
    for (;;) {
        const size_t pieces = take_number();
        piece p[MOST_PIECES];
        char name[64] = {0};
        open_panel_answer answer = {0, 0};
        size_t whole = GUARD, i;
        uint8_t *next, *room;
        int spoilt;
        if (pieces < 2 || pieces > MOST_PIECES) {
            return 1;
        }
        for (i = 0; i < pieces; i++) {
            p[i].length = take_number();
            whole += i == 0 ? 0 : p[i].length + GUARD;
        }
        if (p[0].length >= sizeof name || !take((uint8_t *)name, p[0].length)) {
            return 1;
        }
        if (whole > held) {
            free(store);
            free(before);
            store = malloc(whole);
            before = malloc(whole);
            held = whole;
            if (store == NULL || before == NULL) {
                return 1;
            }
        }
        /* Digits, letters and signs by turns, which would change a card if they were read. */
        guard = guard >= 'z' ? ' ' : (uint8_t)(guard + 1);
        memset(store, guard, whole);
        next = store + GUARD;
        room = next;
        for (i = 1; i < pieces; i++) {
            if (!take(next, p[i].length)) {
                return 1;
            }
            /* A piece of no length has no place. */
            p[i].at = p[i].length == 0 ? NULL : next;
            room = next;
            next += p[i].length + GUARD;
        }
        memcpy(before, store, whole);
        if (!enter(name, p + 1, &answer)) {
            return 1;
        }
        i = p[pieces - 1].length;
        spoilt = lent_spoilt || memcmp(store, before, (size_t)(room - store)) != 0 || memcmp(room + i, before + (room + i - store), GUARD) != 0;
        /* The answer goes where the guard before the room was, so that all is given at once. */
        put_number(room - 2 * NUMBER, spoilt ? SPOILT : answer.number);
        put_number(room - NUMBER, answer.value);
        give(room - 2 * NUMBER, 2 * NUMBER + i);
    }
}
