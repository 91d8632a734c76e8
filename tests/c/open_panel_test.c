/* The header and the library from C: one card, every entry, both sides of the room. */
#include <stdio.h>
#include <string.h>

#include "open_panel.h"

static const char card_a[] =
    "probabilistic\n"
    "module process1\n"
    "s1 : [0..2] init 0;\n"
    "[] s1=0 & (s2=0 | s3=0) -> 1/2:(s1'=1) + 1/2:(s1'=2);\n"
    "[] s1=1 & (s1!=2 & s2!=2 & s3!=2) -> 1/4:(s1'=2) + 3/4:(s1'=1);\n"
    "endmodule\n"
    "module process2 = process1 [s1=s2, s2=s1] endmodule\n"
    "module process3 = process1 [s1=s3, s3=s1] endmodule\n";

static const char panel_at_001[] =
    "probabilistic\n"
    "seats 3 enabled 3\n"
    "counts 2 1 0\n"
    "stay 207900\n"
    "move 0 1 277200\n"
    "move 0 2 277200\n"
    "move 1 2 69300\n";

static const char one_seat[] =
    "nondeterministic module process1 s1 : [0..1] init 0;"
    "[] s1=0 -> 1:(s1'=1); endmodule";

static const char one_seat_reduced[] =
    "nondeterministic\n"
    "module generic_process\n"
    "no_0 : [0..1] init 1;\n"
    "no_1 : [0..1] init 0;\n"
    "[] (no_0>0) -> 1:(no_0'=no_0-1) & (no_1'=min(no_1+1,1));\n"
    "endmodule\n";

/* Two seats that share a number: at night, which is 1, one may wake, and then it is day. */
static const char night[] =
    "nondeterministic\n"
    "global g : [0..1] init 1;\n"
    "module process1\n"
    "s1 : [0..1] init 0;\n"
    "[] s1=0 & (g=1) -> 1/2:(s1'=1) & (g'=0) + 1/2:(s1'=0);\n"
    "endmodule\n"
    "module process2 = process1 [s1=s2, s2=s1] endmodule\n";

static const char night_reduced[] =
    "nondeterministic\n"
    "global g : [0..1] init 1;\n"
    "module generic_process\n"
    "no_0 : [0..2] init 2;\n"
    "no_1 : [0..2] init 0;\n"
    "[] (no_0>0) & (g=1) -> 1/2:(no_0'=no_0-1) & (no_1'=min(no_1+1,2)) & (g'=0) + 1/2:true;\n"
    "endmodule\n";

static const char night_panel[] =
    "nondeterministic\n"
    "seats 2 enabled 1\n"
    "counts 2 0\n"
    "shared 1\n"
    "choice 1\n"
    "stay 138600 1\n"
    "move 0 1 138600 0\n";

/* Exactly one of three seats is in state 1; then the same with a term too few. */
static const char one_leads[] = "((s1=1 & s2!=1 & s3!=1) | (s2=1 & s1!=1 & s3!=1) | (s3=1 & s1!=1 & s2!=1))";
static const char two_terms[] = "((s1=1 & s2!=1 & s3!=1) | (s2=1 & s1!=1 & s3!=1))";

/* Two cards, the second of them withdrawn: contents without offsets, bodies, and the deck of them. */
static const uint8_t contents[] = {5, 0, 0, 0, 3, 0, 1, 0, 7, 1, 0, 0, 2, 0, 0, 0};
static const char bodies[] = "onetw";
static const char deck[] = "\2\5\0\21\0\3\0\1\0\7\1\24\0\2\0\0\0onetw";

/* Card 1 withdrawn behind a gap, card 2 live and no card, card 3 withdrawn with a flag that is none; and what can be kept of it. */
static const char damaged[] = "\3\1\0\32\0\2\0\0\0\2\0\34\0\1\0\1\0\3\0\35\0\1\0\2\0-abcd";
static const char mended[] = "\1\1\0\11\0\2\0\0\0ab";
static const char what_became[] = "kept\ndropped 4\ndropped 1\n";

/* A card from when a weight could be a decimal, with a weight that was none even then, and as it is written now. */
static const char old_card[] =
    "nondeterministic\n"
    "module process1\n"
    "s1 : [0..1] init 0;\n"
    "[] s1=0 -> 0.25:(s1'=1) + 0.75:(s1'=0);\n"
    "endmodule\n";
static const char old_and_wrong[] =
    "nondeterministic\n"
    "module process1\n"
    "s1 : [0..1] init 0;\n"
    "[] s1=0 -> 0.25:(s1'=1) + 0.755:(s1'=0);\n"
    "endmodule\n";
static const char new_card[] =
    "nondeterministic\n"
    "module process1\n"
    "s1 : [0..1] init 0;\n"
    "[] s1=0 -> 1/4:(s1'=1) + 3/4:(s1'=0);\n"
    "endmodule\n";

enum { GUARD = 16, UNTOUCHED = 0xa5 };

/* A room with bytes on both sides that nothing may touch. */
static uint8_t store[GUARD + OPEN_PANEL_REDUCE_ROOM + GUARD];
static uint8_t *const room = store + GUARD;

static int failures;

static void expect(int holds, const char *what) {
    if (!holds) {
        printf("failed: %s\n", what);
        failures++;
    }
}

/* Whether the answer is this one, and so many bytes, with nothing else touched. */
static void gives(open_panel_answer answer, unsigned number, size_t value, const void *made, size_t made_len, const char *what) {
    size_t i;
    int untouched = 1;
    expect(answer.number == number && answer.value == value, what);
    expect(memcmp(room, made, made_len) == 0, what);
    for (i = 0; i < sizeof store; i++) {
        untouched &= (i >= GUARD && i < GUARD + made_len) || store[i] == UNTOUCHED;
    }
    expect(untouched, what);
    memset(store, UNTOUCHED, sizeof store);
}

/* The same with a text. */
static void answers(open_panel_answer answer, unsigned number, size_t value, const char *text, const char *what) {
    gives(answer, number, value, text, strlen(text), what);
}

/* A room for a list, with bytes on both sides, and its length. */
static uint8_t list_store[GUARD + OPEN_PANEL_LIST_ROOM + GUARD];
static uint8_t *const list = list_store + GUARD;
static size_t listed = UNTOUCHED;

/* Whether mending answers this, with both texts, and nothing else is touched. */
static void mends(open_panel_answer answer, unsigned number, size_t value, const char *made, size_t made_len, const char *lines,
                  const char *what) {
    const size_t lines_len = strlen(lines);
    size_t i;
    int untouched = 1;
    gives(answer, number, value, made, made_len, what);
    expect(listed == (number == 0 ? lines_len : UNTOUCHED), what);
    expect(memcmp(list, lines, lines_len) == 0, what);
    for (i = 0; i < sizeof list_store; i++) {
        untouched &= (i >= GUARD && i < GUARD + lines_len) || list_store[i] == UNTOUCHED;
    }
    expect(untouched, what);
    memset(list_store, UNTOUCHED, sizeof list_store);
    listed = UNTOUCHED;
}

static const uint8_t *bytes(const char *text) {
    return (const uint8_t *)text;
}

/* Whether the part is this one; then it is spoilt for the next call. */
static void lies(open_panel_part *part, size_t in_expansion, size_t offset, size_t length, const char *what) {
    expect(part->in_expansion == in_expansion && part->offset == offset && part->length == length, what);
    part->in_expansion = part->offset = part->length = UNTOUCHED;
}

/* The byte of the shared number stands behind those of the seats. */
static void shared_number(void) {
    const uint8_t at_night[] = {0, 0, 1, 0};
    const uint8_t at_day[] = {0, 0, 0};
    const uint8_t above[] = {0, 0, 2};
    const uint8_t classes[] = {3, 3};
    const uint8_t *n = bytes(night);
    const size_t n_len = sizeof night - 1;
    uint32_t first[OPEN_PANEL_ODDS_ROW], second[OPEN_PANEL_ODDS_ROW];
    answers(open_panel_write(n, n_len, room, OPEN_PANEL_WRITE_ROOM), OPEN_PANEL_TAKEN, n_len, night, "a shared number, written");
    answers(open_panel_reduce(n, n_len, room, OPEN_PANEL_REDUCE_ROOM), OPEN_PANEL_TAKEN, sizeof night_reduced - 1, night_reduced,
            "a shared number, reduced");
    answers(open_panel_show(n, n_len, at_night, 3, room, OPEN_PANEL_SHOW_ROOM), OPEN_PANEL_TAKEN, sizeof night_panel - 1, night_panel,
            "a shared number on a panel");
    answers(open_panel_show(n, n_len, at_night, 2, room, GUARD), OPEN_PANEL_SEAT_COUNT, 0, "", "seats without the shared number");
    answers(open_panel_show(n, n_len, at_night, 4, room, GUARD), OPEN_PANEL_SEAT_COUNT, 0, "", "a byte behind the shared number");
    answers(open_panel_show(n, n_len, above, 3, room, GUARD), OPEN_PANEL_SEAT_STATE, 2, "", "a shared number above its highest");
    answers(open_panel_first_move(n, n_len, at_night, 3), OPEN_PANEL_TAKEN, 1, "", "somebody may move at night");
    answers(open_panel_first_move(n, n_len, at_day, 3), OPEN_PANEL_TAKEN, 0, "", "nobody by day");
    answers(open_panel_ask(n, n_len, bytes("!(g!=1)"), 7, at_night, 3), OPEN_PANEL_TAKEN, 1, "", "is it night?");
    answers(open_panel_ask(n, n_len, bytes("(g=2)"), 5, at_night, 3), OPEN_PANEL_QUESTION_STATE, 3, "", "a question above the highest");
    answers(open_panel_watch(n, n_len, at_day, 3, classes, 2, room, 24), OPEN_PANEL_TAKEN, 24, "classes 0 0 0 2 0 0 0 0\n",
            "a spectator by day");
    answers(open_panel_watch(n, n_len, at_night, 3, classes, 2, room, 24), OPEN_PANEL_TAKEN, 24, "classes 0 0 0 2 0 0 0 0\n",
            "a spectator at night");
    answers(open_panel_odds(n, n_len, bytes("(g=0)"), 5, at_night, 3, 1, 1, first, OPEN_PANEL_ODDS_ROW, second, OPEN_PANEL_ODDS_ROW),
            OPEN_PANEL_TAKEN, 500000, "", "the chance of day");
    expect(first[4] == OPEN_PANEL_CERTAIN && first[5] == 500000 && second[5] == 0 && first[6] == 0, "rows of pairs");
}

/* One of the three cards of a deck: its entry, and its body where that says; where the next body may begin. */
static size_t put_card(uint8_t *into, size_t entry, size_t number, size_t offset, uint8_t live, const char *card) {
    const size_t length = strlen(card);
    uint8_t *at = into + 1 + 8 * entry;
    into[0] = 3;
    at[0] = (uint8_t)(number & 255);
    at[1] = (uint8_t)(number >> 8);
    at[2] = (uint8_t)(offset & 255);
    at[3] = (uint8_t)(offset >> 8);
    at[4] = (uint8_t)(length & 255);
    at[5] = (uint8_t)(length >> 8);
    at[6] = live;
    at[7] = 0;
    memcpy(into + offset, card, length);
    return offset + length;
}

/* A decimal is no weight of a card any more, and a deck from before is converted. */
static void decimals(void) {
    const uint8_t seat[] = {0};
    const uint8_t *old = bytes(old_card);
    const size_t old_len = sizeof old_card - 1;
    const size_t place = (size_t)(strstr(old_card, "0.25") - old_card);
    static uint8_t from[1024], into[1024];
    size_t from_len, into_len;
    answers(open_panel_judge(old, old_len), OPEN_PANEL_DECIMAL, place, "", "a decimal, judged");
    answers(open_panel_write(old, old_len, room, OPEN_PANEL_WRITE_ROOM), OPEN_PANEL_DECIMAL, place, "", "a decimal, written");
    answers(open_panel_reduce(old, old_len, room, OPEN_PANEL_REDUCE_ROOM), OPEN_PANEL_DECIMAL, place, "", "a decimal, reduced");
    answers(open_panel_show(old, old_len, seat, 1, room, OPEN_PANEL_SHOW_ROOM), OPEN_PANEL_DECIMAL, place, "", "a decimal, shown");
    answers(open_panel_first_move(old, old_len, NULL, 0), OPEN_PANEL_DECIMAL, place, "", "a decimal before the seats");
    answers(open_panel_ask(old, old_len, NULL, 0, NULL, 0), OPEN_PANEL_DECIMAL, place, "", "a decimal before the question");
    answers(open_panel_judge(bytes(old_and_wrong), sizeof old_and_wrong - 1), OPEN_PANEL_DECIMAL, place, "", "the first decimal");

    /* A gap before each body goes; a withdrawn card is copied unread, and one without decimals as it stands. */
    memset(from, '-', sizeof from);
    from_len = put_card(from, 0, 3, 30, 1, old_card);
    from_len = put_card(from, 1, 4, from_len + 1, 0, old_card);
    from_len = put_card(from, 2, 300, from_len + 2, 1, one_seat);
    into_len = put_card(into, 0, 3, 25, 1, new_card);
    into_len = put_card(into, 1, 4, into_len, 0, old_card);
    into_len = put_card(into, 2, 300, into_len, 1, one_seat);
    gives(open_panel_convert(from, from_len, room, OPEN_PANEL_DECK_BYTES), OPEN_PANEL_TAKEN, into_len, into, into_len,
          "a deck from before, converted");
    gives(open_panel_convert(from, from_len, room, into_len), OPEN_PANEL_TAKEN, into_len, into, into_len, "the same in a room that just fits");
    gives(open_panel_convert(into, into_len, room, into_len), OPEN_PANEL_TAKEN, into_len, into, into_len, "a converted deck, converted");
    answers(open_panel_convert(from, from_len, room, into_len - 1), OPEN_PANEL_ROOM, into_len, "", "a room one byte short");
    answers(open_panel_convert(from, from_len, NULL, 0), OPEN_PANEL_ROOM, into_len, "", "the length of a converted deck");
    answers(open_panel_convert(from, from_len - 1, NULL, 0), OPEN_PANEL_DECK, 21, "", "a deck cut short");
    answers(open_panel_convert(NULL, 0, NULL, 0), OPEN_PANEL_DECK, 0, "", "no deck to convert");
    from_len = put_card(from, 2, 300, from_len, 1, old_and_wrong);
    answers(open_panel_convert(from, from_len, room, OPEN_PANEL_DECK_BYTES), OPEN_PANEL_NOT_CONVERTED, 300, "", "a card that never was one");
    answers(open_panel_convert(from, from_len, NULL, 0), OPEN_PANEL_NOT_CONVERTED, 300, "", "the same before the room");
}

/* Puts a deck of three cards into the room, the first of them withdrawn, each behind a gap; its length. */
static size_t deck_in_room(void) {
    size_t length;
    memset(room, '-', 30);
    length = put_card(room, 0, 3, 30, 0, old_card);
    room[length] = '-';
    length = put_card(room, 1, 4, length + 1, 1, one_seat);
    return put_card(room, 2, 300, length, 1, "no card");
}

/* A deck loses its withdrawn cards and its gaps where it stands, and a card is added to it. */
static void room_again(void) {
    static uint8_t lent[1024], tidied[1024], first[1024], last[1024];
    const uint8_t *card = bytes(new_card);
    const size_t card_len = sizeof new_card - 1, lent_len = deck_in_room();
    size_t tidied_len, added_len;
    memcpy(lent, room, lent_len);
    tidied_len = put_card(tidied, 0, 4, 17, 1, one_seat);
    tidied_len = put_card(tidied, 1, 300, tidied_len, 1, "no card");
    tidied[0] = 2;
    added_len = put_card(first, 0, 3, 25, 1, new_card);
    added_len = put_card(first, 1, 4, added_len, 1, one_seat);
    added_len = put_card(first, 2, 300, added_len, 1, "no card");
    added_len = put_card(last, 0, 4, 25, 1, one_seat);
    added_len = put_card(last, 1, 300, added_len, 1, "no card");
    added_len = put_card(last, 2, 301, added_len, 1, new_card);

    gives(open_panel_tidy(room, lent_len), OPEN_PANEL_TAKEN, tidied_len, tidied, lent_len, "a deck, tidied");
    memcpy(room, tidied, lent_len);
    gives(open_panel_tidy(room, lent_len), OPEN_PANEL_TAKEN, tidied_len, tidied, lent_len, "the same once more, with its zeros");
    memcpy(room, tidied, tidied_len);
    gives(open_panel_tidy(room, tidied_len), OPEN_PANEL_TAKEN, tidied_len, tidied, tidied_len, "and without them");

    deck_in_room();
    gives(open_panel_add(room, lent_len, 3, card, card_len), OPEN_PANEL_TAKEN, added_len, first, lent_len,
          "a card in the place of a withdrawn one");
    deck_in_room();
    gives(open_panel_add(room, lent_len, 301, card, card_len), OPEN_PANEL_TAKEN, added_len, last, lent_len, "a card behind all others");
    memcpy(room, tidied, tidied_len);
    gives(open_panel_add(room, added_len, 301, card, card_len), OPEN_PANEL_TAKEN, added_len, last, added_len, "a deck that is just long enough");

    memcpy(room, tidied, tidied_len);
    memset(room + tidied_len, 0, added_len - 1 - tidied_len);
    gives(open_panel_add(room, added_len - 1, 301, card, card_len), OPEN_PANEL_ROOM, added_len, tidied, added_len - 1, "one that is a byte short");
    deck_in_room();
    gives(open_panel_add(room, lent_len, 4, card, card_len), OPEN_PANEL_NOT_ADDED, 9, lent, lent_len, "a number that is live");
    deck_in_room();
    gives(open_panel_add(room, lent_len, 4, bytes(old_card), sizeof old_card - 1), OPEN_PANEL_DECIMAL,
          (size_t)(strstr(old_card, "0.25") - old_card), lent, lent_len, "a wrong card before its number");
    deck_in_room();
    gives(open_panel_add(room, lent_len, 4, NULL, 0), OPEN_PANEL_SHAPE, 0, lent, lent_len, "no card to add");
    deck_in_room();
    gives(open_panel_tidy(room, lent_len - 1), OPEN_PANEL_DECK, 21, lent, lent_len, "a deck cut short, tidied");
    deck_in_room();
    gives(open_panel_add(room, lent_len - 1, 4, NULL, 0), OPEN_PANEL_DECK, 21, lent, lent_len, "a card to a deck cut short");

    lent[15] = lent[23] = 0;
    memcpy(room, lent, lent_len);
    gives(open_panel_tidy(room, lent_len), OPEN_PANEL_NO_CARD, 0, lent, lent_len, "nothing live to tidy");
    memcpy(room, lent, lent_len);
    gives(open_panel_add(room, lent_len, 4, NULL, 0), OPEN_PANEL_NO_CARD, 0, lent, lent_len, "a card to a deck with nothing live");
    answers(open_panel_tidy(NULL, 0), OPEN_PANEL_DECK, 0, "", "no deck to tidy");
    answers(open_panel_add(NULL, 0, 4, NULL, 0), OPEN_PANEL_DECK, 0, "", "no deck to add to");
}

/* The library is of this header's version, and says of each refusal something else than of a number that is none. */
static void words_are_known(void) {
    static const uint8_t refusals[] = {REFUSALS};
    const char *unknown = open_panel_words(255);
    size_t i;
    expect(strcmp(open_panel_version(), OPEN_PANEL_VERSION) == 0, "the library's version");
    expect(sizeof refusals >= 26, "the header's refusals");
    for (i = 0; i < sizeof refusals; i++) {
        const char *words = open_panel_words(refusals[i]);
        expect(strlen(words) > 4 && strcmp(words, unknown) != 0 && strchr(words, '\n') == NULL, "a refusal's words");
    }
    expect(strcmp(open_panel_words(OPEN_PANEL_LONG), "the card is longer than 16384 bytes") == 0, "words with a number");
}

static void at(const uint8_t *text, size_t text_len, size_t place, size_t line, size_t column, const char *what) {
    open_panel_position found = open_panel_line_and_column(text, text_len, place);
    expect(found.line == line && found.column == column, what);
}

int main(void) {
    const uint8_t seats_001[] = {0, 0, 1};
    const uint8_t seats_011[] = {0, 1, 1};
    const uint8_t seats_012[] = {0, 1, 2};
    const uint8_t seats_034[] = {0, 3, 4};
    const uint8_t seats_021[] = {0, 2, 1};
    const uint8_t apart[] = {0, 1, 2};
    const uint8_t two_alike[] = {7, 3, 7};
    const uint8_t class_8[] = {7, 8, 9};
    const uint8_t *a = bytes(card_a);
    const size_t a_len = sizeof card_a - 1;
    const size_t panel_len = sizeof panel_at_001 - 1;
    const size_t deck_len = sizeof deck - 1;
    const size_t damaged_len = sizeof damaged - 1;
    const size_t mended_len = sizeof mended - 1;
    const size_t lines_len = sizeof what_became - 1;
    open_panel_part part = {UNTOUCHED, UNTOUCHED, UNTOUCHED};
    memset(store, UNTOUCHED, sizeof store);
    memset(list_store, UNTOUCHED, sizeof list_store);

    answers(open_panel_judge(a, a_len), OPEN_PANEL_TAKEN, 0, "", "judge takes card A");
    answers(open_panel_judge(a, a_len - 1), OPEN_PANEL_TAKEN, 0, "", "judge takes card A without its last LF");
    answers(open_panel_judge(a, a_len - 2), OPEN_PANEL_SHAPE, a_len - 10, "", "judge refuses a word cut short");
    answers(open_panel_judge(NULL, 0), OPEN_PANEL_SHAPE, 0, "", "judge refuses the empty card");

    answers(open_panel_write(a, a_len, room, OPEN_PANEL_WRITE_ROOM), OPEN_PANEL_TAKEN, a_len, card_a,
            "card A is its own written form");
    answers(open_panel_write(a, a_len, room, a_len), OPEN_PANEL_TAKEN, a_len, card_a, "a room that just fits");
    answers(open_panel_write(a, a_len, room, a_len - 1), OPEN_PANEL_ROOM, a_len, "", "a room one byte short");
    answers(open_panel_write(a, a_len, NULL, 0), OPEN_PANEL_ROOM, a_len, "", "no room at all");
    answers(open_panel_write(NULL, 0, room, GUARD), OPEN_PANEL_SHAPE, 0, "", "no card at all");

    answers(open_panel_reduce(bytes(one_seat), sizeof one_seat - 1, room, OPEN_PANEL_REDUCE_ROOM), OPEN_PANEL_TAKEN,
            sizeof one_seat_reduced - 1, one_seat_reduced, "the one-seat card, reduced");
    answers(open_panel_reduce(bytes(one_seat), sizeof one_seat - 1, NULL, 0), OPEN_PANEL_ROOM,
            sizeof one_seat_reduced - 1, "", "the length of a reduced text");
    answers(open_panel_reduce(NULL, 0, room, GUARD), OPEN_PANEL_SHAPE, 0, "", "no card to reduce");

    answers(open_panel_show(a, a_len, seats_001, 3, room, OPEN_PANEL_SHOW_ROOM), OPEN_PANEL_TAKEN, panel_len,
            panel_at_001, "the panel of card A at 001");
    answers(open_panel_show(a, a_len, seats_001, 3, room, panel_len - 1), OPEN_PANEL_ROOM, panel_len, "",
            "a panel in a room one byte short");
    answers(open_panel_show(a, a_len, seats_001, 2, room, OPEN_PANEL_SHOW_ROOM), OPEN_PANEL_SEAT_COUNT, 0, "",
            "a seat missing");
    answers(open_panel_show(a, a_len, NULL, 0, room, OPEN_PANEL_SHOW_ROOM), OPEN_PANEL_SEAT_COUNT, 0, "", "no seats");
    answers(open_panel_show(a, a_len, seats_001, 3, NULL, 0), OPEN_PANEL_ROOM, panel_len, "", "the length of a panel");
    answers(open_panel_show(NULL, 0, NULL, 0, NULL, 0), OPEN_PANEL_SHAPE, 0, "", "nothing at all");
    answers(open_panel_show(a, a_len, seats_034, 3, room, OPEN_PANEL_SHOW_ROOM), OPEN_PANEL_SEAT_STATE, 1, "",
            "a seat above the top state");

    answers(open_panel_watch(a, a_len, seats_001, 3, apart, 3, room, OPEN_PANEL_WATCH_ROOM), OPEN_PANEL_TAKEN, 24,
            "classes 2 1 0 0 0 0 0 0\n", "a class for each state, at 001");
    answers(open_panel_watch(a, a_len, seats_001, 3, two_alike, 3, room, OPEN_PANEL_WATCH_ROOM), OPEN_PANEL_TAKEN, 24,
            "classes 0 0 0 1 0 0 0 2\n", "two states of one class, at 001");
    answers(open_panel_watch(a, a_len, seats_021, 3, two_alike, 3, room, 24), OPEN_PANEL_TAKEN, 24,
            "classes 0 0 0 1 0 0 0 2\n", "other seats with the same classes, in a room that just fits");
    answers(open_panel_watch(a, a_len, seats_001, 3, apart, 3, room, 23), OPEN_PANEL_ROOM, 24, "",
            "a line in a room one byte short");
    answers(open_panel_watch(a, a_len, seats_001, 3, apart, 3, NULL, 0), OPEN_PANEL_ROOM, 24, "", "the length of a line");
    answers(open_panel_watch(a, a_len, seats_001, 3, apart, 2, NULL, 0), OPEN_PANEL_CLASSES, 2, "", "a list too short");
    answers(open_panel_watch(a, a_len, seats_001, 3, NULL, 0, room, GUARD), OPEN_PANEL_CLASSES, 0, "", "no list");
    answers(open_panel_watch(a, a_len, seats_001, 3, class_8, 3, room, GUARD), OPEN_PANEL_CLASSES, 1, "",
            "a class above the top");
    answers(open_panel_watch(a, a_len, seats_034, 3, class_8, 2, room, GUARD), OPEN_PANEL_SEAT_STATE, 1, "",
            "a seat and a list that are wrong");
    answers(open_panel_watch(NULL, 0, NULL, 0, NULL, 0, NULL, 0), OPEN_PANEL_SHAPE, 0, "", "nothing to watch");

    answers(open_panel_ask(a, a_len, bytes(one_leads), sizeof one_leads - 1, seats_001, 3), OPEN_PANEL_TAKEN, 1, "",
            "one seat leads at 001");
    answers(open_panel_ask(a, a_len, bytes(one_leads), sizeof one_leads - 1, seats_011, 3), OPEN_PANEL_TAKEN, 0, "",
            "two seats do at 011");
    answers(open_panel_ask(a, a_len, bytes(two_terms), sizeof two_terms - 1, seats_001, 3), OPEN_PANEL_QUESTION_GROUP, 0,
            "", "an exactly-one with a term too few");
    answers(open_panel_ask(a, a_len, bytes("(s2=0 | s3=0)"), 13, seats_001, 3), OPEN_PANEL_QUESTION_GROUP, 0, "",
            "a question about the others");
    answers(open_panel_ask(a, a_len, NULL, 0, seats_001, 3), OPEN_PANEL_QUESTION_SHAPE, 0, "", "no question");
    answers(open_panel_ask(a, a_len, bytes(one_leads), sizeof one_leads - 1, NULL, 0), OPEN_PANEL_SEAT_COUNT, 0, "",
            "a question and no seats");
    answers(open_panel_ask(NULL, 0, NULL, 0, NULL, 0), OPEN_PANEL_SHAPE, 0, "", "no card to ask about");

    answers(open_panel_first_move(a, a_len, seats_001, 3), OPEN_PANEL_TAKEN, 1, "", "the first statement can be taken at 001");
    answers(open_panel_first_move(a, a_len, seats_011, 3), OPEN_PANEL_TAKEN, 2, "", "only the second can at 011");
    answers(open_panel_first_move(a, a_len, seats_012, 3), OPEN_PANEL_TAKEN, 0, "", "nobody is able to move at 012");
    answers(open_panel_first_move(a, a_len, seats_034, 2), OPEN_PANEL_SEAT_COUNT, 0, "", "who may move with a seat missing");
    answers(open_panel_first_move(a, a_len, seats_034, 3), OPEN_PANEL_SEAT_STATE, 1, "", "who may move above the top state");
    answers(open_panel_first_move(a, a_len, NULL, 0), OPEN_PANEL_SEAT_COUNT, 0, "", "who may move without seats");
    answers(open_panel_first_move(NULL, 0, NULL, 0), OPEN_PANEL_SHAPE, 0, "", "no card to move by");

    answers(open_panel_box_judge(bytes(deck), deck_len), OPEN_PANEL_TAKEN, 0, "", "a sound deck");
    answers(open_panel_box_judge(bytes(deck), deck_len - 1), OPEN_PANEL_DECK, 13, "", "a body that passes the deck");
    answers(open_panel_box_judge(NULL, 0), OPEN_PANEL_DECK, 0, "", "no deck");
    answers(open_panel_box_find(bytes(deck), deck_len, 5, &part), OPEN_PANEL_TAKEN, 0, "", "a live card");
    lies(&part, 0, 17, 3, "where it lies");
    answers(open_panel_box_find(bytes(deck), deck_len, 263, &part), OPEN_PANEL_NO_CARD, 0, "", "a withdrawn card");
    lies(&part, 0, 0, 0, "an empty part");
    answers(open_panel_box_find_with(NULL, 0, bytes(deck), deck_len, 5, &part), OPEN_PANEL_DECK, 0, "", "no base");
    lies(&part, 0, 0, 0, "an empty part");
    answers(open_panel_box_find_with(bytes(deck), deck_len, NULL, 0, 5, &part), OPEN_PANEL_DECK, 65536, "", "no expansion");
    lies(&part, 0, 0, 0, "an empty part");
    answers(open_panel_box_find_with(bytes(deck), deck_len, bytes(deck), deck_len, 5, &part), OPEN_PANEL_TAKEN, 0, "",
            "a card in the expansion");
    lies(&part, 1, 17, 3, "where it lies");
    gives(open_panel_box_write(contents, sizeof contents, bytes(bodies), sizeof bodies - 1, room, deck_len), OPEN_PANEL_TAKEN,
          deck_len, deck, deck_len, "a deck, written");
    answers(open_panel_box_write(contents, sizeof contents, bytes(bodies), sizeof bodies - 1, room, deck_len - 1), OPEN_PANEL_ROOM,
            deck_len, "", "a deck in a room one byte short");
    answers(open_panel_box_write(contents, sizeof contents, bytes(bodies), sizeof bodies, room, deck_len), OPEN_PANEL_DECK,
            sizeof contents, "", "bodies longer than the contents say");
    answers(open_panel_box_write(NULL, 0, NULL, 0, NULL, 0), OPEN_PANEL_DECK, 0, "", "no contents");

    mends(open_panel_mend(bytes(damaged), damaged_len, room, damaged_len, list, OPEN_PANEL_LIST_ROOM, &listed), OPEN_PANEL_TAKEN,
          mended_len, mended, mended_len, what_became, "a damaged deck, mended");
    mends(open_panel_mend(bytes(damaged), damaged_len, room, mended_len, list, lines_len, &listed), OPEN_PANEL_TAKEN, mended_len,
          mended, mended_len, what_became, "the same in rooms that just fit");
    mends(open_panel_mend(bytes(mended), mended_len, room, mended_len, list, OPEN_PANEL_LIST_ROOM, &listed), OPEN_PANEL_TAKEN,
          mended_len, mended, mended_len, "kept\n", "a mended deck, mended");
    mends(open_panel_mend(bytes(damaged), damaged_len, room, mended_len - 1, list, lines_len - 1, &listed), OPEN_PANEL_ROOM,
          mended_len, "", 0, "", "both rooms one byte short");
    mends(open_panel_mend(bytes(damaged), damaged_len, room, mended_len, list, lines_len - 1, &listed), OPEN_PANEL_ROOM, lines_len,
          "", 0, "", "a list one byte short");
    mends(open_panel_mend(bytes(damaged), damaged_len, NULL, 0, NULL, 0, &listed), OPEN_PANEL_ROOM, mended_len, "", 0, "",
          "the length of a mended deck");
    mends(open_panel_mend(bytes(damaged), damaged_len, room, mended_len, NULL, 0, &listed), OPEN_PANEL_ROOM, lines_len, "", 0, "",
          "the length of a list");
    mends(open_panel_mend(bytes(damaged), 24, NULL, 0, NULL, 0, &listed), OPEN_PANEL_DECK, 0, "", 0, "", "contents cut short");
    mends(open_panel_mend(bytes(damaged), 25, room, GUARD, list, GUARD, &listed), OPEN_PANEL_DECK, 0, "", 0, "", "nothing to keep");
    mends(open_panel_mend(NULL, 0, NULL, 0, NULL, 0, &listed), OPEN_PANEL_DECK, 0, "", 0, "", "no deck to mend");

    shared_number();
    decimals();
    room_again();
    words_are_known();
    at(a, a_len, 0, 1, 1, "the first byte");
    at(bytes("ab\ncd\n"), 6, 2, 1, 3, "the end of a line");
    at(bytes("ab\ncd\n"), 6, 4, 2, 2, "the middle of the second line");
    at(bytes("ab\ncd\n"), 6, 6, 3, 1, "behind the last byte");
    at(bytes("ab\ncd\n"), 6, 7, 0, 0, "beyond the text");
    at(NULL, 0, 0, 1, 1, "a text of no length");

    if (failures == 0) {
        printf("open_panel.h: every answer as expected\n");
    }
    return failures != 0;
}
