/*
 * The open panel: rule cards judged, written, reduced to counters, and shown;
 * questions about a seating answered, and who may move; cards found in decks,
 * decks written, damaged ones mended, old ones converted, full ones tidied, and
 * cards added to them; a line of public classes for spectators.
 *
 * Link libopen_panel.a or libopen_panel.so, which dist/ has and `bin/library`
 * makes, for x86-64 and for aarch64 Linux (Android's too). Of the C library it
 * needs memcpy and memset, and nothing else: it has no state, no heap and no
 * system calls, so any number of threads may call it at once.
 *
 * The library has lengths of 64 bits, and this header compiles only where
 * size_t has. WebAssembly is reached through open_panel.mjs, not through C.
 *
 * What holds of every function here:
 *
 *   - A card, a question, the seats, a list of classes, a deck, its contents,
 *     its bodies and a room are a pointer and a length in bytes. The pointer
 *     leads to so many bytes, which nothing else writes during the call; only
 *     for a length of 0 may it be null. None of them has a closing zero byte.
 *   - A room, the part and a deck that is not const must not overlap what is
 *     only read: all others. Those may overlap each other.
 *   - Any bytes may be passed as what is only read, and as such a deck; what is
 *     wrong with them is answered, with a number and a place.
 *   - The seats are a byte for each seat of the card, its state as a number (0,
 *     not '0'), and their order does not matter. On a card that declares a number
 *     which all seats share (`global g : [0..2] init 0;`) one byte more stands
 *     behind them, the value that it has now; seats_len counts it. So a seating
 *     has up to OPEN_PANEL_SEATS + 1 bytes. On any other card there is none.
 *   - On success `number` is 0. With a room `value` is the length of the text,
 *     which stands at the room's start; the rest of the room is as it was.
 *   - On a refusal `number` says which and `value` where. The whole room is as
 *     it was, and so is a deck that would have been changed in its place.
 *   - A text is ASCII with a LF behind each line, and no closing zero byte.
 *     None is empty. A deck is no text: it is written as bytes.
 */
#ifndef OPEN_PANEL_H
#define OPEN_PANEL_H

#include <stddef.h>
#include <stdint.h>

#ifdef __cplusplus
extern "C" {
#endif

/* The version of this header; open_panel_version gives the library's. CHANGELOG.md says what each one changed. */
#define OPEN_PANEL_VERSION "0.13.0"

/* Lengths have 64 bits: a size_t of fewer would be read as another number. */
typedef char open_panel_needs_a_size_t_of_8_bytes[sizeof(size_t) == 8 ? 1 : -1];

/* Longest card and longest question, most seats and highest state, which is the highest value of a shared number too. */
#define OPEN_PANEL_CARD_BYTES 16384
#define OPEN_PANEL_QUESTION_BYTES 16384
#define OPEN_PANEL_SEATS 16
#define OPEN_PANEL_TOP_STATE 7

/* The highest public class; a spectator's line has a number for each from 0 on. */
#define OPEN_PANEL_TOP_CLASS 7

/* How many numbers each row of open_panel_odds has, how many steps it looks ahead at most, and a chance of 1. */
#define OPEN_PANEL_ODDS_ROW 512
#define OPEN_PANEL_ODDS_STEPS 32
#define OPEN_PANEL_CERTAIN 1000000

/* The weights on a panel are in units of 1 / OPEN_PANEL_UNIT. */
#define OPEN_PANEL_UNIT 277200

/* Longest deck, and most cards in it. A deck of OPEN_PANEL_DECK_BYTES is a room that every deck fits into. */
#define OPEN_PANEL_DECK_BYTES 65535
#define OPEN_PANEL_DECK_CARDS 64

/* A room that every list of open_panel_mend fits into: a line of ten bytes at most for each of OPEN_PANEL_DECK_CARDS entries. */
#define OPEN_PANEL_LIST_ROOM 640

/*
 * Rooms, in bytes, that are always enough, whatever the card and the seats:
 * this is proved. A room that is known to be enough before the text is made
 * (these are, and for open_panel_write smaller ones too, by the card's seats
 * and statements) is written in one walk; in any other room the text is
 * measured first, so that a refusal leaves the room as it was. A spectator's
 * line is short, and always measured.
 */
#define OPEN_PANEL_WRITE_ROOM 85481
#define OPEN_PANEL_REDUCE_ROOM 392972
#define OPEN_PANEL_SHOW_ROOM 5774
#define OPEN_PANEL_WATCH_ROOM 25

/*
 * Bytes of stack that a call of each function takes at most, on x86-64 and on
 * aarch64. They are not proved: they are measured, on the inputs that need most
 * (guards nested as deep as they may be, the longest texts, refusals), and a
 * test fails where a function takes more.
 */
#define OPEN_PANEL_STACK_JUDGE 10240
#define OPEN_PANEL_STACK_WRITE 11264
#define OPEN_PANEL_STACK_REDUCE 12032
#define OPEN_PANEL_STACK_SHOW 11264
#define OPEN_PANEL_STACK_ASK 10752
#define OPEN_PANEL_STACK_WATCH 10752
#define OPEN_PANEL_STACK_FIRST_MOVE 10752
#define OPEN_PANEL_STACK_ODDS 12160
#define OPEN_PANEL_STACK_BOX_JUDGE 256
#define OPEN_PANEL_STACK_BOX_FIND 256
#define OPEN_PANEL_STACK_BOX_FIND_WITH 256
#define OPEN_PANEL_STACK_BOX_WRITE 256
#define OPEN_PANEL_STACK_MEND 11008
#define OPEN_PANEL_STACK_CONVERT 12160
#define OPEN_PANEL_STACK_TIDY 256
#define OPEN_PANEL_STACK_ADD 10752

/* The numbers of the refusals, and behind the semicolon what `value` is: bytes of the card, from 21 on of the question, count from 0. */
enum open_panel_refusal {
    OPEN_PANEL_TAKEN = 0,      /* none; a text's or a deck's length, 1 for yes and 0 for no from open_panel_ask, a statement's place or 0 from
                                  open_panel_first_move, millionths from open_panel_odds, 0 where nothing is written */
    OPEN_PANEL_LONG = 1,       /* a card of more than OPEN_PANEL_CARD_BYTES; 0 */
    OPEN_PANEL_MARK = 2,       /* bytes that make no mark of a card, or a number written too long; where they begin */
    OPEN_PANEL_SHAPE = 3,      /* a mark that does not fit there; where it begins. Or none is left where one is due; card_len */
    OPEN_PANEL_LIMIT = 4,      /* more of something, or a higher top state or highest shared number, than any card may have; where the
                                  excess begins */
    OPEN_PANEL_STATE = 5,      /* a state higher than the card's highest, or a value of the shared number higher than its highest;
                                  where that begins */
    OPEN_PANEL_WORD = 6,       /* another seat or module than has to stand there, or an asymmetric group; where that begins */
    OPEN_PANEL_WEIGHT = 7,     /* a number or a fraction that is no weight; where it begins. Or weights that do not come to 1; their
                                  closing `;` */
    OPEN_PANEL_SEAT_COUNT = 8, /* seats_len differs from the number of the card's modules, or with a shared number from one more; 0 */
    OPEN_PANEL_SEAT_STATE = 9, /* a seat in a state higher than the card's highest; the index in seats of the first one. Or the
                                  shared number, behind seats that are right, is higher than its highest; its own index */
    OPEN_PANEL_ROOM = 10,      /* a room that the text, the deck or the list does not fit into; its length. From open_panel_add: a deck
                                  that the new one does not fit into; the length that this would have, also past OPEN_PANEL_DECK_BYTES */
    OPEN_PANEL_DECK = 11,      /* a malformed deck; the first byte of the first wrong field, 65,536 more in the expansion, or 0 (that much
                                  more) where the count, the contents or the length is wrong. From open_panel_box_write: the field in
                                  the contents, or contents_len where no field is wrong. From open_panel_mend: 0, also where no entry
                                  can be kept */
    OPEN_PANEL_NO_CARD = 12,   /* no live card has the number; 0. From open_panel_tidy and open_panel_add: no card is live at all; 0 */
    OPEN_PANEL_CLASSES = 13,   /* a list that has not one class for each state of the card; classes_len. Or a class above
                                  OPEN_PANEL_TOP_CLASS; the index in classes of the first one */
    OPEN_PANEL_VECTORS = 14,   /* the seats can be spread over the states in more than OPEN_PANEL_ODDS_ROW ways, each way counted
                                  once for every value of the shared number; 0 */
    OPEN_PANEL_STEPS = 15,     /* more than OPEN_PANEL_ODDS_STEPS steps; 0 */
    OPEN_PANEL_ROWS = 16,      /* a row that has not OPEN_PANEL_ODDS_ROW numbers; 0 */
    OPEN_PANEL_DECIMAL = 17,   /* a weight written as a decimal, 0.5 for 1/2, whatever its value; where it begins, a byte of the card */
    OPEN_PANEL_NOT_CONVERTED = 18, /* a live card that was not taken when decimals were, one whose written form is longer than
                                  OPEN_PANEL_CARD_BYTES, or any card that would end past OPEN_PANEL_DECK_BYTES in the new deck; the
                                  number of the first such card, which is no byte */
    OPEN_PANEL_NOT_ADDED = 19, /* a card whose number a live card of the deck has already; the first byte of that one's entry in the
                                  deck. Or one to a deck that holds OPEN_PANEL_DECK_CARDS live cards; 0 */

    OPEN_PANEL_QUESTION_LONG = 21,  /* a question of more than OPEN_PANEL_QUESTION_BYTES; 0 */
    OPEN_PANEL_QUESTION_MARK = 22,  /* bytes that make no mark, or a number written too long; where in the question they begin */
    OPEN_PANEL_QUESTION_SHAPE = 23, /* a mark that does not fit there; where it begins. Or none is left where one is due; question_len */
    OPEN_PANEL_QUESTION_LIMIT = 24, /* more nodes, or more open brackets and `!`, than a question may have; where the excess begins */
    OPEN_PANEL_QUESTION_STATE = 25, /* a state or a value of the shared number higher than the card's highest; where that begins */
    OPEN_PANEL_QUESTION_GROUP = 26  /* a group that is not of all seats alike, or an exactly-one that is none; its (outer) bracket */
};

typedef struct {
    uint8_t number; /* 0, or one of enum open_panel_refusal */
    size_t value;   /* a length, yes or no, a statement's place, or millionths, if number is 0, else the place of the refusal */
} open_panel_answer;

/* C hands back a larger struct otherwise than the library does, on some processors. */
#if defined(__STDC_VERSION__) && __STDC_VERSION__ >= 201112L
_Static_assert(sizeof(open_panel_answer) <= 16, "an answer is handed back in two registers");
#endif

/*
 * Judges a card: number 0 and value 0 if it is taken, else 1 to 7, or 17 for a
 * decimal among its weights. Of 5, 6, 7 and 17 the one that stands first on the
 * card is told. Nothing is written anywhere. A null card of length 0 is an empty
 * card: refused, 3 at 0.
 */
open_panel_answer open_panel_judge(const uint8_t *card, size_t card_len);

/*
 * Writes the card in its one written form. Two cards are the same exactly when
 * their written forms are. Refusals: 1 to 7 and 17, then 10.
 *
 * A room of OPEN_PANEL_WRITE_ROOM bytes is always enough. A null room of
 * length 0 gets 10 with the length to lend, if the card is taken; a null card
 * of length 0 gets 3 at 0. The room must not overlap the card. Untouched are
 * the card, the room behind the text, and on a refusal all of the room.
 */
open_panel_answer open_panel_write(const uint8_t *card, size_t card_len,
                                   uint8_t *room, size_t room_len);

/*
 * Writes the reduced program: counters in place of seats. Refusals: 1 to 7 and
 * 17, then 10.
 *
 * A room of OPEN_PANEL_REDUCE_ROOM bytes is always enough. A null room of
 * length 0 gets 10 with the length to lend, if the card is taken; a null card
 * of length 0 gets 3 at 0. The room must not overlap the card. Untouched are
 * the card, the room behind the text, and on a refusal all of the room.
 */
open_panel_answer open_panel_reduce(const uint8_t *card, size_t card_len,
                                    uint8_t *room, size_t room_len);

/*
 * Writes the panel of a seating. On a card with a shared number its value stands
 * on a line of its own, `shared 1` behind the counts, and every `stay` and `move`
 * ends in what it is after that; there is a `stay` for each such value. Refusals:
 * 1 to 7 and 17 of the card, then 8 and 9 of the seats, then 10.
 *
 * A room of OPEN_PANEL_SHOW_ROOM bytes is always enough. A null room of length
 * 0 gets 10 with the length to lend, if card and seats are taken. Null seats
 * of length 0 get 8 with any card that is taken, as every card has a seat; a
 * null card of length 0 gets 3 at 0. The room must overlap neither the card
 * nor the seats. Untouched are both of them, the room behind the text, and on
 * a refusal all of the room.
 */
open_panel_answer open_panel_show(const uint8_t *card, size_t card_len,
                                  const uint8_t *seats, size_t seats_len,
                                  uint8_t *room, size_t room_len);

/*
 * Writes what a spectator may see of a seating: one line, `classes` and how
 * many seats are in each public class, 0 to OPEN_PANEL_TOP_CLASS. The list has
 * one byte for each state of the card, from 0 on: that state's class. Two
 * seatings with as many seats in each class give the same bytes, so nothing
 * else about the seats can be told from it, and nothing about a shared number.
 * Refusals: those of open_panel_show, with 13 of the list, its length before its
 * classes, ahead of 10.
 *
 * A room of OPEN_PANEL_WATCH_ROOM bytes is always enough. A null room of length
 * 0 gets 10 with the length to lend, if card, seats and list are taken. A null
 * list of length 0 gets 13 at 0 with any card and seats that are taken. The
 * room must overlap none of the three. Untouched are all of them, the room
 * behind the text, and on a refusal all of the room.
 */
open_panel_answer open_panel_watch(const uint8_t *card, size_t card_len,
                                   const uint8_t *seats, size_t seats_len,
                                   const uint8_t *classes, size_t classes_len,
                                   uint8_t *room, size_t room_len);

/*
 * Answers a question about a seating: number 0, and value 1 if it holds there
 * and 0 if it does not. A question is an expression of groups that name every
 * seat, such as `!(s1=0 | s2=0)`, joined by `&` and `|`; exactly one seat in a
 * state is written out, a bracketed term for each seat:
 * `((s1=0 & s2!=0) | (s1!=0 & s2=0))`. On a card with a shared number `(g=1)` and
 * `(g!=1)` stand like groups. Refusals: 1 to 7 and 17 of the card, then 21 to 26
 * of the question, then 8 and 9.
 *
 * Nothing is written anywhere. A null card of length 0 gets 3 at 0; a null
 * question of length 0 gets 23 at 0 with any card that is taken.
 */
open_panel_answer open_panel_ask(const uint8_t *card, size_t card_len,
                                 const uint8_t *question, size_t question_len,
                                 const uint8_t *seats, size_t seats_len);

/*
 * Who may move: number 0, and as value the place on the card, from 1,
 * of the first statement that some seat may take; 0 if nobody may take any. It
 * does not ask what the statement does, and it tries no statement behind the
 * one it gives, so it takes hardly longer than open_panel_judge. On a
 * nondeterministic card it is the q of the panel's first `choice q`. Refusals:
 * those of open_panel_show without 10.
 *
 * Nothing is written anywhere. A null card of length 0 gets 3 at 0; null seats
 * of length 0 get 8 with any card that is taken.
 */
open_panel_answer open_panel_first_move(const uint8_t *card, size_t card_len,
                                        const uint8_t *seats, size_t seats_len);

/*
 * The chance that a question becomes true within m steps from a seating: number
 * 0, and value in millionths, 0 to OPEN_PANEL_CERTAIN. It is never above the
 * exact chance, and below it by at most m millionths. On a nondeterministic
 * card it is the smallest chance over the ways to choose if `largest` is 0, and
 * the largest if it is anything else; on a probabilistic card `largest` makes no
 * difference. A seating where the question holds has chance 1, and where nothing
 * can be taken more steps change nothing.
 *
 * Both rows have OPEN_PANEL_ODDS_ROW numbers; first_len and second_len count
 * numbers, not bytes. Afterwards the first holds the chance within m steps for
 * every way to spread the seats over the states, the second the chance within
 * m - 1 steps, or zeros if m is 0. These count vectors are ordered by how many
 * seats are in state 0, then in state 1 and so on, rising; on a card with a shared
 * number each stands there once for every value of it, from 0 on. Behind them stand
 * zeros. The rows are aligned as uint32_t is, and must not overlap each other or
 * anything else that is lent.
 *
 * Refusals: 1 to 7 and 17 of the card, then 21 to 26 of the question, then 8 and
 * 9 of the seats, 14, 15 and 16. A refusal leaves both rows as they were, and nothing
 * else is written anywhere. A null card of length 0 gets 3 at 0; with a card that
 * is taken a null question of length 0 gets 23 at 0, then null seats of length 0
 * get 8, and a null row of length 0 gets 16, last of all.
 */
open_panel_answer open_panel_odds(const uint8_t *card, size_t card_len,
                                  const uint8_t *question, size_t question_len,
                                  const uint8_t *seats, size_t seats_len,
                                  size_t m, uint8_t largest,
                                  uint32_t *first, size_t first_len,
                                  uint32_t *second, size_t second_len);

/*
 * A deck (a box) is a count byte, 1 to OPEN_PANEL_DECK_CARDS; so many entries of
 * eight bytes; then the bodies. An entry is the card's number, the body's offset
 * in the deck and its length, two bytes each with the low byte first, a byte 1
 * for live or 0 for withdrawn, and a byte 0. Numbers rise, and bodies lie behind
 * the entries in their order without overlap; gaps are allowed.
 *
 * Where a card lies: in the expansion (1) or not (0), its first byte there, and
 * how many bytes it has. All three are 0 on a refusal.
 */
typedef struct {
    size_t in_expansion;
    size_t offset;
    size_t length;
} open_panel_part;

/* To the library it is three numbers of eight bytes, one behind the other. */
#if defined(__STDC_VERSION__) && __STDC_VERSION__ >= 201112L
_Static_assert(sizeof(open_panel_part) == 24, "a part is three numbers of eight bytes");
#endif

/*
 * Judges a deck without reading its cards: number 0 and value 0 if it is sound,
 * else 11. A null deck of length 0 is malformed: 11 at 0.
 */
open_panel_answer open_panel_box_judge(const uint8_t *deck, size_t deck_len);

/*
 * Finds the live card of a number in a deck: number 0, value 0, and the part.
 * Refusals: 11, then 12. The card itself is not read. `part` must not be null.
 */
open_panel_answer open_panel_box_find(const uint8_t *deck, size_t deck_len,
                                      uint16_t number, open_panel_part *part);

/*
 * The same in a base deck with an expansion over it: the expansion's card if it
 * is live there, else the base's if it is live there, else 12. Both decks are
 * judged first, the base before the expansion.
 */
open_panel_answer open_panel_box_find_with(const uint8_t *base, size_t base_len,
                                           const uint8_t *expansion, size_t expansion_len,
                                           uint16_t number, open_panel_part *part);

/*
 * Writes a deck without gaps. The contents are 1 to OPEN_PANEL_DECK_CARDS entries
 * without a count byte, whose offsets are not looked at; the bodies stand one
 * behind the other, as long together as the entries say. Refusals: 11, then 10.
 * No card is read.
 *
 * A room of OPEN_PANEL_DECK_BYTES is always enough. A null room of length 0 gets
 * 10 with the length to lend, if contents and bodies make a deck. Untouched are
 * both of them, the room behind the deck, and on a refusal all of the room.
 */
open_panel_answer open_panel_box_write(const uint8_t *contents, size_t contents_len,
                                       const uint8_t *bodies, size_t bodies_len,
                                       uint8_t *room, size_t room_len);

/*
 * Mends a damaged deck: what can be kept of it goes into a new deck without gaps,
 * and what became of each entry into a list. Number 0, value the length of the new
 * deck, and in `listed` the length of the list. The list has a line for each entry
 * that the deck says it has, in their order: `kept`, or `dropped` and the number of
 * the first of these rules that the entry breaks.
 *
 *   1. Its flag is 0 or 1, and its last byte 0.
 *   2. Its card number is higher than that of every entry kept before it.
 *   3. Its body begins behind all of the contents, those of dropped entries too, and
 *      behind the last body kept, and ends within the deck; so does an empty body.
 *   4. Its card is taken (open_panel_judge), if it is live; one with a decimal for a
 *      weight is not, so convert an old deck first. A withdrawn one is not read.
 *
 * A dropped entry counts for no other. What is kept has the number, flag and body that
 * it had. Mending the new deck gives it once more, and a sound deck without gaps whose
 * live cards are all taken comes out as it is.
 *
 * Refusals: 11 at 0 where the count is wrong, the contents are cut short, the deck is
 * longer than OPEN_PANEL_DECK_BYTES, or nothing can be kept; then 10 with the length
 * of the new deck if that does not fit into its room, then 10 with the length of the
 * list if that does not fit into its own.
 *
 * A room of deck_len bytes is always enough for the new deck, and so is one of
 * OPEN_PANEL_DECK_BYTES; OPEN_PANEL_LIST_ROOM bytes are for the list. A null room of
 * length 0 gets 10 with the length to lend, and so does a null list of length 0 if the
 * room is enough; a null deck of length 0 gets 11 at 0. `listed` must not be null. The
 * room, the list and `listed` must not overlap each other or the deck. Untouched are
 * the deck, and what stands behind the new deck and behind the list in their rooms; on
 * a refusal all of both rooms and what `listed` leads to.
 */
open_panel_answer open_panel_mend(const uint8_t *deck, size_t deck_len,
                                  uint8_t *room, size_t room_len,
                                  uint8_t *list, size_t list_len,
                                  size_t *listed);

/*
 * Converts a deck from before version 0.11.0, when a weight could be a decimal, into
 * one whose live cards are all taken: number 0, and value the length of the new deck.
 * A live card with such a weight is put there in its written form (open_panel_write),
 * in which every weight is 0, 1 or a fraction; it means what it meant. Any other live
 * card stands there as it was, and so does a withdrawn one, which is not read. Cards
 * keep their numbers, flags and order, and the new deck has no gaps. Converting it
 * gives it once more.
 *
 * Refusals: 11 of the deck, with the places of open_panel_box_judge; then 18, whose
 * value is a card number and no byte: that of the first card in the deck which is live
 * and was not taken before 0.11.0 either, or has to be written and is then longer than
 * OPEN_PANEL_CARD_BYTES, or would end past OPEN_PANEL_DECK_BYTES in the new deck; then
 * 10 with the length of the new deck.
 *
 * A room of OPEN_PANEL_DECK_BYTES is always enough; one of deck_len bytes may not be,
 * as a written form can be longer than the card was. A null room of length 0 gets 10
 * with the length to lend, if every card can be converted; a null deck of length 0
 * gets 11 at 0. The room must not overlap the deck. Untouched are the deck, the room
 * behind the new deck, and on a refusal all of the room.
 */
open_panel_answer open_panel_convert(const uint8_t *deck, size_t deck_len,
                                     uint8_t *room, size_t room_len);

/*
 * Tidies a deck where it stands: withdrawn cards leave it, with their entries, and
 * the gaps close. Number 0, value the new length. All of deck_len is the deck, so it
 * may be longer than what is in use, up to OPEN_PANEL_DECK_BYTES: what is unused at its
 * end is a gap like any other. Live cards keep their numbers, their order and
 * their bytes, which are not read; behind the new length stand zeros. Tidying it once
 * more, with the zeros or without them, changes nothing.
 *
 * Refusals: 11 of the deck, with the places of open_panel_box_judge; then 12 at 0 if it
 * has no live card. On a refusal the deck is as it was. A null deck of length 0 gets 11
 * at 0.
 */
open_panel_answer open_panel_tidy(uint8_t *deck, size_t deck_len);

/*
 * Tidies a deck where it stands (open_panel_tidy) and puts a live card into it, at
 * its place by number: number 0, value the new length, behind which stand zeros. The
 * card stands there as it is lent; the number may be that of a withdrawn card, which
 * leaves the deck. deck_len is all the room there is, so lend a deck with as many bytes
 * behind it as it may grow by: OPEN_PANEL_DECK_BYTES in all are the most.
 *
 * Refusals: 11 and 12 of the deck, as open_panel_tidy has them; then those of
 * open_panel_judge, with their places on the card; then 19 at the first byte of an
 * entry, in the deck as it was lent, if a live card has the number already, or else at 0
 * if OPEN_PANEL_DECK_CARDS cards are live; then 10 with the length that the tidied deck
 * would have with the card, exactly if that is more than deck_len. On a refusal the deck
 * is as it was, and not tidied either.
 *
 * The card is only read, and must not overlap the deck, so to give one a second
 * number lend a copy of it. A null deck of length 0 gets 11 at 0; a null card of
 * length 0 gets 3 at 0 with any deck that has a live card.
 */
open_panel_answer open_panel_add(uint8_t *deck, size_t deck_len, uint16_t number,
                                 const uint8_t *card, size_t card_len);

/*
 * What is below is plain C (c/open_panel_words.c) that stands beside the module
 * in the library. It is tested and not proved. None of it allocates or writes.
 */

/* The version of the library, as OPEN_PANEL_VERSION was when it was made. */
const char *open_panel_version(void);

/*
 * What a refusal means, in a few words: ASCII without a line's end, with a
 * closing zero byte. They do not say the place. Every number has some, 0 and
 * those that are no refusal too.
 */
const char *open_panel_words(uint8_t number);

/* A place of a text as people count: line and column, both from 1, in bytes. */
typedef struct {
    size_t line;
    size_t column;
} open_panel_position;

/*
 * Where a place is in a text: of the card for 2 to 7 and 17, of the question for
 * 22 to 26; for other refusals `value` is no place in a text. The place behind the
 * last byte has a line and a column too; both are 0 for one beyond it.
 */
open_panel_position open_panel_line_and_column(const uint8_t *text, size_t text_len, size_t place);

#ifdef __cplusplus
}
#endif

#endif
