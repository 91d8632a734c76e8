/*
 * What stands in the library beside the module: its version, the refusals in
 * words, and places as line and column. Plain C, tested and not proved.
 *
 * The words are said here alone: the Rust wrapper asks open_panel_words, and
 * the JavaScript module's table is made from this file (js/tables.sh). A
 * refusal is added as a `case` of one line, or of a few that end in `;`.
 */
#include "open_panel.h"

#define TEXT_OF(number) #number
#define TEXT(number) TEXT_OF(number)

const char *open_panel_version(void) {
    return OPEN_PANEL_VERSION;
}

const char *open_panel_words(uint8_t number) {
    switch (number) {
    case OPEN_PANEL_TAKEN: return "taken";
    case OPEN_PANEL_LONG: return "the card is longer than " TEXT(OPEN_PANEL_CARD_BYTES) " bytes";
    case OPEN_PANEL_MARK: return "no mark of a card, or too many digits";
    case OPEN_PANEL_SHAPE: return "this cannot stand here, or the card ends early";
    case OPEN_PANEL_LIMIT: return "one more than a card may have";
    case OPEN_PANEL_STATE: return "a state above the card's top state, or a shared number above its highest";
    case OPEN_PANEL_WORD: return "not the seat or module due, or a group that is not symmetric";
    case OPEN_PANEL_WEIGHT: return "not a weight, or weights that do not sum to 1";
    case OPEN_PANEL_SEAT_COUNT: return "not as many seats as the card has, and one byte more if it shares a number";
    case OPEN_PANEL_SEAT_STATE: return "a seat above the card's top state, or the shared number above its highest";
    case OPEN_PANEL_ROOM: return "the room is too small";
    case OPEN_PANEL_DECK: return "a malformed deck, contents and bodies that make none, or nothing to keep";
    case OPEN_PANEL_NO_CARD: return "no live card has this number, or no card at all is live";
    case OPEN_PANEL_CLASSES: return "not one class for each state, or a class above " TEXT(OPEN_PANEL_TOP_CLASS);
    case OPEN_PANEL_VECTORS: return "the table has more than " TEXT(OPEN_PANEL_ODDS_ROW) " count vectors, or pairs of one and a shared number";
    case OPEN_PANEL_STEPS: return "more than " TEXT(OPEN_PANEL_ODDS_STEPS) " steps";
    case OPEN_PANEL_ROWS: return "a lent row does not have " TEXT(OPEN_PANEL_ODDS_ROW) " numbers";
    case OPEN_PANEL_DECIMAL: return "a decimal for a weight, where 0, 1 or a fraction has to stand";
    case OPEN_PANEL_NOT_CONVERTED: return "a card that cannot be converted, or does not fit into the new deck";
    case OPEN_PANEL_NOT_ADDED: return "a live card has this number already, or " TEXT(OPEN_PANEL_DECK_CARDS) " cards are live";
    case OPEN_PANEL_QUESTION_LONG: return "the question is longer than " TEXT(OPEN_PANEL_QUESTION_BYTES) " bytes";
    case OPEN_PANEL_QUESTION_MARK: return "no mark of a question, or too many digits";
    case OPEN_PANEL_QUESTION_SHAPE: return "this cannot stand here, or the question ends early";
    case OPEN_PANEL_QUESTION_LIMIT: return "one more than a question may have";
    case OPEN_PANEL_QUESTION_STATE: return "a state above the card's top state, or a shared number above its highest";
    case OPEN_PANEL_QUESTION_GROUP: return "a group that is not of all seats alike, or no exactly-one";
    default: return "a refusal that this library does not know";
    }
}

open_panel_position open_panel_line_and_column(const uint8_t *text, size_t text_len, size_t place) {
    open_panel_position found = {0, 0};
    size_t i;
    if (place > text_len) {
        return found;
    }
    found.line = 1;
    found.column = 1;
    for (i = 0; i < place; i++) {
        if (text[i] == '\n') {
            found.line++;
            found.column = 1;
        } else {
            found.column++;
        }
    }
    return found;
}
