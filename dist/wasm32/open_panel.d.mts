/** A card, a question, seats, classes or a deck: a string (UTF-8), bytes, or numbers from 0 to 255. */
export type Bytes = string | Uint8Array | ArrayBuffer | Iterable<number>;

/** Where a card lies: in which deck, its first byte there, and how many bytes it has. */
export interface Part {
    inExpansion: boolean;
    offset: number;
    length: number;
}

/** What can be kept of a damaged deck, and a line for each of its entries: `kept`, or `dropped` and a rule from 1 to 4. */
export interface Mended {
    deck: Uint8Array;
    list: string;
}

/** What a function throws when it turns something down. */
export declare class Refusal extends Error {
    /** Which refusal: one of the numbers of open_panel.h. */
    readonly number: number;
    /** Its place; for 10 the length of room that is needed, or that the deck would have with a card more; for 18 the number of a card. */
    readonly place: number;
    /** What it means. */
    readonly words: string;
    /** What the place is in, where that is a text. */
    readonly of?: "card" | "question";
    /** The place as line and column, both from 1, where it is in a text. */
    readonly line?: number;
    readonly column?: number;
}

/**
 * The library. A function whose answer is nothing throws or does not; one of a number answers the header's `value`. Seats are a state each; on a
 * card whose seats share a number (`global g`), the value that it has now stands behind them. What is handed in stays as it is: a deck that is tidied, or
 * that a card is added to, comes back as a new one, as long as it has to be.
 */
export interface Panel {
    /** `open_panel_judge` of open_panel.h. */
    judge(card: Bytes): void;
    /** `open_panel_write` of open_panel.h. */
    write(card: Bytes): string;
    /** `open_panel_reduce` of open_panel.h. */
    reduce(card: Bytes): string;
    /** `open_panel_show` of open_panel.h. */
    show(card: Bytes, seats: Bytes): string;
    /** `open_panel_watch` of open_panel.h. */
    watch(card: Bytes, seats: Bytes, classes: Bytes): string;
    /** `open_panel_ask` of open_panel.h. */
    ask(card: Bytes, question: Bytes, seats: Bytes): boolean;
    /** `open_panel_first_move` of open_panel.h. */
    firstMove(card: Bytes, seats: Bytes): number;
    /** `open_panel_odds` of open_panel.h. */
    odds(card: Bytes, question: Bytes, seats: Bytes, m: number, largest: number): number;
    /** `open_panel_box_judge` of open_panel.h. */
    boxJudge(deck: Bytes): void;
    /** `open_panel_box_find` of open_panel.h. */
    boxFind(deck: Bytes, number: number): Part;
    /** `open_panel_box_find_with` of open_panel.h. */
    boxFindWith(base: Bytes, expansion: Bytes, number: number): Part;
    /** `open_panel_box_write` of open_panel.h. */
    boxWrite(contents: Bytes, bodies: Bytes): Uint8Array;
    /** `open_panel_mend` of open_panel.h. */
    mend(deck: Bytes): Mended;
    /** `open_panel_convert` of open_panel.h. */
    convert(deck: Bytes): Uint8Array;
    /** `open_panel_tidy` of open_panel.h. */
    tidy(deck: Bytes): Uint8Array;
    /** `open_panel_add` of open_panel.h. */
    add(deck: Bytes, number: number, card: Bytes): Uint8Array;
}

/** The version of this module, and of the library that it was made with. */
export declare const version: string;
/** The header's numbers: limits, rooms, the unit. */
export declare const numbers: Readonly<Record<string, number>>;
/** What a refusal's number means. */
export declare function words(number: number): string;
/** A place of a text as line and column, both from 1, in bytes; nothing for one beyond its end. */
export declare function lineAndColumn(text: Bytes, place: number): { line: number; column: number } | undefined;
/** The library, from the file beside this one, or from a module, its bytes or its place. */
export declare function load(source?: string | URL | ArrayBuffer | ArrayBufferView | WebAssembly.Module): Promise<Panel>;
